//! Document 01, "Report", with document 02, P5, and "Records and rows": what the program prints, and the rows.

use crate::board::{count, Board, Controller, Done};
use crate::settings::SLOT0;

/// The run counts by name, in the report's order: "`lost_throttle` in the report is followed by `lost_r1` to `lost_r4`".
#[rustfmt::skip]
const COUNTS: [&str; count::ALL] = [
    "requested", "accepted", "lost_state", "lost_slot", "lost_gap", "lost_cal", "lost_throttle",
    "lost_r1", "lost_r2", "lost_r3", "lost_r4", "cal_requested", "cal_accepted", "cal_lost",
];

/// "Common lines, then a block for each controller with a slot above 0, rising."
pub fn report(board: &Board) -> String {
    let Board { crossings, orbit, bc_errors, holder, .. } = board;
    let mut report = format!("crossings={crossings}\norbit={orbit}\nbc_errors={bc_errors}\nholder={holder}\n");
    for n in (0..8).filter(|n| board.settings[SLOT0 + n] > 0) {
        let Controller { state, counts, events, .. } = &board.controllers[n];
        let counts: String = COUNTS.iter().zip(counts).map(|(name, count)| format!("{name}={count}\n")).collect();
        report += &format!("ptc={n}\nstate={state}\n{counts}events={events}\n");
    }
    report
}

/// "Each record gives 12 bytes. Crossing: byte n for controller n, bits 0–3 the command code sent or 0, bit 4 a request sent as
/// trigger, bit 5 a calibration trigger sent; then four bytes of status codes. Command: byte 0 is 0xF0 taken or 0xF1 not taken."
pub fn row(done: &Done) -> [u8; 12] {
    let mut row = [0; 12];
    match done {
        Done::Command { taken, .. } => row[0] = if *taken { 0xF0 } else { 0xF1 },
        Done::Crossing { did, .. } => {
            for (n, did) in did.iter().enumerate() {
                let (request, calibration) = (did.request == Some(Ok(())), did.calibration == Some(Ok(())));
                row[n] = did.code | u8::from(request) << 4 | u8::from(calibration) << 5;
                row[8 + n / 2] |= status(did.state) << (4 * (n % 2));
            }
        }
    }
    row
}

/// "Status out: 0 gives 10; 7 gives 8; 8 gives 1; 9 gives 0; 10 gives 2; 11 and 18 give 12; the others 4."
fn status(state: usize) -> u8 {
    match state {
        0 => 10,
        7 => 8,
        8 => 1,
        9 => 0,
        10 => 2,
        11 | 18 => 12,
        _ => 4,
    }
}
