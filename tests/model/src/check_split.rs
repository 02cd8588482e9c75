//! The model's own tests of P5's counts: the four lines of the report, their sum, START, and calibration losses.

use crate::board::{count, Board, Cycle, Done, Lost};
use crate::check::{crossing, with, Cases};
use crate::check_rules::{after, handed, rules};
use crate::generate::generate;
use crate::program::run;
use crate::report::report;
use crate::settings::*;

pub fn cases() -> Cases {
    [calibrations(), reports(), starts(), sums()].concat()
}

/// A board whose next crossing asks the calibration trigger of controller 0, at 3490; the gap is 3563 alone.
fn at_cal(code: u8, before: &[usize]) -> Board {
    let mut board = after(with(GAP_LOW, 3563), code, before);
    (board.expected, board.controllers[0].cycle) = (3490, Cycle::Open);
    board
}

/// Whether that trigger is lost to the rule and is in `cal_lost` alone; a request beside it is lost to cal.
fn unsplit(code: u8, before: &[usize], rule: Lost) -> bool {
    let mut board = at_cal(code, before);
    let done = board.record(&crossing(0, 1, code));
    let refused = matches!(done, Done::Crossing { did, .. } if did[0].calibration == Some(Err(rule)));
    refused && board.controllers[0].counts == [1, 0, 0, 0, 0, 1, 0, 0, 0, 0, 0, 1, 0, 1]
}

/// "Calibration losses aren't split."
fn calibrations() -> Cases {
    let mut sent = at_cal(8, &[]);
    (0..6).for_each(|_| drop(sent.record(&crossing(0, 1, 8))));
    vec![
        ("READY, a calibration lost to rule 1", unsplit(8, &[2], Lost::Rule1)),
        ("READY, a calibration lost to rule 2", unsplit(8, &[24, 20], Lost::Rule2)),
        ("READY, a calibration lost to rule 3", unsplit(8, &[99, 60, 30], Lost::Rule3)),
        ("READY, a calibration lost to rule 4", unsplit(8, &[239, 200, 150, 110], Lost::Rule4)),
        ("WARN, a calibration lost to rule 1", unsplit(1, &[2], Lost::Rule1)),
        ("WARN, a calibration lost to rule 2", unsplit(1, &[24], Lost::Rule2)),
        ("WARN, a calibration lost to rule 3", unsplit(1, &[99, 50], Lost::Rule3)),
        ("WARN, a calibration lost to rule 4", unsplit(1, &[239, 150], Lost::Rule4)),
        ("a calibration sent makes rules refuse", sent.controllers[0].counts == [6, 1, 0, 0, 0, 1, 4, 4, 0, 0, 0, 1, 1, 0]),
    ]
}

/// "`lost_throttle` in the report is followed by `lost_r1` to `lost_r4`", in the block of each controller with a slot.
fn reports() -> Cases {
    let mut numbered = after(Settings::standard(), 8, &[]);
    numbered.controllers[0].counts = std::array::from_fn(|place| place + 1);
    let block = "ptc=0\nstate=7\nrequested=1\naccepted=2\nlost_state=3\nlost_slot=4\nlost_gap=5\nlost_cal=6\nlost_throttle=7\n\
        lost_r1=8\nlost_r2=9\nlost_r3=10\nlost_r4=11\ncal_requested=12\ncal_accepted=13\ncal_lost=14\nevents=0\n";
    let told = |code: u8, [lost, r1, r2, r3, r4]: [usize; 5]| {
        let lines = format!("\nlost_throttle={lost}\nlost_r1={r1}\nlost_r2={r2}\nlost_r3={r3}\nlost_r4={r4}\ncal_requested=0\n");
        report(&handed(code, 28).0).contains(&lines)
    };
    vec![
        ("a report's block", report(&numbered).ends_with(&format!("holder=0\n{block}"))),
        ("READY, the blocks of both holders", told(8, [25, 6, 19, 0, 0]) && told(8, [220, 6, 5, 72, 137])),
        ("WARN, the blocks of both holders", told(1, [26, 4, 22, 0, 0]) && told(1, [222, 2, 30, 50, 140])),
    ]
}

/// "They are run counts: START clears them", of its own controller, where it is taken.
fn starts() -> Cases {
    let (mut board, _) = handed(8, 28);
    let mut after = |command: u8| {
        board.command(1, command);
        (rules(&board, 0), rules(&board, 1))
    };
    let (of_0, of_1) = ([6, 19, 0, 0], [6, 5, 72, 137]);
    vec![
        ("START in READY is not taken and clears nothing", after(1) == (of_0, of_1)),
        ("PANIC clears nothing", after(6) == (of_0, of_1)),
        ("START clears the four counts of its controller", after(1) == (of_0, [0; 4])),
    ]
}

/// "Each at most the crossings done, their sum `lost_throttle`, for all eight", and the sum of the five causes.
fn balanced(board: &Board) -> bool {
    board.controllers.iter().all(|controller| {
        let counts = &controller.counts;
        let (causes, rules) = (&counts[count::LOST..count::LOST_R1], &counts[count::LOST_R1..count::CAL_REQUESTED]);
        let sums = (counts[count::ACCEPTED] + causes.iter().sum::<usize>(), rules.iter().sum());
        sums == (counts[count::REQUESTED], causes[4]) && counts.iter().all(|&count| count <= board.crossings)
    })
}

/// After every record of 30 seeds of a kind; each rule has refused requests when they are done.
fn sums() -> Cases {
    let sums = |kind: &str| {
        let (mut holds, mut closing) = (true, [0; 4]);
        for (text, log) in (1..=30).filter_map(|seed| generate(kind, seed)) {
            let outcome = run(&text, &log, &mut |board, _| holds &= balanced(board));
            let boards = outcome.iter().flat_map(|(board, _)| (0..8).map(|n| rules(board, n)));
            boards.for_each(|lost| (0..4).for_each(|rule| closing[rule] += lost[rule]));
        }
        holds && closing.iter().all(|&lost| lost > 0)
    };
    vec![("sums, valid", sums("valid")), ("sums, edge", sums("edge")), ("sums, rules", sums("rules"))]
}
