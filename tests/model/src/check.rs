//! The model's own tests: document 01's printed case and worked figures, read with believed codes (document 02, P1), and some of
//! DESIGN's open points. Those of P1 are in `check_steady.rs`, of P2 in `check_editions.rs` and `check_schedules.rs`, of P3 in
//! `check_older.rs`, of P5 in `check_rules.rs` and `check_split.rs`, of P6 in `check_store.rs`, `check_sound.rs` and
//! `check_history.rs`, of P7 in `check_salvage.rs` and `check_any_log.rs`.

use crate::board::{count, Board, Cycle};
use crate::edition::{write, Edition, Own};
use crate::merge::{merge, Merged};
use crate::program::{run, BLOCK, BYTES};
use crate::refusal::Refusal;
use crate::report::{report, row};
use crate::settings::*;
use crate::steady::{carried, Held, INPUTS};
use crate::{check_any_log, check_salvage, check_store, edition};
use crate::{check_editions, check_history, check_older, check_rules, check_schedules, check_sound, check_split, check_steady};
use std::process::ExitCode;

const PRINTED: &str = "crossings=1\norbit=0\nbc_errors=0\nholder=0\nptc=0\nstate=0\nrequested=1\naccepted=0\nlost_state=1\n\
    lost_slot=0\nlost_gap=0\nlost_cal=0\nlost_throttle=0\nlost_r1=0\nlost_r2=0\nlost_r3=0\nlost_r4=0\ncal_requested=0\n\
    cal_accepted=0\ncal_lost=0\nevents=0\n";

pub type Cases = Vec<(&'static str, bool)>;

pub fn check() -> ExitCode {
    let base = [figures(), merges(), moves(), cycles(), texts(), blocks()].concat();
    let to_p3 = [check_steady::cases(), check_editions::cases(), check_schedules::cases(), check_older::cases()].concat();
    let of_p6 = [check_store::cases(), check_sound::cases(), check_history::cases()].concat();
    let of_p7 = [check_salvage::cases(), check_any_log::cases()].concat();
    let cases = [base, to_p3, check_rules::cases(), check_split::cases(), of_p6, of_p7].concat();
    let failed: Vec<_> = cases.iter().filter(|(_, holds)| !holds).collect();
    failed.iter().for_each(|(name, _)| println!("failed: {name}"));
    println!("{} passed, {} failed", cases.len() - failed.len(), failed.len());
    ExitCode::from(u8::from(!failed.is_empty()))
}

/// A crossing with every code the same.
pub fn crossing(marker: u8, requests: u8, code: u8) -> [u8; BYTES] {
    let mut record = [code << 4 | code; BYTES];
    (record[0], record[1], record[2], record[3]) = (0, marker, requests, code);
    record
}

/// The standard settings with one shared value changed.
pub fn with(place: usize, value: usize) -> Settings {
    let mut settings = Settings::standard();
    settings[place] = value;
    settings
}

/// A board past its first crossing with controller 0 in the given state, the number that it expects, and the code that it
/// believes of every input, which is the one carried last too.
pub fn board(settings: Settings, state: usize, expected: usize, code: u8) -> Board {
    let mut board = Board::fresh(settings);
    (board.crossings, board.expected, board.controllers[0].state, board.held) = (10_000, expected, state, Held::all(code));
    board
}

/// The crossings, from the first on, in which controller 0 sends a trigger, and how many requests it loses to the gap. The code
/// of the first crossing is believed in it.
fn sent(first: usize, requests: fn(usize) -> bool, code: fn(usize) -> u8) -> (Vec<usize>, usize) {
    let mut board = board(Settings::standard(), 7, first, code(0));
    let mut sends = |t: &usize| row(&board.record(&crossing(0, u8::from(requests(*t)), code(*t))))[0] & 0x10 != 0;
    let sent = (0..400).filter(|t| sends(t)).collect();
    (sent, board.controllers[0].counts[4])
}

fn figures() -> Cases {
    let (to_250, standard): (fn(usize) -> bool, _) = (|t| t <= 250, Settings::standard());
    let printed = |edition: Edition| {
        let outcome = run(edition.text(&Own::of(&standard)).as_bytes(), &crossing(0, 1, 8), &mut |_, _| {});
        outcome.map(|(board, _)| report(&board)).as_deref() == Ok(PRINTED)
    };
    let mut started = Board::fresh(standard.clone());
    started.command(0, 1);
    let rows = (0..7430).map(|t| (t, row(&started.record(&crossing(0, 1, 8)))[0]));
    let codes: Vec<(usize, u8)> = rows.filter(|(_, byte)| ![0, 1, 11].contains(byte)).collect();
    vec![
        ("the printed case, edition 1", printed(Edition::First)),
        ("the printed case, edition 2", printed(Edition::Second)),
        ("the printed case, edition 3", printed(Edition::Third)),
        ("READY", sent(500, to_250, |_| 8).0 == [0, 3, 25, 100, 240, 243]),
        ("WARN", sent(500, to_250, |_| 1).0 == [0, 25, 240]),
        ("WARN believed from t+4", sent(500, to_250, |t| if t < 3 { 8 } else { 1 }).0 == [0, 3, 240]),
        ("WARN carried from t+3, believed from t+4", sent(500, |t| t <= 3, |t| if t < 3 { 8 } else { 1 }).0 == [0, 3]),
        ("gap", sent(3443, |t| [0, 1, 120, 121].contains(&t), |_| 8) == (vec![0, 121], 2)),
        ("START", codes == [(100, 5), (3964, 8), (4064, 9), (7428, 7), (7429, 0x10)]),
    ]
}

fn merges() -> Cases {
    let with_11 = |byte: usize, value: u8| {
        let mut record = crossing(0, 0, 8);
        record[byte] = value;
        merge(&Settings::standard(), &carried(&record), 0)
    };
    let ignoring = |code| merge(&with(IGNORE_DISC, 1), &[code; INPUTS], 0);
    let after_marker = |expected| {
        let mut board = board(Settings::standard(), 0, expected, 8);
        board.record(&crossing(1, 0, 8));
        (board.bc_errors, board.orbit, board.expected)
    };
    vec![
        ("code 11 from partition 23", with_11(15, 0xB8) == Merged::Bad),
        ("code 11 from partition 24", with_11(16, 0x8B) == Merged::Busy),
        ("code 11 from the GTFE", with_11(3, 11) == Merged::Bad),
        ("all disconnected and ignored", ignoring(0) == Merged::None && ignoring(15) == Merged::None),
        ("marker at expected 5", after_marker(5) == (1, 1, 1)),
        ("marker at expected 0", after_marker(0) == (0, 1, 1)),
    ]
}

/// The next three states of controller 0 after a command, with the given code, believed from the start.
fn states(settings: Settings, state: usize, expected: usize, command: u8, code: u8) -> Vec<usize> {
    let mut board = board(settings, state, expected, code);
    board.command(0, command);
    let mut next = |_| {
        board.record(&crossing(0, 0, code));
        board.controllers[0].state
    };
    (0..3).map(&mut next).collect()
}

fn moves() -> Cases {
    let standard = Settings::standard;
    let taken = |state, command| row(&board(standard(), state, 9, 8).command(0, command))[0] == 0xF0;
    let mut started = board(standard(), 0, 9, 8);
    (started.controllers[0].counts, started.controllers[0].events) = ([1; count::ALL], 5);
    started.command(0, 1);
    let (counts, events) = (started.controllers[0].counts, started.controllers[0].events);
    vec![
        ("RESYNC in state 11", !taken(11, 4) && taken(10, 4)),
        ("PANIC in state 0", taken(0, 6)),
        ("a wait of 1 falls at number 0 and moves after it", states(with(SETTLE_RESYNC, 1), 7, 3563, 4, 8) == [15, 15, 16]),
        ("a wait set just before number 0 falls there", states(with(SETTLE_RESYNC, 1), 7, 0, 4, 8) == [15, 16, 16]),
        ("a wait of 0 moves in the next crossing", states(with(SETTLE_RESYNC, 0), 7, 9, 4, 8) == [16, 16, 16]),
        ("state 2 on error", states(standard(), 2, 9, 5, 12) == [18, 18, 18]),
        ("state 2 on busy", states(standard(), 2, 9, 5, 4) == [3, 3, 3]),
        ("state 9 leaves through 6", states(standard(), 9, 9, 5, 8) == [6, 7, 7]),
        ("START clears the counts, not the events", (counts, events) == ([0; count::ALL], 5)),
    ]
}

fn cycles() -> Cases {
    let after_the_slot = |slot1, cycle| {
        let mut board = board(with(SLOT0 + 1, slot1), 7, 3100, 8);
        (board.orbits_left, board.controllers[0].cycle) = (1, cycle);
        board.record(&crossing(1, 0, 8));
        (board.controllers[0].cycle == cycle, board.holder, board.orbits_left)
    };
    let mut board = board(with(GAP_LOW, 3563), 7, 2999, 8);
    board.command(0, 5);
    let rows: Vec<u8> = (2999..3500).map(|_| row(&board.record(&crossing(0, 1, 8)))[0]).collect();
    let counts = board.controllers[0].counts;
    vec![
        ("a lone controller keeps its open cycle", after_the_slot(0, Cycle::Open) == (true, 0, 2550)),
        ("losing the slot drops an open cycle", after_the_slot(3, Cycle::Open) == (false, 1, 30)),
        ("an armed cycle survives the loss", after_the_slot(3, Cycle::Armed) == (true, 1, 30)),
        ("a whole cycle", (rows[0], rows[1], rows[401], rows[491]) == (0x10, 13, 2, 0x20)),
        ("requests from at_wte to at_cal are lost to cal", (counts[5], &counts[count::CAL_REQUESTED..]) == (491, &[1, 1, 0][..])),
        ("events count both kinds", board.controllers[0].events == counts[1] + 1),
    ]
}

/// Document 01's own text, now edition 1.
fn texts() -> Cases {
    let standard = Edition::First.text(&Own::of(&Settings::standard()));
    let refused = |from: &str, to: &str| edition::read(standard.replace(from, to).as_bytes()).err();
    let cut = |bytes: usize| edition::read(&standard.as_bytes()[..bytes]).err();
    let unordered = standard.replace("at_te=3400", "at_te=3491");
    vec![
        ("the standard text", standard.lines().count() == 71 && cut(standard.len()).is_none()),
        ("r2_period 63", refused("r2_period=25", "r2_period=63").is_none()),
        ("r2_period 64", refused("r2_period=25", "r2_period=64") == Some(Refusal::Range(5))),
        ("five digits", refused("orbit=3564", "orbit=99999") == Some(Refusal::Range(1))),
        ("six digits", refused("orbit=3564", "orbit=003564") == Some(Refusal::Text(1))),
        ("text that stops early", cut(0) == Some(Refusal::Text(1)) && cut(standard.len() - 1) == Some(Refusal::Text(71))),
        ("the first faulty line decides", refused("r1_gap=2\nr2_period=25", "r1_gap=8\nr2_period=+") == Some(Refusal::Range(4))),
        ("relation 4", edition::read(unordered.as_bytes()).err() == Some(Refusal::Relation(4, 0))),
        ("the tail comes before relations", edition::read((unordered + "\n").as_bytes()).err() == Some(Refusal::Text(72))),
        ("relation 2 before 4", refused("at_te=3400", "at_te=3564") == Some(Refusal::Relation(2, 0))),
    ]
}

fn blocks() -> Cases {
    let text = write(&Settings::standard()).into_bytes();
    let good: Vec<u8> = crossing(0, 1, 8).repeat(65);
    let mut spoilt = good.clone();
    (spoilt[3 * BYTES], spoilt[BLOCK]) = (2, 2);
    let late = [&good[..BLOCK], &spoilt[BLOCK..]].concat();
    let refused = |log: &[u8]| run(&text, log, &mut |_, _| {}).err();
    vec![
        ("no log and a whole one", refused(&[]).is_none() && refused(&good).is_none()),
        ("a broken tail after 64 records", refused(&good[..BLOCK + 5]) == Some(Refusal::Length)),
        ("LENGTH before RECORD in a block", refused(&spoilt[..BLOCK - 1]) == Some(Refusal::Length)),
        ("RECORD in a block before the broken tail", refused(&spoilt[..BLOCK + 1]) == Some(Refusal::Record(3))),
        ("the index counts within the block", refused(&late) == Some(Refusal::Record(0))),
    ]
}
