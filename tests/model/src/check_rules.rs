//! The model's own tests of P5's answers: the first refusing rule, in READY and in WARN, mostly by the standard settings.

use crate::board::{count, Board};
use crate::check::{board, crossing, with, Cases};
use crate::check_older::lows;
use crate::edition::Edition::{self, First, Second};
use crate::edition::{read, Own};
use crate::program::BYTES;
use crate::settings::*;

pub fn cases() -> Cases {
    [windows(), limits(), figures(), older(), holders()].concat()
}

/// Controller n's counts `lost_r1` to `lost_r4`.
pub fn rules(board: &Board, n: usize) -> [usize; 4] {
    std::array::from_fn(|rule| board.controllers[n].counts[count::LOST_R1 + rule])
}

/// A board that carried triggers so many crossings before the next one, the first of them first. Controller 0 is in READY; code 1
/// is believed in the next crossing and moves it to WARN there.
pub fn after(settings: Settings, code: u8, before: &[usize]) -> Board {
    let mut board = board(settings, 7, 500, code);
    board.triggers = before.iter().map(|before| board.crossings - before).collect();
    board
}

/// The rule, 1 to 4, whose count a record makes grow, at whichever controller; 0 if none grows.
fn refusing(board: &mut Board, record: [u8; BYTES]) -> usize {
    let counts = |board: &Board| [0, 1, 2, 3].map(|rule| (0..8).map(|n| rules(board, n)[rule]).sum::<usize>());
    let before = counts(board);
    board.record(&record);
    let now = counts(board);
    (0..4).find(|&rule| now[rule] > before[rule]).map_or(0, |rule| rule + 1)
}

/// A rule refuses by a trigger at the far end of its window, and no longer by one just beyond it. Of several the first is named.
fn windows() -> Cases {
    let ready = |before: &[usize]| refusing(&mut after(Settings::standard(), 8, before), crossing(0, 1, 8));
    let warn = |before: &[usize]| refusing(&mut after(Settings::standard(), 1, before), crossing(0, 1, 1));
    vec![
        ("free", ready(&[]) == 0 && warn(&[]) == 0),
        ("READY, rule 1: 2 before", ready(&[2]) == 1 && ready(&[3]) == 0),
        ("READY, rule 2: two in 24 before", ready(&[24, 20]) == 2 && ready(&[25, 20]) == 0),
        ("READY, rule 3: three in 99 before", ready(&[99, 60, 30]) == 3 && ready(&[100, 60, 30]) == 0),
        ("READY, rule 4: four in 239 before", ready(&[239, 200, 150, 110]) == 4 && ready(&[240, 200, 150, 110]) == 0),
        ("READY, all four", ready(&[30, 20, 10, 2]) == 1),
        ("READY, rules 2 to 4", ready(&[30, 20, 10, 3]) == 2),
        ("READY, rules 3 and 4", ready(&[90, 60, 40, 25]) == 3),
        ("WARN, rule 1: 2 before, else rule 2", warn(&[2]) == 1 && warn(&[3]) == 2),
        ("WARN, rule 2: one in 24 before", warn(&[24]) == 2 && warn(&[25]) == 0),
        ("WARN, rule 3: two in 99 before, else rule 4", warn(&[99, 50]) == 3 && warn(&[100, 50]) == 4),
        ("WARN, rule 4: two in 239 before", warn(&[239, 150]) == 4 && warn(&[240, 150]) == 0),
        ("WARN, all four", warn(&[50, 2]) == 1),
        ("WARN, rules 2 to 4", warn(&[50, 3]) == 2),
        ("WARN, rules 3 and 4", warn(&[50, 25]) == 3),
    ]
}

/// A low limit of 0 refuses with no trigger before it.
fn limits() -> Cases {
    let warn = |low: [usize; 3]| refusing(&mut after(lows(low), 1, &[]), crossing(0, 1, 1));
    vec![
        ("r2_low 0", warn([0, 2, 2]) == 2),
        ("r3_low 0", warn([1, 0, 2]) == 3),
        ("r4_low 0", warn([1, 2, 0]) == 4),
        ("r3_low and r4_low 0", warn([1, 0, 0]) == 3),
        ("three low limits of 0", warn([0, 0, 0]) == 2),
    ]
}

/// What becomes of the holder's request in each crossing from t to t+250, as runs: the rule that refuses it, 0 where it is sent,
/// and for how many crossings.
fn runs(board: &mut Board, record: impl Fn(usize) -> [u8; BYTES]) -> Vec<(usize, usize)> {
    let rules: Vec<usize> = (0..=250).map(|t| refusing(board, record(t))).collect();
    rules.chunk_by(|one, next| one == next).map(|run| (run[0], run.len())).collect()
}

/// Document 01's figures READY (sent at t+0, 3, 25, 100, 240, 243) and WARN (sent at t+0, 25, 240) with what refuses between.
#[rustfmt::skip]
const READY: [(usize, usize); 16] = [
    (0, 1), (1, 2), (0, 1), (1, 2), (2, 19), (0, 1), (1, 2), (3, 72),
    (0, 1), (1, 2), (4, 137), (0, 1), (1, 2), (0, 1), (1, 2), (2, 5),
];
#[rustfmt::skip]
const WARN: [(usize, usize); 11] = [
    (0, 1), (1, 2), (2, 22), (0, 1), (1, 2), (2, 22), (3, 50), (4, 140), (0, 1), (1, 2), (2, 8),
];

/// "The first refusing rule is by the limits of the state after the move": WARN from t+4, as in the third figure; from t+3, where
/// READY would have sent; at t+28 and t+29, where READY would have named rule 3, as it does at t+30, where WARN would have named 2.
fn figures() -> Cases {
    let standard = |code: fn(usize) -> u8| runs(&mut after(Settings::standard(), code(0), &[]), |t| crossing(0, 1, code(t)));
    let from_4 = [(0, 1), (1, 2), (0, 1), (1, 2), (2, 22), (3, 72), (4, 140), (0, 1), (1, 2), (2, 8)];
    let at_28 = [&READY[..7], &[(2, 2), (3, 70)], &READY[8..]].concat();
    vec![
        ("READY by rules", standard(|_| 8) == READY),
        ("WARN by rules", standard(|_| 1) == WARN),
        ("WARN from t+4 by rules", standard(|t| if t < 3 { 8 } else { 1 }) == from_4),
        ("WARN from t+3 by rules", standard(|t| if t < 2 { 8 } else { 1 }) == WARN),
        ("WARN at t+28 and t+29 by rules", standard(|t| if t == 27 || t == 28 { 1 } else { 8 }) == at_28),
    ]
}

/// "An older text's `warn_blocks` has become limits of 0: under warning rule 1 refuses where it does, else rule 2." The text's own
/// low limits are its normal ones, so without it WARN is as READY.
fn older() -> Cases {
    let asked = |edition: Edition, warn_blocks: usize, first: u8, code: u8| {
        let settings = read(edition.text(&Own { settings: lows([2, 3, 4]), warn_blocks }).as_bytes());
        settings.map(|settings| runs(&mut after(settings, first, &[]), |_| crossing(0, 1, code)))
    };
    let all = |warn_blocks: usize, first: u8, code: u8, expected: &[(usize, usize)]| {
        [First, Second].iter().all(|&edition| asked(edition, warn_blocks, first, code).as_deref() == Ok(expected))
    };
    vec![
        ("warn_blocks 1, sent at t and then WARN", all(1, 8, 1, &[(0, 1), (1, 2), (2, 248)])),
        ("warn_blocks 1, WARN from t on", all(1, 1, 1, &[(2, 251)])),
        ("warn_blocks 1 in READY", all(1, 8, 8, &READY)),
        ("warn_blocks 0 in WARN", all(0, 1, 1, &READY)),
    ]
}

/// The board and the runs with one code, controllers 0 and 1 requesting and the slot going over from 0 to 1 at t and so many
/// crossings: a marker makes that crossing number 0.
pub fn handed(code: u8, crossings: usize) -> (Board, Vec<(usize, usize)>) {
    let mut board = after(with(SLOT0 + 1, 1), code, &[]);
    (board.orbits_left, board.controllers[1].state) = (1, 7);
    let runs = runs(&mut board, |t| crossing(u8::from(t == crossings), 3, code));
    (board, runs)
}

/// "All controllers' triggers count": at each hand-over the rule that refuses at once counts triggers of the previous holder
/// alone, and the figures stay.
fn holders() -> Cases {
    let shared = |code: u8, crossings: usize, of_0: [usize; 4], of_1: [usize; 4]| {
        let (board, runs) = handed(code, crossings);
        let figure = if code == 8 { READY.to_vec() } else { WARN.to_vec() };
        runs == figure && (rules(&board, 0), rules(&board, 1)) == (of_0, of_1)
    };
    vec![
        ("handed over in READY at t+1, rule 1", shared(8, 1, [0, 0, 0, 0], [12, 24, 72, 137])),
        ("handed over in READY at t+6, rule 2", shared(8, 6, [4, 0, 0, 0], [8, 24, 72, 137])),
        ("handed over in READY at t+28, rule 3", shared(8, 28, [6, 19, 0, 0], [6, 5, 72, 137])),
        ("handed over in READY at t+103, rule 4", shared(8, 103, [8, 19, 72, 0], [4, 5, 0, 137])),
        ("handed over in WARN at t+1, rule 1", shared(1, 1, [0, 0, 0, 0], [6, 52, 50, 140])),
        ("handed over in WARN at t+3, rule 2", shared(1, 3, [2, 0, 0, 0], [4, 52, 50, 140])),
        ("handed over in WARN at t+50, rule 3", shared(1, 50, [4, 44, 0, 0], [2, 8, 50, 140])),
        ("handed over in WARN at t+100, rule 4", shared(1, 100, [4, 44, 50, 0], [2, 8, 0, 140])),
    ]
}
