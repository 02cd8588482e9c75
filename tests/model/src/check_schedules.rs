//! The model's own tests of P2's runs: each controller goes by its own schedule.

use crate::board::{count, Board, Cycle};
use crate::check::{board, crossing, with, Cases};
use crate::edition::Edition::{First, Second};
use crate::edition::{values, Own};
use crate::generate::generate;
use crate::program::run;
use crate::report::row;
use crate::settings::*;

pub fn cases() -> Cases {
    [codes(), moves(), calibrations(), as_before()].concat()
}

/// The standard settings, controller n being later by 3 n crossings in everything.
fn later() -> Settings {
    let mut settings = Settings::standard();
    for (n, at) in settings.at.iter_mut().enumerate() {
        *at = at.map(|number| number + 3 * n);
    }
    settings
}

/// The numbers of one orbit at which controller n sends the code, all codes being 8.
fn numbers(board: &mut Board, n: usize, code: u8) -> Vec<usize> {
    let mut sends = |_: &usize| row(&board.record(&crossing(0, 0, 8)))[n] == code;
    (0..3564).filter(|number| sends(number)).collect()
}

/// "In every state code 1 is sent at at_bc0 and 11 at at_gap", of all eight at their own numbers, with a slot or without.
fn codes() -> Cases {
    let all = |code: u8, of_0: usize| (0..8).all(|n| numbers(&mut Board::fresh(later()), n, code) == [of_0 + 3 * n]);
    let mut swapped = Settings::standard();
    (swapped.at[4][AT_BC0], swapped.at[4][AT_GAP]) = (3444, 0);
    let row_at_0 = row(&Board::fresh(swapped).record(&crossing(0, 0, 8)));
    vec![
        ("code 1 of each at its own number", all(1, 0)),
        ("code 11 of each at its own number", all(11, 3444)),
        ("1 and 11 in one crossing, of two controllers", row_at_0[..8] == [1, 1, 1, 1, 11, 1, 1, 1]),
    ]
}

/// The crossings, from the given number on, in which controller n sends a code that is neither 1 nor 11, and the code.
fn sent(settings: Settings, n: usize, state: usize, command: u8, expected: usize) -> Vec<(usize, u8)> {
    let mut board = board(settings, 0, expected, 8);
    board.controllers[n].state = state;
    board.command(n, command);
    let rows = (expected..8000).map(|t| (t, row(&board.record(&crossing(0, 0, 8)))[n]));
    rows.filter(|(_, byte)| ![0, 1, 11].contains(byte)).collect()
}

fn moves() -> Cases {
    let mut quick = with(SETTLE_HARD, 0);
    (quick[RECOVER_HARD], quick[SETTLE_RESYNC], quick[RECOVER_RESYNC], quick.at) = (0, 0, 0, later().at);
    let mut turned = later();
    turned.at[2] = [100, 3400, 0, 600, 500, 400, 300, 200, 3444, 3000, 3490];
    vec![
        ("START of controller 0", sent(later(), 0, 0, 1, 1) == [(100, 5), (3964, 8), (4064, 9), (7428, 7)]),
        ("START of controller 2", sent(later(), 2, 0, 1, 1) == [(106, 5), (4070, 9), (7434, 7)]),
        ("START by another order", sent(turned, 2, 0, 1, 1) == [(3564, 5), (7428, 9), (7628, 7)]),
        ("STOP of controller 5", sent(later(), 5, 7, 2, 1) == [(615, 10)]),
        ("HARD of controller 7", sent(quick.clone(), 7, 7, 3, 1) == [(221, 6), (3685, 5), (3885, 7)]),
        ("RESYNC of controller 6", sent(quick, 6, 8, 4, 1) == [(118, 5), (318, 7)]),
    ]
}

/// The bytes of a row other than 0, 1 and 11 of controller n, from its CALIBRATE before the given number on: number and byte.
fn cycle(settings: Settings, n: usize, expected: usize) -> Vec<(usize, u8)> {
    let mut board = board(settings, 0, expected, 8);
    (board.holder, board.controllers[n].state) = (n, 7);
    board.command(n, 5);
    let rows = (expected..3564).map(|number| (number, row(&board.record(&crossing(0, 0, 8)))[n]));
    rows.filter(|(_, byte)| ![0, 1, 11].contains(byte)).collect()
}

/// How many requests controller n, the holder, loses to its cycle from 2990 on, the gap beginning at 3444.
fn lost_to_cal(settings: Settings, n: usize) -> usize {
    let mut board = board(settings, 0, 2990, 8);
    (board.holder, board.controllers[n].state) = (n, 7);
    board.command(n, 5);
    (2990..3564).for_each(|_| drop(board.record(&crossing(0, 0xFF, 8))));
    board.controllers[n].counts[5]
}

/// "Two groups can't both have their calibration at 3490."
fn calibrations() -> Cases {
    let mut two = with(SLOT0 + 1, 1);
    (two.at[1][AT_WTE], two.at[1][AT_TE], two.at[1][AT_CAL]) = (3400, 3490, 3500);
    let mut handed = board(two.clone(), 7, 3490, 8);
    (handed.orbits_left, handed.controllers[0].cycle, handed.controllers[1].state) = (1, Cycle::Open, 7);
    handed.command(1, 5);
    let rows: Vec<[u8; 12]> = (3490..3564 + 3564).map(|_| row(&handed.record(&crossing(0, 0, 8)))).collect();
    let sent = |n: usize, byte: u8| rows.iter().position(|row| row[n] == byte).map(|place| (3490 + place) % 3564);
    let counts = |n: usize| handed.controllers[n].counts[count::CAL_REQUESTED..] == [1, 1, 0];
    let (of_0, of_1) = (lost_to_cal(two.clone(), 0), lost_to_cal(two.clone(), 1));
    vec![
        ("the cycle of controller 0", cycle(two.clone(), 0, 2990) == [(3000, 13), (3400, 2), (3490, 0x20)]),
        ("the cycle of controller 1", cycle(two.clone(), 1, 2990) == [(3400, 13), (3490, 2), (3500, 0x20)]),
        ("armed after its own at_wte", cycle(two, 1, 3401).is_empty()),
        (
            "both in one log",
            (sent(0, 0x20), sent(1, 13), sent(1, 2), sent(1, 0x20)) == (Some(3490), Some(3400), Some(3490), Some(3500)),
        ),
        ("each counts its own", counts(0) && counts(1)),
        ("a cycle is open from its own at_wte", (of_0, of_1) == (444, 44)),
    ]
}

/// "Text that begins with `orbit=` is still read, its schedule given to all eight, and runs as before": as edition 2 with eight
/// equal schedules.
fn as_before() -> Cases {
    let same = |kind: &str, seed: usize| {
        let (text, log) = generate(kind, seed).unwrap_or_default();
        let own = values(&text).unwrap_or(Own::of(&Settings::standard()));
        let rows = |text: &[u8]| run(text, &log, &mut |_, _| {}).map(|(_, rows)| rows);
        let second = rows(Second.text(&own).as_bytes());
        text.starts_with(b"orbit=") && rows(&text) == second && second.is_ok_and(|rows| rows.len() == log.len() / 2)
    };
    let other = Own::of(&later());
    let log: Vec<u8> = crossing(0, 0, 8).repeat(10);
    let rows = |text: String| run(text.as_bytes(), &log, &mut |_, _| {}).map(|(_, rows)| rows);
    vec![
        ("a short orbit in edition 1", same("valid", 3) && same("valid", 6)),
        ("edges in edition 1", same("edge", 3) && same("edge", 9)),
        ("standard settings in edition 1", same("standard", 3)),
        ("other schedules run otherwise", rows(First.text(&other)) != rows(Second.text(&other))),
    ]
}
