//! The model's own tests of "Sound", which BOARD goes by since P6 has it before STORE.

use crate::board::{Board, Cycle};
use crate::check::{board, with, Cases};
use crate::settings::*;

/// A board in READY past its first crossing, with one thing changed.
pub fn cases() -> Cases {
    let ready = || board(with(SLOT0 + 1, 2), 7, 9, 8);
    let changed = |change: fn(&mut Board)| {
        let mut board = ready();
        change(&mut board);
        board.sound()
    };
    let no_slot = |change: fn(&mut Board)| {
        let mut board = Board::fresh(with(SLOT0, 0));
        change(&mut board);
        board.sound()
    };
    let all = |changes: &[fn(&mut Board)]| changes.iter().all(|&change| changed(change));
    let none = |changes: &[fn(&mut Board)]| !changes.iter().any(|&change| changed(change));
    vec![
        ("sound boards", Board::fresh(Settings::standard()).sound() && ready().sound() && no_slot(|_| {})),
        ("settings", none(&[|board| board.settings[R1_GAP] = 1, |board| board.settings.at[6][AT_BC0] = 3444])),
        ("numbers", none(&[|board| board.crossings = 1 << 40, |board| board.expected = 3564, |board| board.orbit = 10_001])),
        ("the last ones", all(&[|board| board.crossings = (1 << 40) - 1, |board| board.expected = 3563])),
        ("states", none(&[|board| board.controllers[7].state = 20, |board| board.controllers[1].state = 3])),
        ("state 3 in controller 0", all(&[|board| board.controllers[0].state = 3])),
        ("waits", none(&[|board| board.controllers[0].wait = 1, |board| board.controllers[0].wait = 256])),
        ("a wait in state 12", all(&[|board| (board.controllers[2].state, board.controllers[2].wait) = (12, 255)])),
        ("holders", none(&[|board| board.holder = 2, |board| board.holder = 8, |board| board.holder = 9])),
        ("orbits left", none(&[|board| board.orbits_left = 0, |board| board.orbits_left = 2551])),
        ("another holder", all(&[|board| (board.holder, board.orbits_left) = (1, 20)])),
        ("holder 8", !no_slot(|board| board.orbits_left = 1) && !no_slot(|board| board.holder = 0)),
        ("codes", none(&[|board| board.held.carried[40] = 16, |board| board.held.believed[3] = 16])),
        (
            "a cycle",
            all(&[|board| board.controllers[0].cycle = Cycle::Open])
                && none(&[|board| board.controllers[1].cycle = Cycle::Armed]),
        ),
        ("an open cycle elsewhere", none(&[|board| (board.controllers[1].state, board.controllers[1].cycle) = (7, Cycle::Open)])),
        ("counts", none(&[|board| board.bc_errors = 10_001, |board| board.controllers[5].events = 10_001])),
        ("sums", none(&[|board| board.controllers[5].counts[0] = 1, |board| board.controllers[0].counts[11] = 1])),
        ("the sum of the rules", none(&[|board| (board.controllers[5].counts[0], board.controllers[5].counts[6]) = (1, 1)])),
        ("triggers", none(&[|board| board.triggers = vec![10_000], |board| board.triggers = vec![9, 9]])),
    ]
}
