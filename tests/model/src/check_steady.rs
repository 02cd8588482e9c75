//! The model's own tests of P1's sequences of codes, also over block ends, commands and markers.

use crate::board::Board;
use crate::check::{board, crossing, with, Cases};
use crate::edition::write;
use crate::program::{run, BYTES};
use crate::settings::*;
use crate::steady::{GTFE, INPUTS};

pub fn cases() -> Cases {
    [sequences(), between()].concat()
}

/// Whether a fresh board, all inputs carrying the given codes, believes the given ones of all inputs, crossing by crossing.
fn believes(carried: &[u8], believed: &[u8]) -> bool {
    let mut board = Board::fresh(Settings::standard());
    carried.iter().zip(believed).all(|(&carried, &believed)| {
        board.record(&crossing(0, 0, carried));
        board.held.believed == [believed; INPUTS]
    })
}

/// The states of controller 0, from READY on, while all inputs carry the codes.
fn ready_then(codes: &[u8]) -> Vec<usize> {
    let mut board = board(Settings::standard(), 7, 9, 8);
    let mut state = |code: &u8| {
        board.record(&crossing(0, 0, *code));
        board.controllers[0].state
    };
    codes.iter().map(&mut state).collect()
}

fn sequences() -> Cases {
    let mut settings = with(RECOVER_RESYNC, 0);
    (settings.at[0][AT_BC0], settings.at[0][AT_RESYNC]) = (100, 0);
    let fresh_then = |codes: [u8; 2]| {
        let mut board = Board::fresh(settings.clone());
        board.command(0, 1);
        codes.iter().for_each(|&code| drop(board.record(&crossing(0, 0, code))));
        board.controllers[0].state
    };
    let with_bytes = |bytes: &[(usize, u8)]| {
        let mut board = board(Settings::standard(), 7, 9, 8);
        for &(byte, value) in bytes {
            let mut record = crossing(0, 0, 8);
            record[byte] = value;
            board.record(&record);
        }
        (0..INPUTS).filter(|&input| board.held.believed[input] == 4).collect::<Vec<_>>()
    };
    vec![
        ("a fresh board believes 0", believes(&[8, 8], &[0, 8]) && believes(&[4, 8], &[0, 0])),
        ("8 8 0 8", believes(&[8, 8, 0, 8], &[0, 8, 8, 8])),
        ("8 8 0 4 0 4", believes(&[8, 8, 0, 4, 0, 4], &[0, 8, 8, 8, 8, 8])),
        ("0 then 15", believes(&[8, 8, 0, 15, 15, 0], &[0, 8, 8, 8, 15, 15])),
        ("a bounce past state 9", ready_then(&[0, 8, 0, 15, 0, 8]) == [7; 6]),
        ("state 9 in the second crossing, and out in the second", ready_then(&[0, 0, 8, 8, 8]) == [7, 9, 9, 6, 7]),
        ("state 2 looks at the fresh board's 0", fresh_then([8, 4]) == 18 && fresh_then([8, 8]) == 3),
        ("the same code on another input", with_bytes(&[(5, 0x48), (6, 0x84), (3, 4), (20, 0x84)]).is_empty()),
        ("one input alone", with_bytes(&[(5, 0x48), (5, 0x48)]) == [3] && with_bytes(&[(3, 4), (3, 4)]) == [GTFE]),
    ]
}

/// Block ends, commands and markers between the two crossings that carry a code.
fn between() -> Cases {
    let text = write(&Settings::standard()).into_bytes();
    let closing = |log: &[[u8; BYTES]]| run(&text, &log.concat(), &mut |_, _| {}).map(|(board, _)| board.held.believed);
    let over_block_end =
        |code, next| closing(&[&[crossing(0, 0, 8); 63][..], &[crossing(0, 0, code), crossing(0, 0, next)]].concat());
    let mut command = [0; BYTES];
    (command[0], command[2]) = (1, 1);
    let over_commands =
        |code, next| closing(&[crossing(0, 0, 8), crossing(0, 0, 8), crossing(0, 0, code), command, command, next]);
    vec![
        ("believed over a block end", over_block_end(4, 4) == Ok([4; INPUTS])),
        ("a bounce at a block end", over_block_end(4, 8) == Ok([8; INPUTS]) && over_block_end(0, 4) == Ok([8; INPUTS])),
        ("believed over commands", over_commands(4, crossing(0, 0, 4)) == Ok([4; INPUTS])),
        ("believed over commands and a marker", over_commands(4, crossing(1, 0, 4)) == Ok([4; INPUTS])),
        ("a bounce before commands", over_commands(4, crossing(1, 0, 8)) == Ok([8; INPUTS])),
    ]
}
