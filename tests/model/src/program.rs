//! Document 01, "What the desk offers": the settings text and the whole log, block by block, also with a store beside the board
//! (document 02, P6); and REQUESTS section 4, `desk_edition` and `desk_history`.

use crate::board::{Board, Done};
use crate::edition::{read, write};
use crate::refusal::Refusal;
use crate::report::row;
use crate::steady::GTFE;
use crate::store::{one_code, Store};

/// Bytes of a record and of a block.
pub const BYTES: usize = 24;
pub const BLOCK: usize = 64 * BYTES;

/// The settings text and then the log: the last board and all rows, or the first refusal.
pub fn run(text: &[u8], log: &[u8], watch: &mut dyn FnMut(&Board, &Done)) -> Result<(Board, Vec<u8>), Refusal> {
    run_board(Board::fresh(read(text)?), log, watch)
}

/// "Runs the log in blocks of 64 records, the last holding what is left with any broken tail." `watch` sees the board after each
/// record, and what it did.
pub fn run_board(mut board: Board, log: &[u8], watch: &mut dyn FnMut(&Board, &Done)) -> Result<(Board, Vec<u8>), Refusal> {
    let mut rows = Vec::new();
    for block in log.chunks(BLOCK) {
        check(block)?;
        for record in block.chunks(BYTES) {
            let done = board.record(record);
            rows.extend(row(&done));
            watch(&board, &done);
        }
    }
    Ok((board, rows))
}

/// "A block may be run with a store beside the board, which follows one input's believed code." Refusals: BOARD, STORE, "then
/// RANGE, carrying the input, above 40", then the block's own; they leave the board, the store and the rows, which otherwise grow
/// by the block's.
pub fn beside(board: &mut Board, store: &mut Store, input: usize, block: &[u8], rows: &mut Vec<u8>) -> Result<(), Refusal> {
    if !board.sound() {
        return Err(Refusal::Board);
    }
    store.groups()?;
    if input > GTFE {
        return Err(Refusal::Range(input));
    }
    check(block)?;
    for record in block.chunks(BYTES) {
        let before = board.held.believed[input];
        let done = board.record(record);
        follow(store, before, board.held.believed[input], &done);
        rows.extend(row(&done));
    }
    Ok(())
}

/// "A change is: the believed code after this crossing's step 2 differs from the one before it, with 0 and 15 taken as one"
/// (REQUESTS section 3). It has the crossing's number, and the orbit count of its step 1. A command changes no code.
pub fn follow(store: &mut Store, before: u8, now: u8, done: &Done) {
    if let Done::Crossing { number, orbit, .. } = done {
        if one_code(before) != one_code(now) {
            store.keep(*orbit, *number, now);
        }
    }
}

/// The settings text and then the log, a fresh store beside the fresh board: the last board, the store and all rows, or the first
/// refusal. RANGE of the input is the first block's; a log of no bytes has no block to refuse it.
pub fn run_beside(text: &[u8], log: &[u8], input: usize) -> Result<(Board, Store, Vec<u8>), Refusal> {
    let (mut board, mut store, mut rows) = (Board::fresh(read(text)?), Store::fresh(), Vec::new());
    for block in log.chunks(BLOCK) {
        beside(&mut board, &mut store, input, block, &mut rows)?;
    }
    Ok((board, store, rows))
}

/// What `desk_history` prints: "the read-out of a store that followed the input through the whole log, 7 bytes for each change", or
/// "`refused=N` alone".
pub fn history(text: &[u8], log: &[u8], input: usize) -> Vec<u8> {
    let read_out = run_beside(text, log, input).and_then(|(_, store, _)| store.retained());
    read_out.unwrap_or_else(|refusal| refused(refusal).into_bytes())
}

/// What `desk_edition` prints: "`board.set` in the newest edition", or "`refused=N` alone".
pub fn edition(text: &[u8]) -> String {
    read(text).map_or_else(refused, |settings| write(&settings))
}

/// "`refused=N` and a newline with the first refusal's number and nothing else."
pub fn refused(refusal: Refusal) -> String {
    format!("refused={}\n", refusal.number())
}

/// "Block: 4, 5, 6, 7, 8": LENGTH before RECORD, which carries the index of the first ill-formed record.
fn check(block: &[u8]) -> Result<(), Refusal> {
    if block.len() % BYTES != 0 {
        return Err(Refusal::Length);
    }
    let ill_formed = block.chunks(BYTES).position(|record| !well_formed(record));
    ill_formed.map_or(Ok(()), |index| Err(Refusal::Record(index)))
}

/// "Crossing: byte 0 = 0; byte 1 = orbit marker 0 or 1; ... byte 3 = GTFE code 0..15. Command: byte 0 = 1; byte 1 =
/// controller 0..7; byte 2 = command 1..6; the rest 0. Anything else is ill-formed."
pub fn well_formed(record: &[u8]) -> bool {
    match record[0] {
        0 => record[1] <= 1 && record[3] <= 15,
        1 => record[1] <= 7 && (1..=6).contains(&record[2]) && record[3..].iter().all(|&byte| byte == 0),
        _ => false,
    }
}
