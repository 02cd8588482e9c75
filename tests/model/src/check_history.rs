//! The model's own tests of P6's runs: which changes a store beside the board follows, the refusals, and `desk_history`.

use crate::board::{Board, Done};
use crate::check::{board, crossing, Cases};
use crate::check_store::{tells, told, Change};
use crate::edition::write;
use crate::generate::{generate, KINDS};
use crate::journal::set_code;
use crate::program::{beside, history, run, run_beside, BLOCK, BYTES};
use crate::refusal::Refusal;
use crate::report::report;
use crate::settings::*;
use crate::steady::{GTFE, INPUTS};
use crate::store::{Store, MOST, WORDS};

pub fn cases() -> Cases {
    [changes(), orbits(), between(), refusals(), programs(), seeds()].concat()
}

/// What a fresh store beside the board tells of an input after the records as one block.
fn follows(board: &mut Board, input: usize, records: &[[u8; BYTES]]) -> Option<Vec<Change>> {
    let mut store = Store::fresh();
    beside(board, &mut store, input, &records.concat(), &mut Vec::new()).ok()?;
    tells(&store)
}

/// Crossings with every code the same, without markers.
fn carrying(codes: &[u8]) -> Vec<[u8; BYTES]> {
    codes.iter().map(|&code| crossing(0, 0, code)).collect()
}

/// "A change is: the believed code after this crossing's step 2 differs from the one before it, with 0 and 15 taken as one. Only
/// changes are kept, none for the beginning."
fn changes() -> Cases {
    let fresh = |codes: &[u8], changes: &[(usize, u8)]| {
        let told = follows(&mut Board::fresh(Settings::standard()), 5, &carrying(codes));
        told == Some(changes.iter().map(|&(number, code)| (0, number, code)).collect())
    };
    let mut codes = [crossing(0, 0, 8); 2 + 2 * INPUTS];
    (0..INPUTS).for_each(|input| codes[2 + 2 * input..].iter_mut().for_each(|record| set_code(record, input, 4)));
    let text = write(&Settings::standard()).into_bytes();
    let in_turn = |input: usize| told(&history(&text, &codes.concat(), input)) == Some(vec![(0, 1, 8), (0, 2 * input + 3, 4)]);
    vec![
        ("the first change", fresh(&[8], &[]) && fresh(&[8, 8], &[(1, 8)]) && fresh(&[8; 9], &[(1, 8)])),
        ("none for the beginning", fresh(&[0, 0, 0], &[])),
        ("from a fresh board's 0 to 15", fresh(&[15, 15, 15], &[])),
        ("to 0, then 15", fresh(&[8, 8, 0, 0, 15, 15, 8, 8], &[(1, 8), (3, 15), (7, 8)])),
        ("to 15, then 0", fresh(&[8, 8, 15, 15, 0, 0, 4, 4], &[(1, 8), (3, 15), (7, 4)])),
        ("0 and 15 in turn", fresh(&[8, 8, 0, 15, 0, 15, 0], &[(1, 8)])),
        ("a bounce", fresh(&[8, 8, 4, 8, 4, 8, 8], &[(1, 8)])),
        ("every other crossing", fresh(&[8, 8, 4, 4, 8, 8], &[(1, 8), (3, 4), (5, 8)])),
        ("codes of one class", fresh(&[3, 3, 5, 5, 11, 11], &[(1, 3), (3, 5), (5, 11)])),
        ("each input its own changes", (0..INPUTS).all(in_turn)),
    ]
}

/// "Orbit counts are those step 1 leaves, modulo 2^32": "a change in the crossing of code 8 lies under the count before the reset".
fn orbits() -> Cases {
    let marked =
        [crossing(0, 0, 8), crossing(0, 0, 8), crossing(0, 0, 4), crossing(1, 0, 4), crossing(1, 0, 8), crossing(1, 0, 8)];
    let mut of_marked = Board::fresh(Settings::standard());
    let last = |orbit: usize| {
        let mut board = board(Settings::standard(), 0, 3562, 8);
        (board.crossings, board.orbit) = (1 << 36, orbit);
        follows(&mut board, GTFE, &carrying(&[8, 4, 4, 1, 1]))
    };
    let code_8 = |orbit: usize, codes: &[u8]| {
        let mut board = board(Settings::standard(), 3, 398, 8);
        (board.orbit, board.held.carried) = (orbit, [codes[0]; INPUTS]);
        let mut store = Store::fresh();
        let outcome = beside(&mut board, &mut store, 33, &carrying(codes).concat(), &mut Vec::new());
        (outcome, board.orbit, tells(&store), store.used)
    };
    vec![
        ("at a marker", follows(&mut of_marked, 39, &marked) == Some(vec![(0, 1, 8), (1, 0, 4), (3, 0, 8)])),
        ("at a free number 0", last(7) == Some(vec![(8, 0, 4), (8, 2, 1)])),
        ("modulo 2^32", last((1 << 32) - 1) == Some(vec![(0, 0, 4), (0, 2, 1)]) && last(3 << 32) == last(0)),
        ("at code 8 and after it", code_8(7, &[8, 4, 4, 1, 1]) == (Ok(()), 0, Some(vec![(7, 400, 4), (0, 402, 1)]), 8)),
        ("a count that comes back", code_8(0, &[4, 4, 8, 8]) == (Ok(()), 0, Some(vec![(0, 398, 4), (0, 401, 8)]), 5)),
        ("and another", code_8(1, &[4, 4, 8, 8]) == (Ok(()), 0, Some(vec![(1, 398, 4), (0, 401, 8)]), 8)),
    ]
}

/// Commands and block ends between the two crossings that carry a code.
fn between() -> Cases {
    let mut command = [0; BYTES];
    (command[0], command[2]) = (1, 1);
    let log = [&carrying(&[8, 8, 0])[..], &[command, command], &carrying(&[0, 15, 15, 4, 4])].concat();
    let expected = Some(vec![(0, 1, 8), (0, 3, 15), (0, 7, 4)]);
    let cut = |at: usize| {
        let (mut board, mut store, mut rows) = (Board::fresh(Settings::standard()), Store::fresh(), Vec::new());
        let mut block = |records: &[[u8; BYTES]]| beside(&mut board, &mut store, 8, &records.concat(), &mut rows);
        let outcome = block(&log[..at]).and(block(&log[at..]));
        (outcome, tells(&store), rows)
    };
    let text = write(&Settings::standard()).into_bytes();
    let over_block_end = [&[crossing(0, 0, 8); 63][..], &carrying(&[4, 4])].concat().concat();
    vec![
        ("over commands", follows(&mut Board::fresh(Settings::standard()), 8, &log) == expected),
        ("cut anywhere", (0..=log.len()).all(|at| cut(at) == cut(0)) && cut(0).1 == expected),
        ("over a block end", told(&history(&text, &over_block_end, 0)) == Some(vec![(0, 1, 8), (0, 64, 4)])),
    ]
}

/// A block of two records beside a store that told of one change: the outcome, and whether board, store and rows were left.
fn block(unsound: bool, broken: bool, input: usize, block: &[u8]) -> (Result<(), Refusal>, bool) {
    let mut board = board(Settings::standard(), 7, 9, 8);
    board.controllers[1].state = if unsound { 3 } else { 0 };
    let (mut store, mut rows) = (Store::fresh(), vec![7]);
    store.keep(0, 9, 4);
    store.used -= usize::from(broken);
    let (report_before, held, store_before) = (report(&board), board.held, store.clone());
    let outcome = beside(&mut board, &mut store, input, block, &mut rows);
    let same_codes = (board.held.carried, board.held.believed) == (held.carried, held.believed);
    let same_board = report(&board) == report_before && same_codes && board.expected == 9;
    (outcome, same_board && store == store_before && rows == [7])
}

/// "Order: BOARD, STORE, RANGE with the input, then the block's own refusals", which "leave the store too".
fn refusals() -> Cases {
    let good = carrying(&[4, 4]).concat();
    let (cut, mut spoilt) = (&good[..47], good.clone());
    spoilt[BYTES] = 2;
    let ill_formed = spoilt.as_slice();
    let left = |refusal: Refusal| (Err(refusal), true);
    vec![
        (
            "BOARD first",
            block(true, true, 41, cut) == left(Refusal::Board) && block(true, false, 0, &good) == left(Refusal::Board),
        ),
        (
            "then STORE",
            block(false, true, 41, cut) == left(Refusal::Store) && block(false, true, 0, &good) == left(Refusal::Store),
        ),
        ("then RANGE", block(false, false, 41, cut) == left(Refusal::Range(41))),
        ("RANGE carries the input", block(false, false, 300, &good) == left(Refusal::Range(300))),
        ("then LENGTH", block(false, false, 40, cut) == left(Refusal::Length)),
        ("then RECORD", block(false, false, 40, ill_formed) == left(Refusal::Record(1))),
        ("RANGE before RECORD", block(false, false, 41, ill_formed) == left(Refusal::Range(41))),
        (
            "an empty block too",
            block(false, false, 41, &[]) == left(Refusal::Range(41)) && block(false, false, 40, &[]) == (Ok(()), true),
        ),
        ("no refusal", block(false, false, 40, &good) == (Ok(()), false)),
    ]
}

/// "`desk_history` with an argument, the input", and "`refused=N` alone where the run is refused".
fn programs() -> Cases {
    let text = write(&Settings::standard()).into_bytes();
    let good = crossing(0, 0, 8).repeat(65);
    let mut late = good.clone();
    late[BLOCK] = 2;
    let prints = |text: &[u8], log: &[u8], input: usize, printed: &[u8]| history(text, log, input) == printed;
    vec![
        (
            "desk_history",
            prints(&text, &good, 40, &[0, 0, 0, 0, 1, 0, 8]) && prints(&text, &good[..2 * BYTES], 0, &[0, 0, 0, 0, 1, 0, 8]),
        ),
        ("no change", prints(&text, &good[..BYTES], 0, b"")),
        ("no log", prints(&text, &[], 40, b"")),
        ("no block, so nothing refuses the input", prints(&text, &[], 41, b"")),
        ("an input above 40", prints(&text, &good, 41, b"refused=2\n")),
        ("the text's refusal first", prints(b"", &good, 41, b"refused=1\n") && prints(b"", &[], 0, b"refused=1\n")),
        ("the input before the first block's own", prints(&text, &good[..5], 41, b"refused=2\n")),
        ("LENGTH", prints(&text, &good[..5], 40, b"refused=5\n") && prints(&text, &good[..BLOCK + 5], 0, b"refused=5\n")),
        ("RECORD in a later block", prints(&text, &late, 0, b"refused=7\n") && prints(&text, &late, 41, b"refused=2\n")),
    ]
}

/// Rows and report without a store; and from the same run how many changes an input had and the last of them that groups with
/// 1,024 words have room for, as a plain list: a group is its changes, and has three words more than these.
fn plain(text: &[u8], log: &[u8], input: usize) -> Result<(Vec<u8>, String, usize, Vec<Change>), Refusal> {
    let (mut believed, mut count, mut groups): (u8, usize, Vec<Vec<Change>>) = (15, 0, Vec::new());
    let mut watch = |board: &Board, done: &Done| {
        let Done::Crossing { number, orbit, .. } = done else { return };
        let code = [15, board.held.believed[input]][usize::from(board.held.believed[input] > 0)];
        if code == believed {
            return;
        }
        (believed, count) = (code, count + 1);
        match groups.last_mut() {
            Some(group) if group[0].0 == *orbit && group.len() < MOST => group.push((*orbit, *number, code)),
            _ => groups.push(vec![(*orbit, *number, code)]),
        }
        while groups.iter().map(|group| 3 + group.len()).sum::<usize>() > WORDS {
            groups.remove(0);
        }
    };
    let (board, rows) = run(text, log, &mut watch)?;
    Ok((rows, report(&board), count, groups.concat()))
}

/// What is true of a generated case and an input: rows, report and refusal are those without a store, and the store tells the
/// changes of the plain list, of which 240 survive or all. How many changes there were, and how many it tells.
fn followed(text: &[u8], log: &[u8], input: usize) -> Option<(usize, usize)> {
    match (plain(text, log, input), run_beside(text, log, input)) {
        (Ok((rows, reported, count, changes)), Ok((board, store, rows_beside))) => {
            let same = (rows, reported) == (rows_beside, report(&board));
            let told = tells(&store).filter(|told| same && *told == changes && told.len() >= count.min(240))?;
            Some((count, told.len()))
        }
        (Err(refusal), Err(refusal_beside)) => (refusal == refusal_beside).then_some((0, 0)),
        _ => None,
    }
}

/// Two inputs of some seeds of each kind.
fn seeds() -> Cases {
    let mut followed_all = Vec::new();
    for (seed, kind) in (1..=4).flat_map(|seed| KINDS.map(|kind| (seed, kind))) {
        let (text, log) = generate(kind, seed).unwrap_or_default();
        followed_all.extend([5 * seed, 5 * seed + 10].map(|input| followed(&text, &log, input)));
    }
    let gone = followed_all.iter().flatten().filter(|(changes, told)| told < changes).count();
    vec![
        ("a store changes nothing else, and tells the last changes", followed_all.iter().all(Option::is_some)),
        ("some stores are full", gone > 3),
    ]
}
