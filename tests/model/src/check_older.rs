//! The model's own tests of P3: `warn_blocks` in the older editions, and rows and reports "the same as before".

use crate::board::Board;
use crate::check::{board, crossing, Cases};
use crate::check_editions::{refused, standard};
use crate::edition::Edition::{self, First, Second, Third};
use crate::edition::{open, read, values, write, Own};
use crate::generate::{generate, KINDS};
use crate::older;
use crate::program::{edition, run_board};
use crate::refusal::Refusal::{self, Range, Relation, Text};
use crate::report::{report, row};
use crate::settings::*;

pub fn cases() -> Cases {
    [faults(), limits(), relation_5(), under_warning(), before()].concat()
}

/// The refusals of the older editions' standard texts, in each the line `warn_blocks=0` replaced.
fn replaced(line: &str) -> [Option<Refusal>; 2] {
    [First, Second].map(|edition| refused(&standard(edition).replace("warn_blocks=0\n", line)))
}

/// "The line is still read there, with TEXT and RANGE"; "older editions keep their numbers".
fn faults() -> Cases {
    let (ranges, texts) = ([Some(Range(14)), Some(Range(15))], [Some(Text(14)), Some(Text(15))]);
    let third = |from: &str, to: &str| refused(&standard(Third).replace(from, to));
    let ill_formed =
        ["warn_blocks=00\n", "warn_blocks=01\n", "warn_blocks=\n", "warn_blocks\n", "warn_blocks= 1\n", "warn_block=1\n"];
    vec![
        ("warn_blocks=1 is read", replaced("warn_blocks=1\n") == [None; 2]),
        ("warn_blocks=2", replaced("warn_blocks=2\n") == ranges && replaced("warn_blocks=65537\n") == ranges),
        ("ill-formed", ill_formed.iter().all(|line| replaced(line) == texts)),
        ("missing", replaced("") == texts),
        ("twice", replaced("warn_blocks=0\nwarn_blocks=0\n") == [Some(Text(15)), Some(Text(16))]),
        ("the line in edition 3", third("ignore_disc", "warn_blocks=0\nignore_disc") == Some(Text(15))),
        ("its value in edition 3", third("ignore_disc", "warn_blocks=2\nignore_disc") == Some(Text(15))),
        ("its key in edition 3", third("ignore_disc", "warn_blocks") == Some(Text(15))),
        ("after edition 3", refused(&(standard(Third) + "warn_blocks=0\n")) == Some(Text(149))),
    ]
}

/// The standard settings with these three low limits.
pub fn lows(lows: [usize; 3]) -> Settings {
    let mut settings = Settings::standard();
    RULES.iter().zip(lows).for_each(|(&period, low)| settings[period + 2] = low);
    settings
}

/// "Its three low limits then set to 0", and nothing else; with value 0 the values stand.
fn limits() -> Cases {
    let reads = |edition: Edition, warn_blocks: usize| {
        let own = Own { settings: lows([2, 1, 3]), warn_blocks };
        read(edition.text(&own).as_bytes())
    };
    let all = |warn_blocks: usize, settings: Settings| {
        [First, Second].iter().all(|&edition| reads(edition, warn_blocks).as_ref() == Ok(&settings))
    };
    let blocked = Second.text(&Own { settings: lows([2, 1, 3]), warn_blocks: 1 });
    let written = edition(blocked.as_bytes());
    vec![
        ("value 1 sets the low limits to 0", all(1, lows([0, 0, 0]))),
        ("value 0 leaves them", all(0, lows([2, 1, 3]))),
        ("edition 3 leaves them", reads(Third, 0) == Ok(lows([2, 1, 3]))),
        ("value 1 is written as edition 3", written == write(&lows([0, 0, 0])) && !written.contains("warn_blocks")),
        ("and has three lines with 0", written.matches("_low=0\n").count() == 3),
    ]
}

/// "Relation 5 is tried on the text's own low limits, also where `warn_blocks` is 1."
fn relation_5() -> Cases {
    let refusals = |settings: Settings, warn_blocks: usize| {
        let own = Own { settings, warn_blocks };
        [First, Second].map(|edition| refused(&edition.text(&own)))
    };
    let fails = |low: [usize; 3]| [0, 1].iter().all(|&value| refusals(lows(low), value) == [Some(Relation(5, 0)); 2]);
    let mut earlier = lows([3, 2, 2]);
    earlier[GAP_HIGH] = 3564;
    vec![
        ("r2_low above r2_norm", fails([3, 2, 2])),
        ("r3_low above r3_norm", fails([1, 4, 2])),
        ("r4_low above r4_norm", fails([1, 2, 5])),
        ("each low limit at its normal limit", refusals(lows([2, 3, 4]), 1) == [None; 2]),
        ("relation 1 before 5", refusals(earlier, 1) == [Some(Relation(1, 0)); 2]),
    ]
}

/// The crossings, from the expected number on, in which controller 0 sends a trigger of either kind. A request comes in each, the
/// calibration is asked at 3490, the gap is 3563 alone; READY goes over to WARN at the given crossing.
fn sent(low: [usize; 3], expected: usize, warn: usize) -> Vec<usize> {
    let mut settings = lows(low);
    settings[GAP_LOW] = 3563;
    let mut board = board(settings, 7, expected, if warn == 0 { 1 } else { 8 });
    board.command(0, 5);
    let code = |t: usize| if t + 1 < warn.max(1) { 8 } else { 1 };
    let mut sends = |t: &usize| row(&board.record(&crossing(0, 1, code(*t))))[0] & 0x30 != 0;
    (0..600).filter(|t| sends(t)).collect()
}

/// The low limits alone stop triggers under warning: those of document 01's figures, and three of 0.
fn under_warning() -> Cases {
    vec![
        ("three low limits of 0, READY until t+250", sent([0, 0, 0], 500, 250) == [0, 3, 25, 100, 240, 243]),
        ("the standard low limits in WARN", sent([1, 2, 2], 500, 0) == [0, 25, 240, 265, 480, 505]),
        ("three low limits of 0 in WARN", sent([0, 0, 0], 500, 0).is_empty()),
        ("the calibration by the standard low limits", sent([1, 2, 2], 2999, 0) == [0, 491, 516]),
        ("the calibration by three low limits of 0", sent([0, 0, 0], 2999, 0).is_empty()),
    ]
}

/// Rows and report of a board after a log.
fn outcome(board: Board, log: &[u8]) -> Result<(Vec<u8>, String), Refusal> {
    run_board(board, log, &mut |_, _| {}).map(|(board, rows)| (rows, report(&board)))
}

/// What is true of a generated case whose text is read.
struct Case {
    older: bool,
    as_before: bool,
    written_back: bool,
    blocks: bool,
}

fn case(kind: &str, seed: usize) -> Option<Case> {
    let (text, log) = generate(kind, seed)?;
    let (settings, own, older) = (read(&text).ok()?, values(&text).ok()?, open(&text)?.0 != Third);
    let before = outcome(older::fresh(&own), &log);
    let written = edition(&text);
    let written_back = edition(written.as_bytes()) == written && read(written.as_bytes()).as_ref() == Ok(&settings);
    let blocks = own.warn_blocks == 1 && before != outcome(older::fresh(&Own::of(&own.settings)), &log);
    Some(Case { older, as_before: before == outcome(Board::fresh(settings), &log), written_back, blocks })
}

/// "Every row and report is proved the same as before"; "demand 2's write-back holds for edition 3 text, and for older text as
/// equal behaviour": what is written gives the very values that the older text runs by. `history` and `salvage` are not about
/// triggers.
fn before() -> Cases {
    let kinds = KINDS.iter().filter(|kind| !["history", "salvage"].contains(kind));
    let cases: Vec<Case> = kinds.flat_map(|kind| (1..=60).filter_map(|seed| case(kind, seed))).collect();
    let (older, newest): (Vec<&Case>, Vec<&Case>) = cases.iter().partition(|case| case.older);
    vec![
        ("older text runs as before", older.len() > 100 && older.iter().all(|case| case.as_before)),
        ("edition 3 runs as value 0 did", newest.len() > 50 && newest.iter().all(|case| case.as_before)),
        ("what is written gives the same values", cases.iter().all(|case| case.written_back)),
        ("value 1 tells in many logs", older.iter().filter(|case| case.blocks).count() > 20),
    ]
}
