//! The model's own tests of P6's store: its words, its room, what STORE refuses, and the read-out.

use crate::check::Cases;
use crate::refusal::Refusal;
use crate::store::{Store, WORDS};

pub fn cases() -> Cases {
    [words(), room(), faults(), read_outs()].concat()
}

/// Orbit count, crossing number and code.
pub type Change = (usize, usize, u8);

/// A fresh store that kept the changes.
fn kept(changes: &[Change]) -> Store {
    let mut store = Store::fresh();
    changes.iter().for_each(|&(orbit, number, code)| store.keep(orbit, number, code));
    store
}

/// The changes that a read-out tells, 7 bytes each; nothing for other bytes.
pub fn told(bytes: &[u8]) -> Option<Vec<Change>> {
    let number = |bytes: &[u8]| bytes.iter().rev().fold(0, |sum, &byte| sum << 8 | usize::from(byte));
    let changes = bytes.chunks(7).map(|bytes| (number(&bytes[..4]), number(&bytes[4..6]), bytes[6]));
    (bytes.len() % 7 == 0).then(|| changes.collect())
}

/// The changes that a store tells.
pub fn tells(store: &Store) -> Option<Vec<Change>> {
    told(&store.retained().ok()?)
}

/// So many changes, each under the next orbit count, from the given one on.
fn singles(from: usize, count: usize) -> Vec<Change> {
    (from..from + count).map(|orbit| (orbit, orbit % 3564, 8)).collect()
}

/// So many changes under one orbit count.
fn together(orbit: usize, count: usize) -> Vec<Change> {
    (0..count).map(|number| (orbit, number, 1 + (number % 2) as u8)).collect()
}

/// "A word holding the code in the top four bits and the crossing number below"; a header is "a word 0, then the orbit count's high
/// and low 16 bits".
fn words() -> Cases {
    let holds = |changes: &[Change], words: &[u16]| {
        let store = kept(changes);
        (store.oldest, store.used) == (0, words.len()) && store.words.starts_with(words)
    };
    let (of_64, of_65) = (kept(&together(9, 64)), kept(&together(9, 65)));
    vec![
        ("a fresh store", holds(&[], &[]) && tells(&Store::fresh()) == Some(vec![])),
        ("the first change", holds(&[(0, 0, 8)], &[0, 0, 0, 0x8000])),
        ("a change under the same count", holds(&[(7, 1, 8), (7, 4095, 1)], &[0, 0, 7, 0x8001, 0x1FFF])),
        ("a change under another", holds(&[(7, 1, 8), (8, 1, 1)], &[0, 0, 7, 0x8001, 0, 0, 8, 0x1001])),
        ("a lower count", holds(&[(7, 1, 8), (0, 3, 1)], &[0, 0, 7, 0x8001, 0, 0, 0, 0x1003])),
        ("high and low 16 bits", holds(&[(0x1234_5678, 0xABC, 14)], &[0, 0x1234, 0x5678, 0xEABC])),
        ("counts modulo 2^32", holds(&[(5, 1, 8), ((1 << 32) + 5, 2, 4)], &[0, 0, 5, 0x8001, 0x4002])),
        ("0 and 15 are stored as 15", holds(&[(0, 0, 0), (0, 2, 15)], &[0, 0, 0, 0xF000, 0xF002])),
        ("0 is read as 15", tells(&kept(&[(0, 0, 0)])) == Some(vec![(0, 0, 15)])),
        ("64 changes under one header", of_64.used == 67 && tells(&of_64) == Some(together(9, 64))),
        ("the 65th has the header again", of_65.used == 71 && of_65.words[67..71] == [0, 0, 9, 0x1040]),
        ("and all are read", tells(&of_65) == Some(together(9, 65))),
        ("64 more under it", kept(&together(9, 128)).used == 134 && kept(&together(9, 129)).used == 138),
    ]
}

/// Whether a store that kept the changes has the oldest place and the words in use, and tells the last so many changes.
fn ends(changes: &[Change], oldest: usize, used: usize, last: usize) -> bool {
    let store = kept(changes);
    (store.oldest, store.used) == (oldest, used) && tells(&store).as_deref() == Some(&changes[changes.len() - last..])
}

/// "When room is short the oldest whole groups go, no more than needed"; "at least the last 240 changes survive".
fn room() -> Cases {
    let full = singles(0, 256);
    let five = [together(0, 2), singles(1, 254)].concat();
    let least = [together(0, 64), singles(1, 239)].concat();
    let over_end = kept(&[five.clone(), singles(255, 1)].concat());
    vec![
        ("just full", ends(&full, 0, WORDS, 256)),
        ("a header where none is free", ends(&[full.clone(), singles(256, 1)].concat(), 4, WORDS, 256)),
        ("one word where none is free", ends(&[full.clone(), vec![(255, 300, 1)]].concat(), 4, 1021, 256)),
        ("and three more", ends(&[full.clone(), vec![(255, 300, 1); 4]].concat(), 4, WORDS, 259)),
        ("and a fourth", ends(&[full.clone(), vec![(255, 300, 1); 5]].concat(), 8, 1021, 259)),
        ("three words free", ends(&five, 0, 1021, 256)),
        ("a header where three are free", ends(&[five.clone(), singles(255, 1)].concat(), 5, 1020, 255)),
        ("it goes over the end", over_end.words[1021..] == [0, 0, 255] && over_end.words[0] == 0x80FF),
        ("one word where one is free", ends(&[five, vec![(254, 300, 1); 3]].concat(), 0, WORDS, 259)),
        ("round and round", ends(&singles(70_000, 10_000), 4 * (9_744 % 256), WORDS, 256)),
        ("just before the least", ends(&least, 0, 1023, 303)),
        ("240 survive", ends(&[least, singles(240, 1)].concat(), 67, 960, 240)),
        ("15 groups of 64 and one of 16", ends(&together(3, 976), 0, WORDS, 976)),
        ("a whole group of 64 goes", ends(&together(3, 977), 67, 958, 913)),
    ]
}

/// Whether so many words in use from the oldest place on are refused by STORE; the words stand from place 0 on, the others are
/// 0xFFFF.
fn refused(words: &[u16], oldest: usize, used: usize) -> bool {
    let mut store = Store { words: [0xFFFF; WORDS], oldest, used };
    store.words[..words.len()].copy_from_slice(words);
    store.retained() == Err(Refusal::Store)
}

/// "STORE, 9, when its words can't be split into groups (a header, 1 to 64 changes) from its oldest place."
fn faults() -> Cases {
    let group = |changes: usize| [vec![0, 0, 0], vec![0x1000; changes]].concat();
    let taken = |words: &[u16]| !refused(words, 0, words.len());
    let mut over_end = kept(&singles(0, 257));
    let sound = over_end.groups().is_ok_and(|groups| groups.len() == 256);
    over_end.oldest = 3;
    vec![
        ("none in use at any place", !refused(&[], 0, 0) && !refused(&[], 1023, 0)),
        ("no such place", refused(&[], 1024, 0) && refused(&[], usize::MAX, 0)),
        ("more words than there are", refused(&group(1).repeat(256), 0, 1025)),
        ("all in use", !refused(&group(1).repeat(256), 0, 1024)),
        ("no header", refused(&[], 0, 1) && refused(&[0x1000; 4], 0, 4)),
        ("part of a header", (1..=3).all(|used| refused(&group(1), 0, used))),
        ("a header alone before another", refused(&[group(0), group(1)].concat(), 0, 7)),
        ("1 and 64 changes", taken(&group(1)) && taken(&group(64)) && taken(&[group(64), group(1)].concat())),
        ("65 changes", refused(&group(65), 0, 68)),
        ("any orbit count", taken(&[0, 0xFFFF, 0xFFFF, 0x1000]) && taken(&[0, 0x0FFF, 0, 0x1000])),
        ("any code but 0", taken(&[0, 0, 0, 0x1000, 0xFFFF, 0x9ABC]) && refused(&[0, 0, 0, 0x1000, 0x0001], 0, 5)),
        ("a header's word is 0", refused(&[1, 0, 0, 0x1000], 0, 4) && refused(&[0, 0, 0, 0x1000, 1, 0, 0, 0x1000], 0, 8)),
        ("the same count twice", taken(&[group(1), group(1)].concat())),
        ("a later place", !refused(&[vec![7], group(2)].concat(), 1, 5) && refused(&group(2), 2, 3)),
        ("over the end", sound && over_end.retained() == Err(Refusal::Store)),
    ]
}

/// Reading "is refused by STORE, then ROOM", which carries the bytes needed; "a success writes exactly its output; later bytes
/// stay".
fn read_outs() -> Cases {
    let two = kept(&[(0x0102_0304, 0x506, 7), (1, 2, 0)]);
    let bytes = [4, 3, 2, 1, 6, 5, 7, 1, 0, 0, 0, 2, 0, 15];
    let read = |store: &Store, length: usize| {
        let mut buffer = vec![0xAA; length];
        (store.read_out(&mut buffer), buffer)
    };
    let broken = Store { used: 5, ..two.clone() };
    vec![
        ("little-endian, in order", read(&two, 14) == (Ok(14), bytes.to_vec())),
        ("later bytes stay", read(&two, 17) == (Ok(14), [&bytes[..], &[0xAA; 3]].concat())),
        ("ROOM", read(&two, 13) == (Err(Refusal::Room(14)), vec![0xAA; 13])),
        ("ROOM without a byte", read(&two, 0) == (Err(Refusal::Room(14)), vec![])),
        ("nothing to read", read(&Store::fresh(), 0) == (Ok(0), vec![]) && read(&Store::fresh(), 2) == (Ok(0), vec![0xAA; 2])),
        (
            "STORE before ROOM",
            read(&broken, 0).0 == Err(Refusal::Store) && read(&broken, 99) == (Err(Refusal::Store), vec![0xAA; 99]),
        ),
        ("numbers", Refusal::Store.number() == 9 && Refusal::Room(14).number() == 6 && Refusal::Board.number() == 4),
    ]
}
