//! The kind `salvage` (document 02, P7): what a bad disk makes of good logs. Some are long, so that a program that reads in pieces
//! comes to the ends of many, whatever their size.

use crate::damage_record::{command, crossing, damage, random_bytes, wordy, Damages, ALONE, DROPPED, MENDED, SEVERAL};
use crate::generate::Random;
use crate::program::BYTES;

/// What seeds do in turn, so that any 40 running meet each kind of damage alone in a log.
const TURNS: usize = 20;

/// The turns in which a tail is left, in any 60 seeds running of each length from 1 to 23.
const WITH_TAIL: [usize; 10] = [7, 8, 9, 10, 11, 12, 13, 15, 16, 18];

/// Sizes of pieces in records that the damage is set to; besides, pieces of 65,536 bytes, whose ends cut records in two.
pub const PIECES: [usize; 3] = [64, 1000, 4096];
const BUFFER: usize = 65_536;

/// How many records the good log has: few, so many that a piece ends with the log or a record beside it, or 5,000 to 20,000.
pub fn records(random: &mut Random, seed: usize) -> usize {
    let (turn, round) = (seed % TURNS, seed / TURNS);
    match turn {
        7 if round % 2 == 1 => 64 * (1 + random.below(6)),
        12 | 13 => 300 + random.below(300),
        14 => 64 * (1 + random.below(6)) + random.below(3) - 1,
        17 => whole_pieces(random, PIECES[round % 3]) + random.below(3) - 1,
        18 => whole_pieces(random, PIECES[round % 3]),
        16 => 5000 + random.below(15_001),
        19 if round % 3 == 2 => 5000 + random.below(15_001),
        _ => 40 + random.below(300),
    }
}

fn whole_pieces(random: &mut Random, piece: usize) -> usize {
    piece * (5000 / piece + 1 + random.below(15_000 / piece))
}

/// Turns 7 and 19 leave all records well formed, and of three in turn 19 one is empty.
pub fn log(random: &mut Random, mut log: Vec<u8>, seed: usize) -> Vec<u8> {
    let (turn, round) = (seed % TURNS, seed / TURNS);
    match turn {
        0..=6 if round % 2 == 0 => one(random, &mut log, ALONE[turn]),
        0..=6 => many(random, &mut log, &ALONE[turn..=turn]),
        8 => many(random, &mut log, &SEVERAL),
        9 => many(random, &mut log, &ALONE),
        10 => bits(random, &mut log),
        11 => runs(random, &mut log),
        12 => stretch(random, &mut log, wordy),
        13 => stretch(random, &mut log, dropped),
        14 | 17 => edges(random, &mut log),
        15 => short(random, &mut log, round % 3),
        16 => many(random, &mut log, &[&ALONE[..], &SEVERAL].concat()),
        18 => everything(random, &mut log),
        19 if round % 3 == 0 => log.clear(),
        _ => {}
    }
    if let Some(place) = WITH_TAIL.iter().position(|&with_tail| with_tail == turn) {
        let bytes = 1 + (WITH_TAIL.len() * round + place) % (BYTES - 1);
        log.extend(&tail(random)[..bytes]);
    }
    log
}

fn one(random: &mut Random, log: &mut [u8], damages: Damages) {
    let place = BYTES * random.below(log.len() / BYTES);
    damage(random, &mut log[place..place + BYTES], damages);
}

/// Damage in every record or in a few, spread over the whole log.
fn many(random: &mut Random, log: &mut [u8], choices: &[Damages]) {
    let once_in = random.pick(&[1, 2, 10, 40]);
    for record in log.chunks_mut(BYTES) {
        if random.once_in(once_in) {
            let damages = random.pick(choices);
            damage(random, record, damages);
        }
    }
}

/// "A disk at a bench drops bits": one bit of a byte, any byte, in which it may tell or not.
fn bits(random: &mut Random, log: &mut [u8]) {
    let once_in = random.pick(&[3, 30, 300]);
    for byte in log {
        if random.once_in(once_in) {
            *byte ^= 1 << random.below(8);
        }
    }
}

/// Runs of random bytes, which begin and end anywhere in a record.
fn runs(random: &mut Random, log: &mut [u8]) {
    for _ in 0..1 + random.below(8) {
        let begin = random.below(log.len());
        let end = (begin + 1 + random.below(200)).min(log.len());
        random_bytes(random, &mut log[begin..end]);
    }
}

fn dropped(random: &mut Random, record: &mut [u8]) {
    let damages = random.pick(&DROPPED);
    damage(random, record, damages);
}

/// The same thing done to enough records running that a whole piece of 64 is among them.
fn stretch(random: &mut Random, log: &mut [u8], spoil: fn(&mut Random, &mut [u8])) {
    let records = log.len() / BYTES;
    let (begin, count) = (random.below(records - 128), 128 + random.below(records));
    log.chunks_mut(BYTES).skip(begin).take(count).for_each(|record| spoil(random, record));
}

/// Damage in records that are the first or the last of a piece, at the longer pieces in all of them.
fn edges(random: &mut Random, log: &mut [u8]) {
    for (place, record) in log.chunks_mut(BYTES).enumerate() {
        let at_edge = |piece: &usize| place % piece == 0 || (place + 1) % piece == 0;
        let at_long = PIECES[1..].iter().any(at_edge) || over_buffer(place);
        if at_long || (at_edge(&PIECES[0]) && random.once_in(2)) {
            let damages = if random.once_in(2) { random.pick(&MENDED) } else { random.pick(&DROPPED) };
            damage(random, record, damages);
        }
    }
}

/// Whether a piece of 65,536 bytes ends within the record.
pub fn over_buffer(place: usize) -> bool {
    place * BYTES / BUFFER != (place * BYTES + BYTES - 1) / BUFFER
}

/// No record before the tail, one to three dropped ones, or as many mended ones.
fn short(random: &mut Random, log: &mut Vec<u8>, way: usize) {
    log.truncate(BYTES * if way == 0 { 0 } else { 1 + random.below(3) });
    let choices = if way == 1 { &DROPPED[..] } else { &MENDED };
    for record in log.chunks_mut(BYTES) {
        let damages = random.pick(choices);
        damage(random, record, damages);
    }
}

/// All of it in one log; the stretches may be longer than any piece.
fn everything(random: &mut Random, log: &mut [u8]) {
    many(random, log, &[&ALONE[..], &SEVERAL].concat());
    edges(random, log);
    let records = log.len() / BYTES;
    for spoil in [wordy, dropped] {
        let (begin, count) = (random.below(records), random.pick(&[100, 1000, 6000]));
        log.chunks_mut(BYTES).skip(begin).take(count).for_each(|record| spoil(random, record));
    }
    runs(random, log);
}

/// What a tail is cut from: a good crossing, a good command, or any bytes.
fn tail(random: &mut Random) -> [u8; BYTES] {
    let mut record = [0; BYTES];
    let fill: fn(&mut Random, &mut [u8]) = random.pick(&[crossing, command, random_bytes]);
    fill(random, &mut record);
    record
}
