//! Damaged logs.

use crate::generate::Random;
use crate::program::{BLOCK, BYTES};

pub fn log(random: &mut Random, mut log: Vec<u8>) -> Vec<u8> {
    let (broken, blocks) = (1 + random.below(BYTES - 1), 1 + random.below(2));
    match random.below(9) {
        0..=3 => spoil(random, &mut log),
        4 => log.truncate(log.len() - broken),
        5 => log.resize(BLOCK * blocks + random.pick(&[0, broken, broken]), 0),
        6 => log.truncate(random.pick(&[0, broken])),
        _ => {
            spoil(random, &mut log);
            log.truncate(log.len() - broken);
        }
    }
    log
}

/// Puts an ill-formed record of any kind in the place of one.
fn spoil(random: &mut Random, log: &mut [u8]) {
    let place = BYTES * random.below(log.len() / BYTES);
    let record = &mut log[place..place + BYTES];
    let kind = random.below(7);
    if kind >= 3 {
        record.fill(0);
        (record[0], record[1], record[2]) = (1, random.below(8) as u8, 1 + random.below(6) as u8);
    }
    match kind {
        0 => record[0] = from(random, 2),
        1 => (record[0], record[1]) = (0, from(random, 2)),
        2 => (record[0], record[1], record[3]) = (0, 0, from(random, 16)),
        3 => record[1] = from(random, 8),
        4 => record[2] = 0,
        5 => record[2] = from(random, 7),
        _ => record[3 + random.below(BYTES - 3)] = from(random, 1),
    }
}

/// The first wrong value, or any wrong one.
pub fn from(random: &mut Random, first: usize) -> u8 {
    let later = first + random.below(256 - first);
    random.pick(&[first, later]) as u8
}
