//! A record damaged in the ways that document 02, P7, names, in one of them or in several at once.

use crate::damage_log::from;
use crate::generate::Random;
use crate::program::BYTES;

#[rustfmt::skip]
#[derive(Clone, Copy)]
pub enum Damage { Marker, Gtfe, Reserved, Kind, Controller, CommandZero, CommandAbove }
use Damage::*;

/// The kinds of damage that one record has.
pub type Damages = &'static [Damage];

/// Each kind of damage alone: the first three are mended, by the others a record is dropped.
pub const ALONE: [Damages; 7] = [&[Marker], &[Gtfe], &[Reserved], &[Kind], &[Controller], &[CommandZero], &[CommandAbove]];
pub const MENDED: [Damages; 4] = [&[Marker], &[Gtfe], &[Reserved], &[Marker, Gtfe]];

/// Several at once. But for the first a record that has them is dropped, with one entry; mending before dropping would give more.
#[rustfmt::skip]
pub const SEVERAL: [Damages; 14] = [
    &[Marker, Gtfe], &[Reserved, Controller], &[Reserved, CommandZero], &[Reserved, CommandAbove], &[Controller, CommandZero],
    &[Controller, CommandAbove], &[Reserved, Controller, CommandZero], &[Reserved, Controller, CommandAbove],
    &[Marker, Kind], &[Gtfe, Kind], &[Marker, Gtfe, Kind], &[Reserved, Kind], &[Controller, Kind], &[Reserved, CommandZero, Kind],
];
#[rustfmt::skip]
pub const DROPPED: [Damages; 9] = [
    ALONE[3], ALONE[4], ALONE[5], ALONE[6], SEVERAL[1], SEVERAL[3], SEVERAL[6], SEVERAL[10], SEVERAL[13],
];

/// Damages a good record, which first becomes a crossing or a command if the damage is of the other one.
pub fn damage(random: &mut Random, record: &mut [u8], damages: Damages) {
    match damages[0] {
        Marker | Gtfe if record[0] != 0 || random.once_in(2) => crossing(random, record),
        Reserved | Controller | CommandZero | CommandAbove => command(random, record),
        Marker | Gtfe | Kind => {}
    }
    damages.iter().for_each(|&damage| damage_once(random, record, damage));
}

fn damage_once(random: &mut Random, record: &mut [u8], damage: Damage) {
    match damage {
        Marker => record[1] = from(random, 2),
        Gtfe => record[3] = from(random, 16),
        Reserved => reserved(random, record),
        Kind => record[0] = from(random, 2),
        Controller => record[1] = from(random, 8),
        CommandZero => record[2] = 0,
        CommandAbove => record[2] = from(random, 7),
    }
}

/// A good crossing with any requests and any codes, none of which is ever mended.
pub fn crossing(random: &mut Random, record: &mut [u8]) {
    random_bytes(random, record);
    (record[0], record[1], record[3]) = (0, random.below(2) as u8, random.below(16) as u8);
}

pub fn command(random: &mut Random, record: &mut [u8]) {
    record.fill(0);
    (record[0], record[1], record[2]) = (1, random.below(8) as u8, 1 + random.below(6) as u8);
}

/// One reserved byte, mostly the first or the last; some of them; or all 21.
fn reserved(random: &mut Random, record: &mut [u8]) {
    let any = 3 + random.below(BYTES - 3);
    let (one, others) = (random.pick(&[3, any, BYTES - 1]), random.pick(&[0, 0, 3, 1]));
    for byte in 3..BYTES {
        if byte == one || random.once_in(others) {
            record[byte] = from(random, 1);
        }
    }
}

/// The record that makes the longest list: a command whose reserved bytes all have values of three digits.
pub fn wordy(random: &mut Random, record: &mut [u8]) {
    command(random, record);
    record[3..].iter_mut().for_each(|byte| *byte = 100 + random.below(156) as u8);
}

pub fn random_bytes(random: &mut Random, bytes: &mut [u8]) {
    bytes.iter_mut().for_each(|byte| *byte = random.below(256) as u8);
}
