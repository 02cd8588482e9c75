//! Test cases from a seed: settings text and log, the same on every machine.

use crate::edition::{Edition, Own};
use crate::journal::{log, Manner};
use crate::schedules::{resync_first, schedules, standard};
use crate::settings::*;
use crate::{damage_log, damage_text, disk, history, rules};

pub const KINDS: [&str; 8] = ["valid", "edge", "text", "log", "standard", "rules", "history", "salvage"];

/// A xorshift generator (Marsaglia), of which the upper bits are used.
pub struct Random(u64);

impl Random {
    pub fn of(start: usize) -> Random {
        Random(start.wrapping_mul(0x9E37_79B9_7F4A_7C15) as u64 | 1)
    }

    pub fn below(&mut self, bound: usize) -> usize {
        self.0 ^= self.0 << 13;
        self.0 ^= self.0 >> 7;
        self.0 ^= self.0 << 17;
        (self.0.wrapping_mul(0x2545_F491_4F6C_DD1D) >> 33) as usize % bound
    }

    /// True once in so many draws on average; never for 0.
    pub fn once_in(&mut self, draws: usize) -> bool {
        draws > 0 && self.below(draws) == 0
    }

    pub fn pick<T: Copy>(&mut self, choices: &[T]) -> T {
        choices[self.below(choices.len())]
    }
}

/// The settings text, in each edition for every third seed, and the log of a seed, or nothing for an unknown kind. `rules`,
/// `history` and `salvage` came later; they start elsewhere, so that the cases of the other kinds stay as they were.
pub fn generate(kind: &str, seed: usize) -> Option<(Vec<u8>, Vec<u8>)> {
    let place = KINDS.iter().position(|known| *known == kind)?;
    let start = match kind {
        "rules" => usize::MAX - seed,
        "history" => usize::MAX / 2 - seed,
        "salvage" => usize::MAX / 3 - seed,
        _ => seed * 5 + place + 1,
    };
    let random = &mut Random::of(start);
    let edition = [Edition::First, Edition::Second, Edition::Third][seed % 3];
    if kind == "rules" || kind == "history" {
        let settings = if kind == "rules" { rules::settings(random, edition) } else { history::settings(random, edition) };
        let own = under_warning(random, edition, settings);
        let log = if kind == "rules" { rules::log(random, &own.retire()) } else { history::log(random, &own.retire()) };
        return Some((edition.text(&own).into_bytes(), log));
    }
    let (settings, manner, records) = match kind {
        "valid" => (short(random, edition), Manner::Lively, 1000 + random.below(5000)),
        "edge" if random.once_in(5) => (long_window(random, edition), Manner::Standard, 4000 + random.below(5000)),
        "edge" => (edge(random, edition), Manner::Edge, 1000 + random.below(5000)),
        "standard" => (standard(random, edition), Manner::Standard, 8000 + random.below(5000)),
        "salvage" => (short(random, edition), Manner::Lively, disk::records(random, seed)),
        _ if random.once_in(3) => (standard(random, edition), Manner::Lively, 40 + random.below(300)),
        _ => (short(random, edition), Manner::Lively, 40 + random.below(300)),
    };
    let own = under_warning(random, edition, settings);
    let log = log(random, &own.retire(), manner, records);
    Some(match kind {
        "text" => (damage_text::text(random, edition, own, seed), log),
        "log" => (edition.text(&own).into_bytes(), damage_log::log(random, log)),
        "salvage" => (edition.text(&own).into_bytes(), disk::log(random, log, seed)),
        _ => (edition.text(&own).into_bytes(), log),
    })
}

/// Half of the older texts have the value 1, mostly with low limits that would let triggers pass; some of the other texts, in all
/// editions, have what it comes to, three low limits of 0.
fn under_warning(random: &mut Random, edition: Edition, settings: Settings) -> Own {
    let own = Own { settings, warn_blocks: 1 };
    match random.below(10) {
        0..=4 if edition != Edition::Third => own,
        0 | 5 => Own::of(&own.retire()),
        _ => Own::of(&own.settings),
    }
}

/// Good settings on a short orbit, so that a short log comes round to everything.
pub fn short(random: &mut Random, edition: Edition) -> Settings {
    let mut settings = Settings::standard();
    let orbit = 64 + random.below(137).min(random.below(137));
    settings[ORBIT] = orbit;
    settings[GAP_LOW] = random.below(orbit);
    settings[GAP_HIGH] = (settings[GAP_LOW] + random.below(orbit / 3)).min(orbit - 1);
    short_rules(random, &mut settings);
    settings[IGNORE_DISC] = usize::from(random.once_in(3));
    settings[IGNORE_BAD] = usize::from(random.once_in(3));
    (SETTLE_RESYNC..=RECOVER_HARD).for_each(|line| settings[line] = random.below(4));
    let (slots, lone) = (random.below(8), random.below(8));
    for n in 0..8 {
        settings[SLOT0 + n] = match slots {
            0 => 0,
            1 | 2 => usize::from(n == lone),
            _ => random.pick(&[0, 0, 1, 1, 1, 2]),
        };
    }
    let first = random.below(orbit - 22);
    let crossings = if random.once_in(3) { first..first + 22 } else { 0..orbit };
    settings.at = schedules(random, edition, &[crossings.collect()]);
    if random.once_in(4) {
        resync_first(&mut settings);
    }
    let (way, one) = (random.below(5), random.below(9));
    for p in 0..32 {
        settings[PART0 + p] = [one, p % 8, p / 4, random.below(9), random.pick(&[0, one, 8])][way];
    }
    settings
}

/// Limits that rise from rule to rule, since otherwise the later rules never refuse first; sometimes wide.
fn short_rules(random: &mut Random, settings: &mut Settings) {
    settings[R1_GAP] = random.pick(&[2, 3, 4, 5, 6, 7, 7]);
    let longest = random.pick(&[2047, 300]);
    let periods = [(R2_PERIOD, 1, 63, 12), (R3_PERIOD, 64, 113, 50), (R4_PERIOD, 1, longest, 400)];
    let (wide, mut norm, mut low) = (usize::from(random.once_in(2)), 0, 0);
    for (line, shortest, range, width) in periods {
        settings[line] = shortest + random.below(range);
        norm += random.pick(&[1, 1, 2, 3]);
        low = (low + random.pick(&[0, 1, 1, 2])).clamp(1, norm);
        (settings[line + 1], settings[line + 2]) = (norm + wide * width, low);
    }
}

/// Good settings at the ends of their ranges; the rest as for a short orbit.
fn edge(random: &mut Random, edition: Edition) -> Settings {
    let mut settings = short(random, edition);
    let orbit = random.pick(&[64, 4096]);
    let one = random.below(orbit);
    settings[ORBIT] = orbit;
    (settings[GAP_LOW], settings[GAP_HIGH]) =
        random.pick(&[(0, orbit - 1), (one, one), (one, one), (0, 0), (orbit - 1, orbit - 1)]);
    edge_rules(random, &mut settings);
    (SETTLE_RESYNC..=RECOVER_HARD).for_each(|line| settings[line] = random.pick(&[0, 0, 1, 255]));
    let (slots, lone) = (random.below(5), random.below(8));
    for n in 0..8 {
        let mixed = random.pick(&[0, 1, 255, 255]);
        settings[SLOT0 + n] = [0, 255 * usize::from(n == lone), mixed, mixed, settings[SLOT0 + n]][slots];
    }
    let sets = [edge_crossings(random, orbit), edge_crossings(random, orbit)];
    settings.at = schedules(random, edition, &sets);
    if random.once_in(4) {
        resync_first(&mut settings);
    }
    if random.once_in(4) {
        (0..32).for_each(|p| settings[PART0 + p] = 8);
    }
    settings
}

fn edge_crossings(random: &mut Random, orbit: usize) -> Vec<usize> {
    match random.below(4) {
        0 => (0..11).collect(),
        1 => (orbit - 11..orbit).collect(),
        2 => (0..6).chain(orbit - 6..orbit).collect(),
        _ => (0..64).collect(),
    }
}

/// Each limit at an end of its range or as it was; a limit of 0 refuses everything, so it comes seldom.
fn edge_rules(random: &mut Random, settings: &mut Settings) {
    let (lines, wide) = (shared_lines(), random.once_in(3));
    settings[R1_GAP] = random.pick(&[2, 7, 7]);
    for period in RULES {
        let (norm, low, most) = (settings[period + 1], settings[period + 2], lines[period + 1].high);
        let limits = [(most, most), (0, 0), (norm, low), (norm, low), (norm, 0), (norm, norm), (most, low)];
        settings[period] = random.pick(&[lines[period].low, lines[period].high]);
        (settings[period + 1], settings[period + 2]) = if wide { limits[0] } else { random.pick(&limits) };
    }
}

/// Rule 4 alone with its longest window; the log has to be steady, or the window's end never comes.
fn long_window(random: &mut Random, edition: Edition) -> Settings {
    let mut settings = short(random, edition);
    settings[SLOT0] = 255;
    (settings[R2_PERIOD + 1], settings[R3_PERIOD + 1]) = (15, 63);
    (settings[R4_PERIOD], settings[R4_PERIOD + 1], settings[R4_PERIOD + 2]) = (2047, 1 + random.below(9), 1);
    settings
}
