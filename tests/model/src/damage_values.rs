//! Settings values that break relations.

use crate::edition::Edition::{self, First};
use crate::generate::Random;
use crate::settings::*;

/// Breaks a relation, 2 to 4 in the later editions at a controller above 0; now and then also at another one, and relation 5.
pub fn break_relation(random: &mut Random, edition: Edition, settings: &mut Settings, relation: usize) {
    let n = if edition == First { 0 } else { 1 + random.below(7) };
    break_at(random, settings, relation, n);
    if edition != First && (2..=4).contains(&relation) && random.once_in(3) {
        let other = (n + 1 + random.below(7)) % 8;
        break_at(random, settings, relation, other);
    }
    if relation < 5 && random.once_in(3) {
        break_at(random, settings, 5, 0);
    }
}

/// Breaks two relations, in the later editions at different controllers: the later one, or the same, at the lower controller.
pub fn break_two(random: &mut Random, edition: Edition, settings: &mut Settings, different: bool) {
    let pairs = [(2, 3), (2, 4), (3, 4), (2, 2), (3, 3), (4, 4)];
    let (earlier, later) = random.pick(if different || edition == First { &pairs[..3] } else { &pairs[3..] });
    let low = random.below(7);
    let (low, high) = match edition {
        First => (0, 0),
        _ => (low, low + 1 + random.below(7 - low)),
    };
    break_at(random, settings, later, low);
    break_at(random, settings, earlier, high);
}

fn break_at(random: &mut Random, settings: &mut Settings, relation: usize, n: usize) {
    let orbit = settings[ORBIT];
    let beyond = orbit + random.below(4096 - orbit);
    let at = &mut settings.at[n];
    match relation {
        1 if random.once_in(2) => settings[GAP_LOW] = settings[GAP_HIGH] + 1,
        1 => settings[GAP_HIGH] = beyond,
        2 => at[random.below(ELEVEN)] = beyond,
        3 => {
            let (one, step) = (random.below(ELEVEN), 1 + random.below(10));
            at[one] = at[(one + step) % ELEVEN];
        }
        4 => {
            let (one, other) = random.pick(&[(AT_WTE, AT_TE), (AT_TE, AT_CAL), (AT_WTE, AT_CAL)]);
            at.swap(one, other);
        }
        _ => {
            let period = random.pick(&RULES);
            low_above_normal(random, settings, period);
        }
    }
}

/// Breaks relation 5 by one rule.
pub fn low_above_normal(random: &mut Random, settings: &mut Settings, period: usize) {
    settings[period + 1] = random.below(shared_lines()[period + 1].high);
    settings[period + 2] = settings[period + 1] + 1;
}
