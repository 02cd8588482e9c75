//! Document 01, "Settings text", with document 02, P2 and P3: the values, their ranges and relations. "Settings values have no
//! `warn_blocks` any more" (REQUESTS section 3). The text is in `edition.rs`.

use std::ops::{Index, IndexMut};

/// Places of the values that all controllers share, in the order of the text. Each of rules 2, 3, 4 has three: period, norm, low.
#[rustfmt::skip]
mod place {
    pub const ORBIT: usize = 0; pub const GAP_LOW: usize = 1; pub const GAP_HIGH: usize = 2;
    pub const R1_GAP: usize = 3; pub const R2_PERIOD: usize = 4; pub const R3_PERIOD: usize = 7; pub const R4_PERIOD: usize = 10;
    pub const IGNORE_DISC: usize = 13; pub const IGNORE_BAD: usize = 14;
    pub const SETTLE_RESYNC: usize = 15; pub const SETTLE_HARD: usize = 16;
    pub const RECOVER_RESYNC: usize = 17; pub const RECOVER_HARD: usize = 18;
    pub const SLOT0: usize = 19; pub const PART0: usize = 27;
    pub const RULES: [usize; 3] = [R2_PERIOD, R3_PERIOD, R4_PERIOD];
}
pub use place::*;

/// Places in a schedule.
#[rustfmt::skip]
mod at {
    pub const AT_BC0: usize = 0; pub const AT_TE: usize = 1; pub const AT_RESYNC: usize = 2; pub const AT_HARD: usize = 3;
    pub const AT_EC0: usize = 4; pub const AT_OC0: usize = 5; pub const AT_START: usize = 6; pub const AT_STOP: usize = 7;
    pub const AT_GAP: usize = 8; pub const AT_WTE: usize = 9; pub const AT_CAL: usize = 10;
}
pub use at::*;

/// "The eleven `at_` values": crossing numbers.
pub const ELEVEN: usize = 11;
pub type Schedule = [usize; ELEVEN];

/// Key, lowest and highest value, standard value of the shared lines that are neither slots nor partitions.
#[rustfmt::skip]
const NAMED: [(&str, usize, usize, usize); 19] = [
    ("orbit", 64, 4096, 3564), ("gap_low", 0, 4095, 3444), ("gap_high", 0, 4095, 3563), ("r1_gap", 2, 7, 2),
    ("r2_period", 1, 63, 25), ("r2_norm", 0, 15, 2), ("r2_low", 0, 15, 1),
    ("r3_period", 64, 176, 100), ("r3_norm", 0, 63, 3), ("r3_low", 0, 63, 2),
    ("r4_period", 1, 2047, 240), ("r4_norm", 0, 511, 4), ("r4_low", 0, 511, 2),
    ("ignore_disc", 0, 1, 0), ("ignore_bad", 0, 1, 0),
    ("settle_resync", 0, 255, 12), ("settle_hard", 0, 255, 12), ("recover_resync", 0, 255, 1), ("recover_hard", 0, 255, 1),
];

/// What the eleven keys end with, and the standard values.
#[rustfmt::skip]
const AT: [(&str, usize); ELEVEN] = [
    ("bc0", 0), ("te", 3400), ("resync", 100), ("hard", 200), ("ec0", 300), ("oc0", 400), ("start", 500), ("stop", 600),
    ("gap", 3444), ("wte", 3000), ("cal", 3490),
];

pub struct Line {
    pub key: String,
    pub low: usize,
    pub high: usize,
}

/// The lines of the values that all controllers share: the old lines without `warn_blocks` and the eleven.
pub fn shared_lines() -> Vec<Line> {
    let mut lines: Vec<Line> = NAMED.iter().map(|&(key, low, high, _)| Line { key: key.into(), low, high }).collect();
    lines.extend((0..8).map(|n| Line { key: format!("slot{n}"), low: 0, high: 255 }));
    lines.extend((0..32).map(|p| Line { key: format!("part{p}"), low: 0, high: 8 }));
    lines
}

/// "Crossing numbers 0..4095": the lines of a schedule, whose keys begin in the given way.
pub fn at_lines(begin: &str) -> Vec<Line> {
    AT.iter().map(|(end, _)| Line { key: format!("{begin}{end}"), low: 0, high: 4095 }).collect()
}

/// "The eleven `at_` values become eight sets": the shared values by place, `settings[ORBIT]` being the first, and `at[n]`, the
/// schedule of controller n.
#[derive(Clone, PartialEq, Eq)]
pub struct Settings {
    pub shared: Vec<usize>,
    pub at: [Schedule; 8],
}

impl Index<usize> for Settings {
    type Output = usize;
    fn index(&self, place: usize) -> &usize {
        &self.shared[place]
    }
}

impl IndexMut<usize> for Settings {
    fn index_mut(&mut self, place: usize) -> &mut usize {
        &mut self.shared[place]
    }
}

impl Settings {
    /// "Standard values stand after the colon. `slot0`..`slot7`: 255, then seven 0. `part0`..`part31`: all 0."
    pub fn standard() -> Settings {
        let mut shared: Vec<usize> = NAMED.iter().map(|(_, _, _, standard)| *standard).collect();
        shared.push(255);
        shared.extend([0; 7 + 32]);
        Settings { shared, at: [AT.map(|(_, standard)| standard); 8] }
    }

    /// "Relations keep their order, 2 to 4 each for controllers 0 to 7 in turn": those that fail, each with its controller, "0 for
    /// relations 1 and 5".
    pub fn failing(&self) -> Vec<(usize, usize)> {
        let mut tried = vec![(1, 0)];
        for relation in 2..=4 {
            tried.extend((0..8).map(|n| (relation, n)));
        }
        tried.push((5, 0));
        tried.into_iter().filter(|&(relation, n)| !self.holds(relation, n)).collect()
    }

    /// "1 gap_low ≤ gap_high < orbit. 2 All eleven `at_` are below orbit. 3 They are distinct. 4 at_wte < at_te < at_cal. 5 Each
    /// low limit ≤ its normal limit."
    fn holds(&self, relation: usize, n: usize) -> bool {
        let at = &self.at[n];
        match relation {
            1 => self[GAP_LOW] <= self[GAP_HIGH] && self[GAP_HIGH] < self[ORBIT],
            2 => at.iter().all(|&crossing| crossing < self[ORBIT]),
            3 => (0..ELEVEN).all(|i| (0..i).all(|j| at[i] != at[j])),
            4 => at[AT_WTE] < at[AT_TE] && at[AT_TE] < at[AT_CAL],
            _ => RULES.iter().all(|&period| self[period + 2] <= self[period + 1]),
        }
    }
}
