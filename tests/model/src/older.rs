//! The older desk, from document 01's words: what P3's "same as before" is measured by in `check_older.rs` and `cover_older.rs`.
//! The model's own board does not go by it.

use crate::board::{Board, Lost};
use crate::edition::Own;
use crate::settings::*;
use crate::trigger::Throttle;

/// The period and the limit of each rule: "READY uses normal limits, WARN low ones. Rule 1 reads as period r1_gap + 1 with both
/// limits 1."
pub fn rules(own: &Settings, warn: bool) -> [(usize, usize); 4] {
    let [two, three, four] = RULES.map(|period| (own[period], if warn { own[period + 2] } else { own[period + 1] }));
    [(own[R1_GAP] + 1, 1), two, three, four]
}

/// "Refused in WARN if warn_blocks is 1; ... or if for rule 2, 3 or 4 the triggers of the period−1 crossings before, plus this one,
/// exceed the limit." Since P5 the report tells the first rule that refused, and of `warn_blocks` REQUESTS section 3 says: "under
/// warning rule 1 refuses where it does, else rule 2".
pub fn throttle<const WARN_BLOCKS: usize>(own: &Settings, warn: bool, before: &dyn Fn(usize) -> usize) -> Result<(), Lost> {
    let mut named = [Lost::Rule1, Lost::Rule2, Lost::Rule3, Lost::Rule4].into_iter().zip(rules(own, warn));
    let blocks = |rule: Lost| warn && WARN_BLOCKS == 1 && rule == Lost::Rule2;
    let first = named.find(|&(rule, (period, limit))| blocks(rule) || before(period - 1) + 1 > limit);
    first.map_or(Ok(()), |(rule, _)| Err(rule))
}

/// A fresh board of the older desk, which goes by the text's own values.
pub fn fresh(own: &Own) -> Board {
    let by_value: [Throttle; 2] = [throttle::<0>, throttle::<1>];
    Board { throttle: by_value[own.warn_blocks], ..Board::fresh(own.settings.clone()) }
}
