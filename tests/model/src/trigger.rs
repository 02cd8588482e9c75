//! Document 01, "Cycle and trigger": step 4 of a crossing, by the state after the move and the controller's own schedule
//! (document 02, P2), without `warn_blocks` (P3), and with the rule that refused (P5).

use crate::board::{count, Board, Cycle, Did, Lost, THROTTLE};
use crate::settings::*;

/// What a throttle answers by the settings, whether the state is WARN, and how many triggers so many crossings before had:
/// "free", which is `Ok`, or the rule.
pub type Throttle = fn(&Settings, bool, &dyn Fn(usize) -> usize) -> Result<(), Lost>;

/// Refused "if any of the r1_gap crossings before had a trigger; or if for rule 2, 3 or 4 the triggers of the period−1 crossings
/// before, plus this one, exceed the limit": since P3 the low limits are the one way to stop triggers under warning. "The
/// throttle's answer becomes "free" or the first refusing rule, 1 to 4, in that order" (P5).
pub fn throttle(settings: &Settings, warn: bool, triggers_before: &dyn Fn(usize) -> usize) -> Result<(), Lost> {
    if triggers_before(settings[R1_GAP]) > 0 {
        return Err(Lost::Rule1);
    }
    for (rule, period) in [Lost::Rule2, Lost::Rule3, Lost::Rule4].into_iter().zip(RULES) {
        let limit = if warn { settings[period + 2] } else { settings[period + 1] };
        if triggers_before(settings[period] - 1) + 1 > limit {
            return Err(rule);
        }
    }
    Ok(())
}

impl Board {
    /// "An armed cycle at the holder opens at at_wte (code 13) and is open in that crossing; open, it sends 2 at at_te, asks one
    /// trigger at at_cal and ends with that crossing, sent or not."
    pub fn cycle_then_trigger(&mut self, n: usize, number: usize, requested: bool, did: &mut Did) {
        let at = self.settings.at[n];
        if self.controllers[n].cycle == Cycle::Armed && self.holder == n && number == at[AT_WTE] {
            self.controllers[n].cycle = Cycle::Open;
            did.code = 13;
        }
        let open = self.controllers[n].cycle == Cycle::Open;
        if open && number == at[AT_TE] {
            did.code = 2;
        }
        if open && number == at[AT_CAL] {
            did.calibration = Some(self.throttle(n));
        }
        if requested {
            did.request = Some(self.request(n, number));
        }
        if did.calibration.is_some() {
            self.controllers[n].cycle = Cycle::None;
        }
        did.keeps = self.controllers[n].cycle;
        self.count(n, did);
    }

    /// "A request is lost under the first that holds: state (not 7, 8); slot (not holder); gap; cal (cycle open); throttle."
    fn request(&self, n: usize, number: usize) -> Result<(), Lost> {
        let controller = &self.controllers[n];
        if controller.state != 7 && controller.state != 8 {
            return Err(Lost::State);
        }
        if self.holder != n {
            return Err(Lost::Slot);
        }
        if self.settings[GAP_LOW] <= number && number <= self.settings[GAP_HIGH] {
            return Err(Lost::Gap);
        }
        if controller.cycle == Cycle::Open {
            return Err(Lost::Cal);
        }
        self.throttle(n)
    }

    /// "READY uses normal limits, WARN low ones": "the limits of the state after the move".
    fn throttle(&self, n: usize) -> Result<(), Lost> {
        (self.throttle)(&self.settings, self.controllers[n].state == 8, &|crossings| self.triggers_before(crossings))
    }

    /// The triggers of so many crossings before this one. "All controllers' triggers count, of both kinds."
    pub fn triggers_before(&self, crossings: usize) -> usize {
        self.triggers.iter().rev().take_while(|&trigger| trigger + crossings >= self.crossings).count()
    }

    /// "`events` counts both kinds since code 7"; the `cal_` counts "balance apart and stand outside the other sum". "`lost_r1` to
    /// `lost_r4`; their sum equals" `lost_throttle`; "calibration losses aren't split".
    fn count(&mut self, n: usize, did: &Did) {
        let counts = &mut self.controllers[n].counts;
        if let Some(answer) = did.request {
            counts[count::REQUESTED] += 1;
            match answer {
                Ok(()) => counts[count::ACCEPTED] += 1,
                Err(lost) => {
                    counts[count::LOST + (lost as usize).min(THROTTLE)] += 1;
                    lost.rule().iter().for_each(|rule| counts[count::LOST_R1 + rule] += 1);
                }
            }
        }
        if let Some(answer) = did.calibration {
            counts[count::CAL_REQUESTED] += 1;
            counts[if answer.is_ok() { count::CAL_ACCEPTED } else { count::CAL_LOST }] += 1;
        }
        if did.request == Some(Ok(())) || did.calibration == Some(Ok(())) {
            self.controllers[n].events += 1;
            self.triggers.push(self.crossings);
        }
    }
}
