//! How often the seeds meet what P5 adds to the runs: requests by the rule that refused them, and what the closing report tells.

use crate::board::{count, Board, Did, Done, Lost};
use crate::cover::Table;
use crate::older;
use crate::settings::*;
use crate::trigger::throttle;

/// The log before a record: its triggers, each with its crossing and controller; and for each controller its state, its counts
/// `lost_r1` to `lost_r4`, and how many of its calibration triggers since START each rule refused.
#[derive(Default)]
pub struct Rules {
    sent: Vec<(usize, usize)>,
    states: [usize; 8],
    lost: [[usize; 4]; 8],
    calibrations: [[usize; 4]; 8],
}

/// The place of the rule that refused what was asked.
fn refused(asked: Option<Result<(), Lost>>) -> Option<usize> {
    asked?.err()?.rule()
}

impl Table {
    pub fn rules(&mut self, before: &mut Rules, board: &Board, done: &Done) {
        for (n, controller) in board.controllers.iter().enumerate() {
            let lost = std::array::from_fn(|rule| controller.counts[count::LOST_R1 + rule]);
            match done {
                Done::Command { .. } => self.cleared(before.lost[n], lost),
                Done::Crossing { did, .. } => self.asked_by(before, board, n, &did[n], lost),
            }
            (before.states[n], before.lost[n]) = (controller.state, lost);
            if controller.counts[count::CAL_LOST] == 0 {
                before.calibrations[n] = [0; 4];
            }
        }
    }

    /// START clears counts of rules that were above 0.
    fn cleared(&mut self, before: [usize; 4], now: [usize; 4]) {
        (0..4).for_each(|rule| self.add_if(before[rule] > 0 && now[rule] == 0, "cleared", rule));
    }

    fn asked_by(&mut self, before: &mut Rules, board: &Board, n: usize, did: &Did, lost: [usize; 4]) {
        if let Some(rule) = refused(did.request) {
            self.add(if did.state == 8 { "lost_in_WARN" } else { "lost_in_READY" }, rule);
            self.several(board, did, rule);
            self.previous_holder(before, board, n, did, rule);
            self.state_before(before.states[n], board, did);
        }
        if let Some(rule) = refused(did.calibration) {
            self.add_if(lost == before.lost[n], "cal_not_split", rule);
            before.calibrations[n][rule] += 1;
        }
        if [did.request, did.calibration].contains(&Some(Ok(()))) {
            before.sent.push((board.crossings - 1, n));
        }
    }

    /// Whether later rules refuse too, so that the order decides.
    fn several(&mut self, board: &Board, did: &Did, rule: usize) {
        let refuses = |&(period, limit): &(usize, usize)| board.triggers_before(period) + 1 > limit;
        let refusing = older::rules(&board.settings, did.state == 8).iter().filter(|rule| refuses(rule)).count();
        self.add(if refusing > 1 { "before_later_rules" } else { "alone" }, rule);
    }

    /// Whether triggers of a previous holder are among those that the rule counts, and whether it refuses by them only.
    fn previous_holder(&mut self, before: &Rules, board: &Board, n: usize, did: &Did, rule: usize) {
        let (period, limit) = older::rules(&board.settings, did.state == 8)[rule];
        let counted = before.sent.iter().rev().take_while(|sent| sent.0 + period >= board.crossings);
        let (own, others): (Vec<usize>, Vec<usize>) = counted.map(|sent| sent.1).partition(|&controller| controller == n);
        self.add_if(!others.is_empty(), "previous_holder_counts", rule);
        self.add_if(!others.is_empty() && own.len() < limit, "previous_holder_decides", rule);
    }

    /// A move between READY and WARN, by whose limits before the move the throttle would have answered otherwise.
    fn state_before(&mut self, state: usize, board: &Board, did: &Did) {
        let moved = (state == 7 || state == 8) && state != did.state;
        let triggers_before = |crossings: usize| board.triggers_before(crossings + 1);
        let other = moved && did.request != Some(throttle(&board.settings, state == 8, &triggers_before));
        self.add_if(other, "limits_after_move", usize::from(did.state == 8));
    }

    /// The closing report: its controllers with a count above 0, those with all four, and those whose count would be higher if
    /// calibration losses were split.
    pub fn reported(&mut self, before: &Rules, board: &Board) {
        for n in (0..8).filter(|n| board.settings[SLOT0 + n] > 0) {
            for rule in 0..4 {
                self.add_if(before.lost[n][rule] > 0, "reported", rule);
                self.add_if(before.calibrations[n][rule] > 0, "reported_without_cal_lost", rule);
            }
            self.add_if(!before.lost[n].contains(&0), "reported", 4);
        }
    }
}
