//! Document 01, "Sound", with document 02, P1, P2 and P5: what BOARD goes by. Boards that come from files are sound; the model asks
//! it of a block with a store beside the board (P6), where the order of BOARD and STORE tells.

use crate::board::{count, Board, Controller, Cycle};
use crate::edition::{Edition, Own};
use crate::settings::*;

/// "Crossings done ≤ 2^40 − 1."
const LIFE: usize = (1 << 40) - 1;

impl Board {
    /// The common part, then the controllers, then the triggers: "for each of the last 2,047 crossings a mark whether it carried a
    /// trigger, none before crossing 0", which the model has as a list of all of them, rising.
    pub fn sound(&self) -> bool {
        let Board { crossings, expected, orbit, bc_errors, .. } = *self;
        let numbers = crossings <= LIFE && expected < self.settings[ORBIT] && orbit <= crossings && bc_errors <= crossings;
        let codes = self.held.carried.iter().chain(&self.held.believed).all(|&code| code <= 15);
        let controllers = self.controllers.len() == 8 && (0..8).all(|n| self.sound_controller(n));
        let triggers =
            self.triggers.is_sorted_by(|one, next| one < next) && self.triggers.iter().all(|&trigger| trigger < crossings);
        passes(&self.settings) && numbers && self.sound_holder() && codes && controllers && triggers
    }

    /// "Holder with a slot above 0 and 1..10×slot orbits left, or holder 8 with 0 left when all slots are 0."
    fn sound_holder(&self) -> bool {
        match self.holder {
            0..=7 => (1..=10 * self.settings[SLOT0 + self.holder]).contains(&self.orbits_left),
            8 => self.orbits_left == 0 && (0..8).all(|n| self.settings[SLOT0 + n] == 0),
            _ => false,
        }
    }

    /// "States 0..19, state 3 in controller 0 only; wait 0..255, and 0 outside states 2, 12, 14, 15, 17; a calibration cycle only
    /// in states 7, 8, and an open one only at the holder; every count ≤ crossings done; both sums of the report agree", and P5's.
    fn sound_controller(&self, n: usize) -> bool {
        let Controller { state, wait, cycle, counts, events } = &self.controllers[n];
        let state_fits = *state <= 19 && (*state != 3 || n == 0);
        let wait_fits = *wait <= 255 && (*wait == 0 || [2, 12, 14, 15, 17].contains(state));
        let cycle_fits = match cycle {
            Cycle::None => true,
            Cycle::Armed => [7, 8].contains(state),
            Cycle::Open => [7, 8].contains(state) && self.holder == n,
        };
        let bounded = counts.iter().chain([events]).all(|&count| count <= self.crossings);
        state_fits && wait_fits && cycle_fits && bounded && balanced(counts)
    }
}

/// Requests and calibration triggers "balance apart"; of `lost_r1` to `lost_r4` "their sum equals" `lost_throttle`.
fn balanced(counts: &[usize; count::ALL]) -> bool {
    let (causes, rules) = (&counts[count::LOST..count::LOST_R1], &counts[count::LOST_R1..count::CAL_REQUESTED]);
    let requests = counts[count::ACCEPTED] + causes.iter().sum::<usize>() == counts[count::REQUESTED];
    let calibrations = counts[count::CAL_ACCEPTED] + counts[count::CAL_LOST] == counts[count::CAL_REQUESTED];
    requests && calibrations && rules.iter().sum::<usize>() == causes[4]
}

/// "Settings pass the checks": ranges and relations.
fn passes(settings: &Settings) -> bool {
    let values = Edition::Third.values(&Own::of(settings));
    let in_range = |(line, &value): (&Line, &usize)| line.low <= value && value <= line.high;
    Edition::Third.lines().iter().zip(&values).all(in_range) && settings.failing().is_empty()
}
