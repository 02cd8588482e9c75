//! Document 01, "One crossing" and "States", each controller by its own schedule (document 02, P2): the board, its number, its
//! moves and its commands.

use crate::merge::{merge, Merged};
use crate::settings::*;
use crate::steady::Held;
use crate::trigger::{throttle, Throttle};

#[rustfmt::skip]
#[derive(Clone, Copy, PartialEq, Eq)]
pub enum Cycle { None, Armed, Open }

/// Why a request or a calibration trigger was lost; for the throttle "the first refusing rule, 1 to 4" (document 02, P5).
#[rustfmt::skip]
#[derive(Clone, Copy, PartialEq, Eq)]
pub enum Lost { State, Slot, Gap, Cal, Rule1, Rule2, Rule3, Rule4 }

/// The throttle's place among the five causes: rule 1 and all after it are the throttle's.
pub const THROTTLE: usize = Lost::Rule1 as usize;

impl Lost {
    /// The place among the four rules of the one that refused; nothing for the other causes.
    pub fn rule(self) -> Option<usize> {
        (self as usize).checked_sub(THROTTLE)
    }
}

/// Places of the run counts, in the report's order; from `LOST` on the five causes, from `LOST_R1` on the four rules.
#[rustfmt::skip]
pub mod count {
    pub const REQUESTED: usize = 0; pub const ACCEPTED: usize = 1; pub const LOST: usize = 2; pub const LOST_R1: usize = 7;
    pub const CAL_REQUESTED: usize = 11; pub const CAL_ACCEPTED: usize = 12; pub const CAL_LOST: usize = 13;
    pub const ALL: usize = 14;
}

#[derive(Clone)]
pub struct Controller {
    pub state: usize,
    pub wait: usize,
    pub cycle: Cycle,
    pub counts: [usize; count::ALL],
    pub events: usize,
}

pub struct Board {
    pub settings: Settings,
    /// The throttle of `trigger.rs`; in the model's own checks also the older desk's.
    pub throttle: Throttle,
    pub crossings: usize,
    pub expected: usize,
    pub orbit: usize,
    pub bc_errors: usize,
    pub holder: usize,
    pub orbits_left: usize,
    pub held: Held,
    pub controllers: Vec<Controller>,
    /// The crossings that carried a trigger, all of them, rising.
    pub triggers: Vec<usize>,
}

/// What one controller did in a crossing, with its cycle before and after; an asked trigger is `Ok` if sent.
pub struct Did {
    pub merged: Merged,
    pub state: usize,
    pub code: u8,
    pub had: Cycle,
    pub keeps: Cycle,
    pub request: Option<Result<(), Lost>>,
    pub calibration: Option<Result<(), Lost>>,
}

/// What a record did. `orbit` is the count that step 1 leaves (document 02, P6), `handed` the holders before and after a hand-over.
pub enum Done {
    Crossing { marker: bool, expected: usize, number: usize, orbit: usize, handed: Option<(usize, usize)>, did: Vec<Did> },
    Command { command: u8, taken: bool, dropped: bool },
}

impl Board {
    /// "Fresh holder: the lowest such with 10×slot left, or 8. A fresh board has every controller in state 0, ..."
    /// and "believes 0" (document 02, P1).
    pub fn fresh(settings: Settings) -> Board {
        let holder = (0..8).find(|n| settings[SLOT0 + n] > 0).unwrap_or(8);
        let orbits_left = if holder == 8 { 0 } else { 10 * settings[SLOT0 + holder] };
        let idle = Controller { state: 0, wait: 0, cycle: Cycle::None, counts: [0; count::ALL], events: 0 };
        let (held, controllers, triggers) = (Held::all(0), vec![idle; 8], Vec::new());
        let (crossings, expected, orbit, bc_errors) = (0, 0, 0, 0);
        Board { settings, throttle, crossings, expected, orbit, bc_errors, holder, orbits_left, held, controllers, triggers }
    }

    pub fn record(&mut self, record: &[u8]) -> Done {
        match record[0] {
            0 => self.crossing(record),
            _ => self.command(usize::from(record[1]), record[2]),
        }
    }

    /// "One crossing, in order: 1 Number, 2 Merge, 3 Move, once per controller, 4 Cycle, then trigger." The merge reads
    /// "with believed codes", those of this crossing among them.
    fn crossing(&mut self, record: &[u8]) -> Done {
        let (marker, expected) = (record[1] == 1, self.expected);
        let had: Vec<Cycle> = self.controllers.iter().map(|controller| controller.cycle).collect();
        let (number, handed) = self.number(marker);
        self.held.crossing(record);
        let (orbit, mut did) = (self.orbit, Vec::new());
        for (n, had) in had.into_iter().enumerate() {
            let merged = merge(&self.settings, &self.held.believed, n);
            let code = self.move_once(n, number, merged);
            let state = self.controllers[n].state;
            did.push(Did { merged, state, code, had, keeps: had, request: None, calibration: None });
        }
        for (n, did) in did.iter_mut().enumerate() {
            self.cycle_then_trigger(n, number, (record[2] >> n) & 1 == 1, did);
        }
        self.crossings += 1;
        Done::Crossing { marker, expected, number, orbit, handed, did }
    }

    /// "After orbit − 1 comes 0. A marker makes this crossing 0; if another was expected, `bc_errors` grows by 1. At a number 0,
    /// but on the very first crossing, the orbit count grows ..."
    fn number(&mut self, marker: bool) -> (usize, Option<(usize, usize)>) {
        let number = if marker { 0 } else { self.expected };
        if number != self.expected {
            self.bc_errors += 1;
        }
        self.expected = if number == self.settings[ORBIT] - 1 { 0 } else { number + 1 };
        if number != 0 || self.crossings == 0 {
            return (number, None);
        }
        self.orbit += 1;
        (number, self.spend_orbit())
    }

    /// "... and, unless the holder is 8, its orbits left fall by 1; at none left the next controller cyclically with a slot above 0
    /// (itself if alone) takes over with 10×slot." "Losing the slot drops an open" cycle.
    fn spend_orbit(&mut self) -> Option<(usize, usize)> {
        if self.holder == 8 {
            return None;
        }
        self.orbits_left -= 1;
        if self.orbits_left > 0 {
            return None;
        }
        let last = self.holder;
        self.holder = (last + 1..=last + 8).map(|n| n % 8).find(|n| self.settings[SLOT0 + n] > 0)?;
        self.orbits_left = 10 * self.settings[SLOT0 + self.holder];
        if self.holder != last && self.controllers[last].cycle == Cycle::Open {
            self.controllers[last].cycle = Cycle::None;
        }
        Some((last, self.holder))
    }

    /// "Wait: set on entry, to 0 for every other state." "Leaving states 7, 8 drops" the cycle.
    fn enter(&mut self, n: usize, state: usize) {
        let controller = &mut self.controllers[n];
        controller.state = state;
        controller.wait = match state {
            2 | 17 => self.settings[RECOVER_RESYNC],
            12 => self.settings[SETTLE_HARD],
            14 => self.settings[RECOVER_HARD],
            15 => self.settings[SETTLE_RESYNC],
            _ => 0,
        };
        if state != 7 && state != 8 {
            controller.cycle = Cycle::None;
        }
    }

    /// "At 0 the move happens; otherwise it falls by 1 at crossing number 0. In every state code 1 is sent at at_bc0 and 11 at
    /// at_gap." The code that is sent is handed back; a controller's own at_ are distinct, so there is one at most.
    fn move_once(&mut self, n: usize, number: usize, merged: Merged) -> u8 {
        let of_every_state = match number {
            _ if number == self.settings.at[n][AT_BC0] => 1,
            _ if number == self.settings.at[n][AT_GAP] => 11,
            _ => 0,
        };
        if self.controllers[n].wait > 0 {
            self.controllers[n].wait -= usize::from(number == 0);
            return of_every_state;
        }
        let (code, next) = self.next(n, number, merged);
        match code {
            8 => self.orbit = 0,
            7 => self.controllers[n].events = 0,
            _ => {}
        }
        if let Some(state) = next {
            self.enter(n, state);
        }
        code.max(of_every_state)
    }

    /// "States": the code that is sent and the state that follows, if the controller moves.
    fn next(&self, n: usize, number: usize, merged: Merged) -> (u8, Option<usize>) {
        let at = |place: usize, code, to| if number == self.settings.at[n][place] { (code, Some(to)) } else { (0, None) };
        match self.controllers[n].state {
            1 => at(AT_RESYNC, 5, 2),
            2 if merged >= Merged::OutOfSync => (0, Some(18)),
            2 => (0, Some(if n == 0 { 3 } else { 4 })),
            3 => at(AT_OC0, 8, 4),
            4 => at(AT_START, 9, 5),
            5 => at(AT_EC0, 7, 6),
            6..=8 => (0, Some(running(merged))),
            9 if merged >= Merged::Bad => (0, None),
            9 => (0, Some(6)),
            12 => (0, Some(13)),
            13 => at(AT_HARD, 6, 14),
            14 => (0, Some(15)),
            15 => (0, Some(16)),
            16 => at(AT_RESYNC, 5, 17),
            17 => (0, Some(5)),
            19 => at(AT_STOP, 10, 0),
            _ => (0, None),
        }
    }

    /// "Commands: 1 START in 0, to 1, clears its run counts; ... Elsewhere not taken, nothing changes."
    pub fn command(&mut self, n: usize, command: u8) -> Done {
        let Controller { state, cycle, .. } = self.controllers[n];
        let to = match command {
            1 if state == 0 => Some(1),
            2 if (1..=18).contains(&state) => Some(19),
            3 if (6..=11).contains(&state) || state == 18 => Some(12),
            4 if [6, 7, 8, 10, 18].contains(&state) => Some(15),
            5 if (state == 7 || state == 8) && cycle == Cycle::None => Some(state),
            6 => Some(0),
            _ => None,
        };
        if let Some(state) = to {
            self.enter(n, state);
            match command {
                1 => self.controllers[n].counts = [0; count::ALL],
                5 => self.controllers[n].cycle = Cycle::Armed,
                _ => {}
            }
        }
        let dropped = cycle != Cycle::None && self.controllers[n].cycle == Cycle::None;
        Done::Command { command, taken: to.is_some(), dropped }
    }
}

/// "6 BUSY, 7 READY, 8 WARN: disconnected or bad to 9, out of sync to 10, error to 11, busy or none to 6, ..."
fn running(merged: Merged) -> usize {
    match merged {
        Merged::Disconnected | Merged::Bad => 9,
        Merged::OutOfSync => 10,
        Merged::Error => 11,
        Merged::Busy | Merged::None => 6,
        Merged::Ready => 7,
        Merged::Warning => 8,
    }
}
