//! Valid logs. A board runs along, so that commands and markers fall where they do something.

use crate::board::{Board, Cycle};
use crate::generate::Random;
use crate::program::{BLOCK, BYTES};
use crate::settings::{Settings, SLOT0};
use crate::steady::{GTFE, INPUTS};

#[rustfmt::skip]
#[derive(Clone, Copy, PartialEq)]
pub enum Manner { Lively, Edge, Standard }

/// A stretch of the log with one habit. Unrest: begins once in so many crossings. Requests: one byte (0 for any) once in so
/// many crossings; commands, bad markers: once in so many records. 0 is never.
struct Stretch {
    records: usize,
    codes: [u8; BYTES],
    unrest: usize,
    requests: (u8, usize),
    commands: usize,
    bad_markers: usize,
}

/// Inputs that leave the stretch's codes for some crossings: what they carry in each, `None` being the stretch's own code.
struct Unrest {
    inputs: Vec<usize>,
    codes: Vec<Option<u8>>,
    crossings_done: usize,
}

struct Journal<'a> {
    random: &'a mut Random,
    board: Board,
    log: Vec<u8>,
    manner: Manner,
    /// A marker comes once in so many expected zeros (0: never), and at the latest at this expected number.
    good_markers: usize,
    latest: usize,
    markers_to_come: usize,
    unrest: Unrest,
}

/// A crossing with no marker, no request and every code 8.
pub const READY: [u8; BYTES] = {
    let mut record = [0x88; BYTES];
    (record[0], record[1], record[2], record[3]) = (0, 0, 0, 8);
    record
};

pub fn log(random: &mut Random, settings: &Settings, manner: Manner, records: usize) -> Vec<u8> {
    let good_markers = random.pick(&[0, 1, 1, 2]);
    let last_at = settings.at.concat().into_iter().max().unwrap_or(0);
    let (records, latest) = match manner {
        Manner::Edge if random.once_in(3) => (records + 2 * last_at, 4096),
        Manner::Edge => (records + 2 * last_at, last_at + 1 + random.below(20)),
        _ => (records, 4096),
    };
    let (board, log) = (Board::fresh(settings.clone()), Vec::new());
    let unrest = Unrest { inputs: Vec::new(), codes: Vec::new(), crossings_done: 0 };
    let mut journal = Journal { random, board, log, manner, good_markers, latest, markers_to_come: 0, unrest };
    journal.before_the_first_crossing();
    while journal.log.len() < BYTES * records {
        let stretch = journal.stretch();
        for _ in 0..stretch.records.min(records - journal.log.len() / BYTES) {
            journal.next(&stretch);
        }
    }
    journal.log
}

impl Journal<'_> {
    fn record(&mut self, record: [u8; BYTES]) {
        self.board.record(&record);
        self.log.extend(record);
    }

    fn command(&mut self, n: usize, command: u8) {
        let mut record = [0; BYTES];
        (record[0], record[1], record[2]) = (1, n as u8, command);
        self.record(record);
    }

    fn before_the_first_crossing(&mut self) {
        for _ in 0..self.random.below(6) {
            let (n, command) = (self.random.below(8), 1 + self.random.below(6) as u8);
            self.command(n, command);
        }
        self.command(0, 6);
        self.command(0, 1);
        for n in 1..8 {
            if n == self.board.holder || !self.random.once_in(4) {
                self.command(n, 1);
            }
        }
    }

    /// Commands and markers come more often before the second crossing of an unrest, in which its code may be believed.
    fn next(&mut self, stretch: &Stretch) {
        let second = self.unrest.crossings_done == 1;
        if self.random.once_in(if second { 6 } else { stretch.commands }) {
            return self.fitting_command();
        }
        let mut record = stretch.codes;
        self.carry_unrest(stretch.unrest, &mut record);
        record[1] = u8::from(self.marker(if second { stretch.bad_markers / 20 } else { stretch.bad_markers }));
        if self.random.once_in(stretch.requests.1) {
            record[2] = if stretch.requests.0 == 0 { self.random.below(256) as u8 } else { stretch.requests.0 };
        }
        self.record(record);
    }

    /// A third of the stretches is long and steady with dense requests, in the others much changes.
    fn stretch(&mut self) -> Stretch {
        let steady = self.manner == Manner::Standard || self.random.once_in(3);
        let codes = self.codes(steady);
        let holder = 1 << self.board.holder.min(7);
        let random = &mut *self.random;
        if steady {
            let requests = (random.pick(&[0xFF, 0xFF, 0, holder]), random.pick(&[1, 1, 1, 3, 30]));
            let (records, commands) = (150 + random.below(700), random.pick(&[0, 25]));
            return Stretch { records, codes, unrest: random.pick(&[0, 0, 20]), requests, commands, bad_markers: 0 };
        }
        let requests = (random.pick(&[0, 0xFF]), random.pick(&[0, 1, 1, 2, 5, 20]));
        let (records, commands) = (10 + random.below(250), random.pick(&[8, 25, 100]));
        let (unrest, bad_markers) = (random.pick(&[0, 3, 10, 40]), random.pick(&[0, 0, 400, 60]));
        Stretch { records, codes, unrest, requests, commands, bad_markers }
    }

    /// Lets the unrest go on or, if it is over, another begin; often with the last record of a block, and with the second
    /// crossing of the log, so that what a fresh board believes stands for longer.
    fn carry_unrest(&mut self, once_in: usize, record: &mut [u8; BYTES]) {
        let over = self.unrest.crossings_done == self.unrest.codes.len();
        let block_end = once_in > 0 && self.log.len() % BLOCK == BLOCK - BYTES;
        let fresh = self.manner != Manner::Standard && self.board.crossings == 1;
        if over && (fresh || self.random.once_in(if block_end { 2 } else { once_in })) {
            let (inputs, codes) = (self.unrest_inputs(), self.unrest_codes());
            self.unrest = Unrest { inputs, codes, crossings_done: 0 };
        } else if over {
            return;
        }
        if let Some(code) = self.unrest.codes[self.unrest.crossings_done] {
            self.unrest.inputs.iter().for_each(|&input| set_code(record, input, code));
        }
        self.unrest.crossings_done += 1;
    }

    fn unrest_inputs(&mut self) -> Vec<usize> {
        match self.random.below(8) {
            0 => (0..INPUTS).collect(),
            1 | 2 => vec![GTFE],
            _ => vec![self.random.below(INPUTS)],
        }
    }

    /// Bounces and alternating codes, which are not believed; in the other manners than the standard one also codes that stay for
    /// two crossings and more. At last the stretch's own code is back. Codes 2 and 12 are rare: only commands lead on from them.
    fn unrest_codes(&mut self) -> Vec<Option<u8>> {
        let any = self.random.below(16) as u8;
        let (one, other) = (self.random.pick(&[0, 0, 15, 4, 1, 1, 11, any]), self.random.pick(&[0, 15, 4, 1, any]));
        let (one, other) = (Some(one), Some(other));
        let mut codes = match self.random.below(if self.manner == Manner::Standard { 4 } else { 10 }) {
            0 => vec![one],
            1 => vec![one, None, one],
            2 => self.random.pick(&[[Some(0), Some(15)], [Some(15), Some(0)]]).to_vec(),
            3 => vec![Some(0), Some(4), Some(0), Some(4)],
            4 => vec![one, one, other, one, other, other],
            5 => (0..2 + self.random.below(20)).map(|_| self.random.pick(&[one, other, None])).collect(),
            _ => vec![one; 2 + self.random.below(8)],
        };
        codes.push(None);
        codes
    }

    /// Mostly all ready or a few warnings; under standard settings nothing else, and warnings only after READY.
    fn codes(&mut self, steady: bool) -> [u8; BYTES] {
        let mut codes = READY;
        match self.random.below(if self.manner == Manner::Standard { 6 } else { 11 }) {
            _ if self.manner == Manner::Standard && self.board.crossings < 7430 => {}
            0..=3 => {}
            4..=6 => (0..3).for_each(|_| set_code(&mut codes, self.random.below(INPUTS), 1)),
            7..=9 if !steady => (0..2).for_each(|_| self.trouble(&mut codes)),
            7..=9 => set_code(&mut codes, GTFE, 1),
            _ => {
                let code = self.random.pick(&[0, 15, 3, 9, 11, 1, 2, 4, 12]);
                (0..INPUTS).for_each(|input| set_code(&mut codes, input, code));
            }
        }
        codes
    }

    fn trouble(&mut self, codes: &mut [u8; BYTES]) {
        let any = self.random.below(16) as u8;
        let code = self.random.pick(&[0, 15, 1, 1, 1, 4, 2, 12, 11, any]);
        let any = self.random.below(INPUTS);
        let input = if code == 11 { self.random.pick(&[23, 24, any]) } else { any };
        set_code(codes, input, code);
    }

    /// Mostly a command that is taken in the controller's state and leads on; the holder's turn comes most often.
    fn fitting_command(&mut self) {
        let holds = self.board.holder < 8 && !self.random.once_in(3);
        let n = if holds { self.board.holder } else { self.random.below(8) };
        let any = 1 + self.random.below(6) as u8;
        let command = match self.board.controllers[n].state {
            _ if self.manner == Manner::Standard && (n == 0 || holds) => 5,
            _ if self.random.once_in(12) => any,
            0 => 1,
            7 | 8 => self.random.pick(&[5, 5, 5, 5, 5, 5, 5, 5, 5, 5, 5, 5, 5, 5, 1, 2, 3, 4]),
            9 => self.random.pick(&[1, 3, 5]),
            10 => self.random.pick(&[4, 4, 3, 2]),
            11 => self.random.pick(&[3, 3, 4, 2]),
            18 => self.random.pick(&[4, 3, 2]),
            _ => self.random.pick(&[1, 5]),
        };
        self.command(n, command);
    }

    /// Runs of markers let long waits and slots pass, take the slot away while a cycle is open, and hand it on to a controller
    /// whose cycle is armed, so that one log has the calibrations of several.
    fn marker(&mut self, bad_markers: usize) -> bool {
        if self.markers_to_come > 0 {
            self.markers_to_come -= 1;
            return true;
        }
        let Board { settings, controllers, orbits_left, holder, expected, .. } = &self.board;
        let wait = controllers.iter().map(|controller| controller.wait).max().unwrap_or(0);
        let open = controllers.iter().any(|controller| controller.cycle == Cycle::Open);
        let armed = |n: usize| n != *holder && settings[SLOT0 + n] > 0 && controllers[n].cycle == Cycle::Armed;
        let awaited = *orbits_left <= 20 && (0..8).any(armed) && controllers[*holder].cycle == Cycle::None;
        let long_slot = *orbits_left > 99 && (7..=8).contains(&controllers[*holder].state);
        match self.manner {
            Manner::Edge if wait > 4 && self.random.once_in(30) => self.markers_to_come = wait,
            Manner::Edge if long_slot && self.random.once_in(700) => self.markers_to_come = *orbits_left,
            Manner::Edge | Manner::Lively if open && self.random.once_in(60) => self.markers_to_come = 21,
            Manner::Edge | Manner::Lively if awaited && self.random.once_in(80) => self.markers_to_come = *orbits_left,
            _ => {}
        }
        match *expected {
            0 => self.random.once_in(self.good_markers),
            expected => expected >= self.latest || self.random.once_in(bad_markers),
        }
    }
}

pub fn set_code(record: &mut [u8; BYTES], input: usize, code: u8) {
    match input {
        GTFE => record[3] = code,
        _ if input % 2 == 0 => record[4 + input / 2] = record[4 + input / 2] & 0xF0 | code,
        _ => record[4 + input / 2] = record[4 + input / 2] & 0x0F | code << 4,
    }
}
