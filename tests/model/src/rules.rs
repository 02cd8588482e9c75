//! The kind `rules` (document 02, P5): each rule refuses first, in READY and in WARN, by triggers of previous holders too.

use crate::board::Board;
use crate::edition::Edition;
use crate::generate::{short, Random};
use crate::journal::{set_code, READY};
use crate::program::BYTES;
use crate::settings::*;
use crate::steady::{ATTS0, GTFE};

/// A short orbit, two controllers or more with a slot, and limits that rise slowly with periods that rise fast, so that where one
/// rule lets triggers pass the next refuses them; now and then the longest periods.
pub fn settings(random: &mut Random, edition: Edition) -> Settings {
    let mut settings = short(random, edition);
    settings[GAP_HIGH] = (settings[GAP_LOW] + random.below(3)).min(settings[ORBIT] - 1);
    (SETTLE_RESYNC..=RECOVER_HARD).for_each(|place| settings[place] = random.below(2));
    let (one, step) = (random.below(8), 1 + random.below(7));
    (0..8).for_each(|n| settings[SLOT0 + n] = usize::from(n == one || n == (one + step) % 8 || random.once_in(4)));
    settings[R1_GAP] = 2 + random.below(6);
    let (longest, mut norm, mut low) = (random.once_in(8), 1 + random.below(2), 1);
    for (period, shortest, range) in [(R2_PERIOD, 16, 16), (R3_PERIOD, 64, 50), (R4_PERIOD, 150, 250)] {
        settings[period] = if longest { shared_lines()[period].high } else { shortest + random.below(range) };
        (settings[period + 1], settings[period + 2]) = (norm, low);
        norm += random.pick(&[0, 1, 1, 2]);
        low = (low + random.below(2)).min(norm);
    }
    settings
}

/// A stretch of the log. The input's code goes over from 8 to 1 or back once in so many crossings; so often come requests, runs of
/// markers that hand the slot on, and commands. 0 is never.
struct Stretch {
    input: usize,
    moves: usize,
    requests: usize,
    hand_on: usize,
    commands: usize,
}

struct Log<'a> {
    random: &'a mut Random,
    board: Board,
    log: Vec<u8>,
    code: u8,
    markers_to_come: usize,
}

pub fn log(random: &mut Random, settings: &Settings) -> Vec<u8> {
    let (board, records) = (Board::fresh(settings.clone()), 2000 + random.below(3000));
    let mut log = Log { random, board, log: Vec::new(), code: 8, markers_to_come: 0 };
    (0..8).for_each(|n| log.command(n, 1));
    while log.log.len() < BYTES * records {
        let stretch = log.stretch();
        (0..20 + log.random.below(200)).for_each(|_| log.next(&stretch));
    }
    log.log
}

impl Log<'_> {
    fn record(&mut self, record: [u8; BYTES]) {
        self.board.record(&record);
        self.log.extend(record);
    }

    fn command(&mut self, n: usize, command: u8) {
        let mut record = [0; BYTES];
        (record[0], record[1], record[2]) = (1, n as u8, command);
        self.record(record);
    }

    /// All controllers or the holder alone go between READY and WARN.
    fn stretch(&mut self) -> Stretch {
        let (holder, random) = (self.board.holder, &mut *self.random);
        let (input, moves) = (random.pick(&[GTFE, GTFE, ATTS0 + holder]), random.pick(&[0, 7, 20, 60]));
        let (requests, hand_on) = (random.pick(&[0, 1, 1, 1, 2, 5]), random.pick(&[0, 60, 150]));
        Stretch { input, moves, requests, hand_on, commands: random.pick(&[0, 15, 40]) }
    }

    fn next(&mut self, stretch: &Stretch) {
        if self.random.once_in(stretch.commands) {
            return self.fitting_command();
        }
        if self.random.once_in(stretch.moves) {
            self.code = 9 - self.code;
        }
        let mut record = READY;
        set_code(&mut record, stretch.input, self.code);
        if self.markers_to_come == 0 && self.random.once_in(stretch.hand_on) {
            self.markers_to_come = self.board.orbits_left;
        }
        record[1] = u8::from(self.markers_to_come > 0);
        self.markers_to_come -= usize::from(self.markers_to_come > 0);
        record[2] = if self.random.once_in(stretch.requests) { 0xFF } else { 0 };
        self.record(record);
    }

    /// Mostly CALIBRATE at the holder; now and then it is stopped, and started again.
    fn fitting_command(&mut self) {
        let n = self.board.holder;
        let command = match self.board.controllers[n].state {
            0 => 1,
            7 | 8 if !self.random.once_in(30) => 5,
            7 | 8 => self.random.pick(&[2, 3, 4, 6]),
            _ => 5,
        };
        self.command(n, command);
    }
}
