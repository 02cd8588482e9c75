//! The kind `history` (document 02, P6): every input changes in its own way, often enough that stores are full, under orbit counts
//! that grow fast, that stay for more than 64 changes, and that come back after a code 8.

use crate::board::Board;
use crate::edition::Edition;
use crate::generate::{short, Random};
use crate::journal::set_code;
use crate::program::BYTES;
use crate::settings::*;
use crate::steady::INPUTS;

/// What inputs carry, in turn: with 0 and 15 beside each other, with other codes between, and with every code.
const CODES: [&[u8]; 8] = [
    &[8, 1],
    &[8, 4, 1],
    &[8, 0],
    &[8, 15],
    &[0, 15],
    &[0, 15, 8, 15, 0, 4],
    &[8, 0, 8, 15],
    &[0, 1, 2, 3, 4, 5, 6, 7, 8, 9, 10, 11, 12, 13, 14, 15],
];

/// A short orbit, or one with room for more than 64 changes. Controller 0 has few members, and mostly ignores disconnected and bad
/// ones, so that it gets past state 2 and sends code 8.
pub fn settings(random: &mut Random, edition: Edition) -> Settings {
    let mut settings = short(random, edition);
    settings[ORBIT] = random.pick(&[settings[ORBIT], settings[ORBIT], 300, 4096]);
    settings[IGNORE_DISC] = usize::from(!random.once_in(6));
    settings[IGNORE_BAD] = usize::from(!random.once_in(6));
    settings[RECOVER_RESYNC] = random.below(2);
    (0..32).for_each(|p| settings[PART0 + p] = if random.once_in(16) { 0 } else { 1 + random.below(8) });
    settings
}

/// An input carries each of its codes for so many crossings; the code that it carries now, and for how many more.
#[derive(Clone, Copy)]
struct Habit {
    codes: &'static [u8],
    stays: usize,
    place: usize,
    left: usize,
}

/// A stretch of the log: markers once in so many crossings, commands once in so many records. 0 is never.
struct Stretch {
    markers: usize,
    commands: usize,
}

struct Log<'a> {
    random: &'a mut Random,
    board: Board,
    log: Vec<u8>,
    habits: Vec<Habit>,
}

pub fn log(random: &mut Random, settings: &Settings) -> Vec<u8> {
    let (board, records) = (Board::fresh(settings.clone()), 2500 + random.below(4000));
    let habits = (0..INPUTS).map(|_| habit(random)).collect();
    let mut log = Log { random, board, log: Vec::new(), habits };
    log.command(0, 1);
    while log.log.len() < BYTES * records {
        let stretch = log.stretch();
        (0..50 + log.random.below(400)).for_each(|_| log.next(&stretch));
    }
    if !log.random.once_in(3) {
        log.least();
    }
    log.log
}

/// Codes that stay for one crossing are never believed; those that stay for two change the belief most often.
fn habit(random: &mut Random) -> Habit {
    let (codes, stays) = (random.pick(&CODES), random.pick(&[1, 2, 2, 2, 3, 5, 17, 80, 400]));
    Habit { codes, stays, place: random.below(codes.len()), left: random.below(stays) }
}

impl Log<'_> {
    fn record(&mut self, record: [u8; BYTES]) {
        self.board.record(&record);
        self.log.extend(record);
    }

    fn command(&mut self, n: usize, command: u8) {
        let mut record = [0; BYTES];
        (record[0], record[1], record[2]) = (1, n as u8, command);
        self.record(record);
    }

    /// Some inputs take up another habit, the others go on in theirs.
    fn stretch(&mut self) -> Stretch {
        for place in 0..INPUTS {
            if self.random.once_in(6) {
                self.habits[place] = habit(self.random);
            }
        }
        Stretch { markers: self.random.pick(&[0, 0, 1, 3, 40, 250]), commands: self.random.pick(&[0, 20, 60]) }
    }

    /// An end after which hardly more than 240 changes survive: most inputs change 64 times under one header, if the orbit is long
    /// enough, and then about 240 times under a header each, since every crossing has a marker.
    fn least(&mut self) {
        for place in 0..INPUTS {
            if !self.random.once_in(4) {
                let codes = self.random.pick(&CODES[..4]);
                self.habits[place] = Habit { codes, stays: 2, place: 0, left: 0 };
            }
        }
        self.next(&Stretch { markers: 1, commands: 0 });
        (1..128).for_each(|_| self.next(&Stretch { markers: 0, commands: 0 }));
        let changes = self.random.pick(&[238, 239, 240, 240, 240, 241, 256, 257]);
        (0..2 * changes).for_each(|_| self.next(&Stretch { markers: 1, commands: 0 }));
    }

    fn next(&mut self, stretch: &Stretch) {
        if self.random.once_in(stretch.commands) {
            return self.fitting_command();
        }
        let mut record = [0; BYTES];
        (record[1], record[2]) = (u8::from(self.random.once_in(stretch.markers)), self.random.below(256) as u8);
        for (input, habit) in self.habits.iter_mut().enumerate() {
            if habit.left == 0 {
                (habit.place, habit.left) = ((habit.place + 1) % habit.codes.len(), habit.stays);
            }
            habit.left -= 1;
            set_code(&mut record, input, habit.codes[habit.place]);
        }
        self.record(record);
    }

    /// Mostly controller 0 is started, and stopped at once when its code 8 is sent, so that orbit counts begin from 0 again.
    fn fitting_command(&mut self) {
        let any = (self.random.below(8), 1 + self.random.below(6) as u8);
        let (n, command) = match self.board.controllers[0].state {
            _ if self.random.once_in(6) => any,
            0 => (0, 1),
            1..=3 => (0, 5),
            _ => (0, self.random.pick(&[6, 6, 6, 2, 4])),
        };
        self.command(n, command);
    }
}
