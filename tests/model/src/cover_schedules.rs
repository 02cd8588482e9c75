//! How often the seeds meet what P2 adds to the runs: controllers that go by their own schedules.

use crate::board::{Board, Cycle, Did, Done};
use crate::cover::Table;
use crate::settings::*;

/// Codes by their places in a schedule; none is sent at at_cal.
const CODES: [u8; ELEVEN] = [1, 2, 5, 6, 7, 8, 9, 10, 11, 13, 0];

/// The edition of a log's settings, and the calibration triggers that were asked: controller, number, whether sent.
pub struct Calibrations {
    first_edition: bool,
    asked: Vec<(usize, usize, bool)>,
}

impl Calibrations {
    pub fn of(text: &[u8]) -> Calibrations {
        Calibrations { first_edition: text.starts_with(b"orbit="), asked: Vec::new() }
    }
}

impl Table {
    pub fn schedules(&mut self, calibrations: &mut Calibrations, board: &Board, done: &Done) {
        let Done::Crossing { number, did, .. } = done else { return };
        for (n, did) in did.iter().enumerate() {
            self.own_number(&board.settings, n, *number, did);
            self.passed(board, n, *number, did);
            self.add_if(calibrations.first_edition && did.request == Some(Ok(())), "edition_1_sent", 0);
            if let Some(answer) = did.calibration {
                self.add_if(calibrations.first_edition && answer.is_ok(), "edition_1_sent", 1);
                calibrations.asked.push((n, *number, answer.is_ok()));
                let another = |place: usize| (0..8).any(|other| other != n && board.settings.at[other][place] == *number);
                self.add_if(another(AT_TE), "calibrations", 2);
                self.add_if(another(AT_WTE), "calibrations", 3);
            }
        }
    }

    /// What a controller sends at a number at which the schedule of controller 0 would not have it sent.
    fn own_number(&mut self, settings: &Settings, n: usize, number: usize, did: &Did) {
        let other_number = |place: usize| settings.at[0][place] != number;
        if let Some(place) = CODES.iter().position(|&code| code == did.code && code > 0) {
            self.add_if(other_number(place), "own_number", usize::from(did.code));
            let without_slot = settings[SLOT0 + n] == 0 && [1, 11].contains(&did.code);
            self.add_if(other_number(place) && without_slot, "own_number_without_slot", usize::from(did.code));
        }
        self.add_if(other_number(AT_CAL) && did.calibration == Some(Ok(())), "own_number", 14);
    }

    /// The holder's cycle stays as it was at a number at which the schedule of controller 0 would have it go on.
    fn passed(&mut self, board: &Board, n: usize, number: usize, did: &Did) {
        let stays = board.holder == n && did.had == did.keeps && did.calibration.is_none();
        let (of_0, own) = (&board.settings.at[0], &board.settings.at[n]);
        let places = [(AT_WTE, Cycle::Armed), (AT_TE, Cycle::Open), (AT_CAL, Cycle::Open)];
        for (item, (place, cycle)) in places.into_iter().enumerate() {
            self.add_if(stays && did.had == cycle && of_0[place] == number && own[place] != number, "passed", item);
        }
    }

    /// Calibrations of two controllers in one log, at different numbers.
    pub fn apart(&mut self, calibrations: &Calibrations) {
        let apart = |sent: bool| {
            let asked = || calibrations.asked.iter().filter(move |asked| asked.2 || !sent);
            asked().any(|one| asked().any(|other| one.0 != other.0 && one.1 != other.1))
        };
        self.add_if(apart(false), "calibrations", 0);
        self.add_if(apart(true), "calibrations", 1);
    }
}
