//! How often the seeds meet what P3 adds to the runs: triggers under warning, by the edition and the `warn_blocks` of the text.

use crate::board::{Board, Done, THROTTLE};
use crate::cover::Table;
use crate::edition::{open, values, Edition, Own};
use crate::older;
use crate::settings::*;

/// The edition of a log's settings text, and its own values.
pub struct Source {
    edition: Edition,
    own: Own,
}

impl Source {
    pub fn of(text: &[u8]) -> Option<Source> {
        Some(Source { edition: open(text)?.0, own: values(text).ok()? })
    }
}

impl Table {
    pub fn under_warning(&mut self, source: &Source, board: &Board, done: &Done) {
        let Done::Crossing { did, .. } = done else { return };
        let Source { edition, own: Own { settings, warn_blocks } } = source;
        let place = *edition as usize;
        let all_0 = RULES.iter().all(|&period| settings[period + 2] == 0);
        for did in did {
            let (sent, warn) = ([did.request, did.calibration].contains(&Some(Ok(()))), did.state == 8);
            self.add_if(sent && warn, "sent_in_WARN", place);
            self.add_if(sent && !warn && *warn_blocks == 1, "sent_in_READY_under_1", place);
            if let (Some(Err(lost)), true, 1) = (did.request, warn, *warn_blocks) {
                lost.rule().iter().for_each(|rule| self.add("lost_in_WARN_under_1", 3 * rule + place));
            }
            for (item, asked) in [did.request, did.calibration].into_iter().enumerate().filter(|_| warn) {
                let stopped = matches!(asked, Some(Err(lost)) if lost as usize >= THROTTLE);
                let group = ["stopped_request", "stopped_calibration"][item];
                self.add_if(stopped && *warn_blocks == 1 && passes(settings, board), group, place);
                self.add_if(stopped && all_0 && *edition == Edition::Third, "stopped_by_0_in_3", item);
            }
        }
    }
}

/// Whether the text's own low limits would have let a trigger pass in the crossing just done, which carried none.
fn passes(own: &Settings, board: &Board) -> bool {
    let before = |crossings: usize| board.triggers_before(crossings + 1);
    older::throttle::<0>(own, true, &before).is_ok()
}
