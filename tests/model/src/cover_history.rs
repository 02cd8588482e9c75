//! How often the seeds meet what P6 adds to the runs: changes of all inputs, each kept in a store of its own.

use crate::board::{Board, Done};
use crate::cover::Table;
use crate::program::follow;
use crate::steady::{Held, ATTS0, GTFE, INPUTS};
use crate::store::{one_code, Store, MOST, WORDS};

/// The log before a record: what the board held; and for each input its store, how many changes it had, and whether a code 8 came
/// since the last of them.
pub struct Histories {
    held: Held,
    stores: Vec<Store>,
    changes: [usize; INPUTS],
    reset: [bool; INPUTS],
}

impl Histories {
    pub fn fresh() -> Histories {
        Histories { held: Held::all(0), stores: vec![Store::fresh(); INPUTS], changes: [0; INPUTS], reset: [false; INPUTS] }
    }
}

impl Table {
    pub fn histories(&mut self, before: &mut Histories, board: &Board, done: &Done) {
        let Done::Crossing { orbit, did, .. } = done else { return };
        for input in 0..INPUTS {
            let (was, now) = (before.held.believed[input], board.held.believed[input]);
            self.add_if(was != now && one_code(was) == one_code(now), "no_change", usize::from(now == 0));
            if one_code(was) != one_code(now) {
                self.add("change", [ATTS0, GTFE].iter().filter(|&&first| input >= first).count());
                self.add_if(one_code(now) == 15, "change_to_15", usize::from(now == 15));
                let header = self.header(&before.stores[input], *orbit as u32, before.reset[input]);
                self.add_if(did[0].code == 8, "change_at_code_8", usize::from(header));
                self.kept(&mut before.stores[input], header, |store| follow(store, was, now, done));
                (before.changes[input], before.reset[input]) = (before.changes[input] + 1, false);
            }
            before.reset[input] |= did[0].code == 8;
        }
        before.held = board.held;
    }

    /// Whether a header comes before the change, and why.
    fn header(&mut self, store: &Store, orbit: u32, reset: bool) -> bool {
        let groups = store.groups().unwrap_or_default();
        let reason = match groups.last() {
            None => 0,
            Some(last) if orbit != last.orbit => 1 + usize::from(orbit < last.orbit),
            Some(last) if last.changes == MOST => 3,
            Some(_) => {
                self.add("no_header", usize::from(reset));
                return false;
            }
        };
        self.add("header", reason);
        true
    }

    /// Whether the oldest group goes as a change is kept, and whether its words go over the last place.
    fn kept(&mut self, store: &mut Store, header: bool, keep: impl FnOnce(&mut Store)) {
        let (used, words) = (store.used, if header { 4 } else { 1 });
        keep(store);
        let gone = used + words - store.used;
        self.add_if(gone > 0, "gone_for", usize::from(header));
        self.add_if(gone == 3 + MOST, "gone_of_64", 0);
        self.add_if(gone == 0 && header && store.used == WORDS, "just_room", 0);
        let first = (store.oldest + store.used - words) % WORDS;
        self.add_if(first + words > WORDS, "header_over_end", 0);
        self.add_if(store.oldest + store.used > WORDS, "in_use_over_end", 0);
    }

    /// The closing read-outs: with no change, with all of few or many, with the last ones, with few of these, and with just 240.
    pub fn read_outs(&mut self, before: &Histories) {
        for (store, &changes) in before.stores.iter().zip(&before.changes) {
            let retained = store.retained().map_or(0, |bytes| bytes.len() / 7);
            let item = match changes {
                0 => 0,
                _ if retained < changes => 3,
                _ => 1 + usize::from(changes >= 240),
            };
            self.add("read_out", item);
            self.add_if(item == 3 && retained < 260, "read_out", 4);
            self.add_if(item == 3 && retained == 240, "read_out", 5);
        }
    }
}
