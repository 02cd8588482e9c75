//! How often the seeds meet what P7 is about: damage to the logs, where it lies, and what becomes of it.

use crate::cover::Table;
use crate::disk::{over_buffer, PIECES};
use crate::program::{well_formed, BYTES};
use crate::salvage::salvage;

/// What becomes of a record.
#[derive(Clone, Copy, PartialEq)]
enum Fate {
    Unchanged,
    Mended,
    Dropped,
}
use Fate::*;

impl Table {
    pub fn salvage(&mut self, log: &[u8]) {
        let (records, tail) = log.split_at(log.len() - log.len() % BYTES);
        let records: Vec<&[u8]> = records.chunks(BYTES).collect();
        let fates: Vec<Fate> = records.iter().map(|record| fate(record)).collect();
        for (place, (record, fate)) in records.iter().zip(&fates).enumerate() {
            match fate {
                Unchanged => self.just_well_formed(record),
                Mended => self.mended(record),
                Dropped => self.dropped(record),
            }
            self.edges(place, *fate);
        }
        let pieces = records.chunks_exact(PIECES[0]).zip(fates.chunks_exact(PIECES[0]));
        pieces.for_each(|(records, fates)| self.piece(records, fates));
        self.tail(records.len(), tail);
        self.outcome(log, &fates);
        self.list(log);
    }

    /// Good records with a value beside a bad one.
    fn just_well_formed(&mut self, record: &[u8]) {
        let values = [(0, 1, 1), (0, 3, 15), (1, 1, 7), (1, 2, 1), (1, 2, 6)];
        for (item, (kind, byte, value)) in values.into_iter().enumerate() {
            self.add_if(record[0] == kind && record[byte] == value, "just_well_formed", item);
        }
    }

    fn mended(&mut self, record: &[u8]) {
        self.damages(&damages(record));
        match record[0] {
            0 => {
                self.add_if(record[1] > 1, "marker_to", usize::from(record[1] % 2));
                self.add_if(record[3] > 15, "GTFE_to", [1, 15].iter().filter(|&&first| record[3] % 16 >= first).count());
            }
            _ => {
                let bytes: Vec<usize> = (3..BYTES).filter(|&byte| record[byte] > 0).collect();
                self.add("reserved_bytes", [2, 21].iter().filter(|&&first| bytes.len() >= first).count());
                let item = |byte: usize| [4, 23].iter().filter(|&&first| byte >= first).count();
                bytes.iter().for_each(|&byte| self.add("reserved_at", item(byte)));
            }
        }
    }

    fn dropped(&mut self, record: &[u8]) {
        self.damages(&damages(record));
        self.add("dropped_was", [2, 3, 255].iter().filter(|&&first| record[0] >= first).count());
    }

    fn damages(&mut self, damages: &[usize]) {
        let group = if damages.len() == 1 { "damage_alone" } else { "damage_with_others" };
        damages.iter().filter(|&&item| item < OTHER).for_each(|&item| self.add(group, item));
    }

    /// The last record of a piece, the first of a later one, and one that a piece of 65,536 bytes cuts in two.
    fn edges(&mut self, place: usize, fate: Fate) {
        let group = match fate {
            Unchanged => return,
            Mended => "mended_at_edge",
            Dropped => "dropped_at_edge",
        };
        for (item, piece) in PIECES.into_iter().enumerate() {
            self.add_if((place + 1) % piece == 0, group, 2 * item);
            self.add_if(place > 0 && place % piece == 0, group, 2 * item + 1);
        }
        self.add_if(over_buffer(place), group, 2 * PIECES.len());
    }

    /// Whole pieces of 64 records that share one fate, and those with as many entries as there can be.
    fn piece(&mut self, records: &[&[u8]], fates: &[Fate]) {
        for (item, fate) in [Unchanged, Mended, Dropped].into_iter().enumerate() {
            self.add_if(fates.iter().all(|&other| other == fate), "piece_of_64", item);
        }
        let all_21 = |record: &&[u8]| record[0] == 1 && !record[3..].contains(&0);
        self.add_if(fates.iter().all(|&fate| fate == Mended) && records.iter().all(all_21), "piece_of_64", 3);
    }

    fn tail(&mut self, records: usize, tail: &[u8]) {
        let Some(&first) = tail.first() else { return };
        self.add("log_tail", tail.len());
        self.add("tail_was", usize::from(first).min(2));
        for (item, piece) in PIECES.into_iter().enumerate() {
            self.add_if(records > 0 && records % piece == 0, "tail_at_edge", item);
        }
    }

    /// What becomes of a log's whole records together; a log may have none, and then a tail alone or no bytes.
    fn outcome(&mut self, log: &[u8], fates: &[Fate]) {
        let item = match fates {
            [] => 5 * usize::from(!log.is_empty()),
            _ if fates.iter().all(|&fate| fate == Unchanged) => 1,
            _ if fates.iter().all(|&fate| fate == Dropped) => 4,
            _ => 2 + usize::from(fates.contains(&Dropped)),
        };
        self.add("salvaged", item);
    }

    /// The entries by the digits of their numbers.
    fn list(&mut self, log: &[u8]) {
        let list = salvage(log, 0).1;
        for line in list.split(|&byte| byte == b'\n') {
            for (key, group) in [("record=", "record_digits"), ("byte=", "byte_digits"), ("was=", "was_digits")] {
                line.strip_prefix(key.as_bytes()).iter().for_each(|number| self.add(group, number.len()));
            }
        }
    }
}

fn fate(record: &[u8]) -> Fate {
    match record {
        _ if well_formed(record) => Unchanged,
        [0, ..] | [1, 0..=7, 1..=6, ..] => Mended,
        _ => Dropped,
    }
}

/// Stands for what else is wrong with a record of unknown kind.
const OTHER: usize = 7;

/// The damages of a record by their places in the table. One of unknown kind has another if it would be ill-formed both as a
/// crossing and as a command.
fn damages(record: &[u8]) -> Vec<usize> {
    let as_kind = |kind: u8| [&[kind], &record[1..]].concat();
    let found = match record[0] {
        0 => vec![(0, record[1] > 1), (1, record[3] > 15)],
        1 => vec![(2, record[3..].iter().any(|&byte| byte > 0)), (4, record[1] > 7), (5, record[2] == 0), (6, record[2] > 6)],
        _ => vec![(3, true), (OTHER, !well_formed(&as_kind(0)) && !well_formed(&as_kind(1)))],
    };
    found.into_iter().filter(|(_, found)| *found).map(|(item, _)| item).collect()
}
