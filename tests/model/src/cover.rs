//! How often a range of seeds meets each thing that document 01 names, and document 02 up to P7: the texts are counted in
//! `cover_texts.rs`, what P2 adds to the runs in `cover_schedules.rs`, what P3 adds in `cover_older.rs`, P5 in `cover_rules.rs`, P6
//! in `cover_history.rs`; and the damage to the logs, which P7 salvages, in `cover_salvage.rs`.

use crate::board::{Board, Cycle, Did, Done, THROTTLE};
use crate::cover_groups::{GROUPS, ITEMS};
use crate::cover_history::Histories;
use crate::cover_older::Source;
use crate::cover_rules::Rules;
use crate::cover_schedules::Calibrations;
use crate::generate::{generate, KINDS};
use crate::merge::{class, ignored, members, merge, Merged};
use crate::program::{run, BLOCK, BYTES};
use crate::refusal::Refusal;
use crate::steady::{Held, INPUTS};

/// Counts by group and item.
pub struct Table([[u64; ITEMS]; GROUPS.len()]);

/// The log before a record: what the board held, the records, and the place among them of the last crossing.
struct Before {
    held: Held,
    records: usize,
    last_crossing: usize,
}

/// The table over the seeds of a kind, or of all kinds, or nothing for an unknown kind.
pub fn cover(kind: &str, from: usize, to: usize) -> Option<String> {
    let mut table = Table([[0; ITEMS]; GROUPS.len()]);
    for kind in KINDS.iter().filter(|known| kind == "all" || kind == **known) {
        for seed in from..=to {
            let (text, log) = generate(kind, seed)?;
            let mut before = Before { held: Held::all(0), records: 0, last_crossing: 0 };
            let (mut calibrations, source, mut rules) = (Calibrations::of(&text), Source::of(&text), Rules::default());
            let mut histories = Histories::fresh();
            let mut watch = |board: &Board, done: &Done| {
                table.record(&mut before, board, done);
                table.schedules(&mut calibrations, board, done);
                source.iter().for_each(|source| table.under_warning(source, board, done));
                table.rules(&mut rules, board, done);
                table.histories(&mut histories, board, done);
            };
            match run(&text, &log, &mut watch) {
                Ok((board, _)) => {
                    table.reported(&rules, &board);
                    table.read_outs(&histories);
                }
                Err(refusal) => table.refusal(refusal),
            }
            table.text(&text);
            table.salvage(&log);
            table.apart(&calibrations);
        }
    }
    (kind == "all" || KINDS.contains(&kind)).then(|| table.rows())
}

impl Table {
    pub fn add(&mut self, group: &str, item: usize) {
        let place = GROUPS.iter().position(|(name, _)| *name == group).expect("a group of the table");
        self.0[place][item] += 1;
    }

    pub fn add_if(&mut self, met: bool, group: &str, item: usize) {
        if met {
            self.add(group, item);
        }
    }

    fn rows(&self) -> String {
        let mut rows = String::new();
        for ((group, items), counts) in GROUPS.iter().zip(self.0) {
            for (item, count) in items.split(' ').zip(counts).filter(|(item, _)| *item != "-") {
                let name = if item.is_empty() { group.to_string() } else { format!("{group}_{item}") };
                rows += &format!("{name} {count}\n");
            }
        }
        rows
    }

    fn refusal(&mut self, refusal: Refusal) {
        self.add("refused", refusal.number());
        if let Refusal::Relation(relation, _) = refusal {
            self.add("relation", relation);
        }
    }

    fn record(&mut self, before: &mut Before, board: &Board, done: &Done) {
        match done {
            Done::Command { command, taken, dropped } => {
                self.add(if *taken { "taken" } else { "not_taken" }, usize::from(*command));
                if *dropped {
                    self.add("dropped", 1);
                }
            }
            Done::Crossing { marker, did, .. } => {
                self.crossing(board, done);
                (0..8).for_each(|n| self.members(board, n));
                (0..INPUTS).for_each(|input| self.input(before, board, *marker, input));
                did.iter().enumerate().for_each(|(n, did)| self.held_codes(board, did, n));
                (before.held, before.last_crossing) = (board.held, before.records);
            }
        }
        before.records += 1;
    }

    fn members(&mut self, board: &Board, n: usize) {
        for input in members(&board.settings, n).filter(|&input| board.held.believed[input] != 8) {
            let code = board.held.believed[input];
            let class = class(code, input);
            if ignored(&board.settings, class) {
                self.add("ignored", usize::from(class == Merged::Disconnected));
            }
            if code == 11 {
                self.add("code_11", [24, 32].iter().filter(|&&first| input >= first).count());
            }
        }
    }

    /// What becomes of a code that an input carried in the crossing before and that was not yet believed.
    fn input(&mut self, before: &Before, board: &Board, marker: bool, input: usize) {
        let (new, believed, now) = (before.held.carried[input], before.held.believed[input], board.held.carried[input]);
        if new == believed {
            return;
        }
        let over_block_end = before.last_crossing * BYTES / BLOCK != before.records * BYTES / BLOCK;
        if now == new {
            self.add("believed", 0);
            self.add_if(over_block_end, "believed", 1);
            self.add_if(before.last_crossing + 1 < before.records, "believed", 2);
            return self.add_if(marker, "believed", 3);
        }
        self.add("bounce", 0);
        self.add_if(now == believed, "bounce", 1);
        self.add_if(over_block_end, "bounce", 2);
        self.add_if(now != believed, "alternating", 0);
        self.add_if(now != believed && (new, now) == (0, 15), "disconnected", 0);
    }

    /// A controller that runs on past state 9, where the carried codes would have taken it; and one that in the second crossing
    /// of the log goes from state 2 to 18 by the 0 that a fresh board believes, where the carried codes would have led on.
    fn held_codes(&mut self, board: &Board, did: &Did, n: usize) {
        let carried = merge(&board.settings, &board.held.carried, n);
        self.add_if((6..=8).contains(&did.state) && carried >= Merged::Bad, "bounce", 3);
        self.add_if(board.crossings == 2 && did.state == 18 && carried < Merged::OutOfSync, "fresh", 0);
    }

    fn crossing(&mut self, board: &Board, done: &Done) {
        let Done::Crossing { marker, expected, number, handed, did, .. } = done else { return };
        if *number == 0 {
            self.add("zero", usize::from(*marker) + usize::from(*expected != 0));
        }
        match handed {
            Some((last, next)) => self.add("hand_over", usize::from(last == next)),
            None if *number == 0 && board.holder == 8 => self.add("hand_over", 2),
            None => {}
        }
        for (n, did) in did.iter().enumerate() {
            self.add("state", did.state);
            self.add("merged", did.merged as usize);
            if did.code > 0 {
                self.add("code", usize::from(did.code));
            }
            let running = did.state == 7 || did.state == 8;
            match (did.had, did.keeps, handed) {
                (Cycle::Armed | Cycle::Open, Cycle::None, _) if !running => self.add("dropped", 0),
                (Cycle::Open, Cycle::None, Some((last, next))) if *last == n && last != next => self.add("dropped", 2),
                (Cycle::Armed, Cycle::Armed, Some((last, next))) if *last == n && last != next => self.add("kept", 0),
                (Cycle::Open, Cycle::Open, Some(_)) => self.add("kept", 1),
                _ => {}
            }
            self.asked(did);
        }
    }

    fn asked(&mut self, did: &Did) {
        match did.request {
            Some(Ok(())) => self.add("sent", usize::from(did.state == 8)),
            Some(Err(lost)) => self.add("lost", (lost as usize).min(THROTTLE)),
            None => {}
        }
        match did.calibration {
            Some(Ok(())) => self.add("sent", 2),
            Some(Err(lost)) => self.add("cal_lost", lost as usize - THROTTLE),
            None => {}
        }
        match did.calibration.or(did.request) {
            Some(Err(lost)) if lost as usize >= THROTTLE => {
                let limits = if did.state == 8 { "first_in_WARN" } else { "first_in_READY" };
                self.add(limits, lost as usize - THROTTLE);
            }
            _ => {}
        }
    }
}
