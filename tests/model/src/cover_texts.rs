//! How often the seeds meet what P2 and P3 add to the settings text: its editions, and their refusals.

use crate::cover::Table;
use crate::edition::{open, read, values, Edition, Own};
use crate::refusal::Refusal;

impl Table {
    pub fn text(&mut self, text: &[u8]) {
        let Some((edition, lines)) = open(text) else {
            return self.no_edition(text);
        };
        let (place, (orbit, tail)) = (edition as usize, edition.numbers());
        match read(text).and(values(text)) {
            Ok(own) => {
                self.add("read", place);
                self.add_if(edition != Edition::Third, ["warn_blocks_0", "warn_blocks_1"][own.warn_blocks], place);
            }
            Err(Refusal::Text(line)) if line == tail => {
                self.add("refused", 8);
                self.add("tail", place);
            }
            Err(Refusal::Text(line)) => {
                self.add("TEXT", place);
                self.key(edition, lines, line - orbit);
            }
            Err(Refusal::Range(line)) => match edition.lines()[line - orbit].key.as_str() {
                "warn_blocks" => self.add("warn_blocks_RANGE", place),
                key if key.starts_with("at") => self.add("RANGE_of_schedule", place),
                _ => self.add("RANGE_shared", place),
            },
            Err(_) => values(text).iter().for_each(|own| self.relations(edition, own)),
        }
    }

    /// A first line that opens no edition; without a newline it has nothing or the next line after it.
    fn no_edition(&mut self, text: &[u8]) {
        let named: [&[u8]; 6] =
            [b"edition=1\n", b"edition=02\n", b"edition=99999\n", b"edition=2orbit=", b"edition=3orbit=", b"edition=4\n"];
        match named.iter().position(|named| text.starts_with(named)) {
            _ if text.is_empty() => self.add("no_edition", 0),
            _ if text == b"edition=3" => self.add("no_edition", 5),
            Some(place) => self.add("no_edition", 1 + place),
            None => self.add("no_edition", 7),
        }
    }

    /// The key that stands in the faulty line, `place` counted from `orbit`: `warn_blocks` or the line after it, one of the other
    /// editions' schedules, or of the same name in another controller's.
    fn key(&mut self, edition: Edition, lines: &[u8], place: usize) {
        let line = lines.split(|&byte| byte == b'\n').nth(place).unwrap_or_default();
        let found = line.split(|&byte| byte == b'=').next().unwrap_or_default();
        let found = std::str::from_utf8(found).unwrap_or_default();
        let expected = edition.lines()[place].key.clone();
        let of_schedule = |key: &str| key.starts_with("at").then(|| key.find('_').map(|place| key[place..].to_string()));
        match (expected.as_str(), found) {
            ("warn_blocks", "warn_blocks") => self.add("warn_blocks_ill_formed", edition as usize),
            ("warn_blocks", "ignore_disc") => self.add("warn_blocks_missing", edition as usize),
            (_, "warn_blocks") => self.add_if(edition == Edition::Third, "warn_blocks_key", 3),
            _ if found == expected || of_schedule(found) != of_schedule(&expected) => {}
            _ if edition == Edition::First => self.add_if(found.starts_with("at"), "key", 0),
            _ if found.starts_with("at_") => self.add("key", edition as usize - 1),
            _ => self.add_if(found.starts_with("at"), "key", 3),
        }
    }

    fn relations(&mut self, edition: Edition, own: &Own) {
        let failing = own.settings.failing();
        let (relation, n) = failing[0];
        self.add_if(relation == 5 && (own.warn_blocks == 1 || edition == Edition::Third), "relation_5", edition as usize);
        self.add_if(n > 0, "relation_above_0", relation);
        self.add_if(failing.iter().any(|later| later.0 > relation && later.0 < 5 && later.1 < n), "relation_first", 0);
        let eight = edition != Edition::First;
        self.add_if(eight && failing.iter().any(|same| same.0 == relation && same.1 > n), "relation_first", 1);
    }
}
