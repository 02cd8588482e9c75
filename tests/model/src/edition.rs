//! Document 01, "Settings text", with document 02, P2 and P3: the three editions of the text, read and written.

use crate::refusal::Refusal;
use crate::settings::*;

#[rustfmt::skip]
#[derive(Clone, Copy, PartialEq, Eq)]
pub enum Edition { First = 1, Second = 2, Third = 3 }
use Edition::{First, Second, Third};

/// The place of `warn_blocks` among the lines of an older edition: document 01 has it before `ignore_disc`.
const WARN_BLOCKS: usize = IGNORE_DISC;

/// A text's own values: those that settings have, and its `warn_blocks`, which is 0 where the edition has no such line.
pub struct Own {
    pub settings: Settings,
    pub warn_blocks: usize,
}

impl Own {
    /// These values with nothing to say against triggers under warning but the low limits.
    pub fn of(settings: &Settings) -> Own {
        Own { settings: settings.clone(), warn_blocks: 0 }
    }

    /// "Older text with value 1": "its three low limits then set to 0". With value 0 the values stand.
    pub fn retire(&self) -> Settings {
        let mut settings = self.settings.clone();
        if self.warn_blocks == 1 {
            RULES.iter().for_each(|&period| settings[period + 2] = 0);
        }
        settings
    }
}

impl Edition {
    /// What stands before the lines `key=value`: "first line `edition=2`".
    pub fn opening(self) -> &'static str {
        match self {
            First => "",
            Second => "edition=2\n",
            Third => "edition=3\n",
        }
    }

    /// The line numbers of `orbit` and of the tail: "71 lines", "149 lines", "edition 3 has 148 lines, so TEXT for its tail names
    /// line 149; older editions keep their numbers".
    pub fn numbers(self) -> (usize, usize) {
        match self {
            First => (1, 72),
            Second => (2, 150),
            Third => (2, 149),
        }
    }

    /// "Then the old lines, with the eleven replaced by 88 named `at0_bc0` to `at7_cal`, controller by controller." "Edition 3
    /// drops the line" `warn_blocks`, 0..1.
    pub fn lines(self) -> Vec<Line> {
        let at = match self {
            First => at_lines("at_"),
            Second | Third => (0..8).flat_map(|n| at_lines(&format!("at{n}_"))).collect(),
        };
        let mut lines = shared_lines();
        lines.splice(PART0..PART0, at);
        if self != Third {
            lines.insert(WARN_BLOCKS, Line { key: "warn_blocks".into(), low: 0, high: 1 });
        }
        lines
    }

    /// The values of the lines, in their order. In edition 1 the schedule of controller 0 stands for all.
    pub fn values(self, own: &Own) -> Vec<usize> {
        let at = match self {
            First => own.settings.at[0].to_vec(),
            Second | Third => own.settings.at.concat(),
        };
        let mut values = own.settings.shared.clone();
        values.splice(PART0..PART0, at);
        if self != Third {
            values.insert(WARN_BLOCKS, own.warn_blocks);
        }
        values
    }

    /// What the lines' values say; in edition 1 "its schedule given to all eight".
    fn own(self, mut values: Vec<usize>) -> Own {
        let warn_blocks = if self == Third { 0 } else { values.remove(WARN_BLOCKS) };
        let parts = values.len() - 32;
        let at: Vec<usize> = values.drain(PART0..parts).collect();
        let schedule = |n: usize| match self {
            First => std::array::from_fn(|place| at[place]),
            Second | Third => std::array::from_fn(|place| at[ELEVEN * n + place]),
        };
        Own { settings: Settings { shared: values, at: std::array::from_fn(schedule) }, warn_blocks }
    }

    pub fn text(self, own: &Own) -> String {
        let pairs = self.lines().into_iter().zip(self.values(own));
        let lines: String = pairs.map(|(line, value)| format!("{}={value}\n", line.key)).collect();
        self.opening().to_string() + &lines
    }
}

/// "Written text is edition 3."
pub fn write(settings: &Settings) -> String {
    Third.text(&Own::of(settings))
}

/// "Then relations": the first failing one, with its controller. They are "tried on its own values and its three low limits then
/// set to 0".
pub fn read(text: &[u8]) -> Result<Settings, Refusal> {
    let own = values(text)?;
    match own.settings.failing().first() {
        Some(&(relation, controller)) => Err(Refusal::Relation(relation, controller)),
        None => Ok(own.retire()),
    }
}

/// "The first faulty line decides, in a line TEXT before RANGE, then the tail."
pub fn values(text: &[u8]) -> Result<Own, Refusal> {
    let (edition, mut rest) = open(text).ok_or(Refusal::Text(1))?;
    let (orbit, tail) = edition.numbers();
    let mut values = Vec::new();
    for (line, number) in edition.lines().iter().zip(orbit..) {
        let (value, after) = read_line(rest, &line.key).ok_or(Refusal::Text(number))?;
        if value < line.low || value > line.high {
            return Err(Refusal::Range(number));
        }
        values.push(value);
        rest = after;
    }
    if rest.is_empty() {
        Ok(edition.own(values))
    } else {
        Err(Refusal::Text(tail))
    }
}

/// "Text that begins with `orbit=` is still read", whatever follows; any other must begin with exactly `edition=2` or `edition=3`
/// and a newline: "a first line that opens no known edition is TEXT, line 1". The edition and the lines `key=value`.
pub fn open(text: &[u8]) -> Option<(Edition, &[u8])> {
    if text.starts_with(b"orbit=") {
        return Some((First, text));
    }
    [Second, Third].into_iter().find_map(|edition| Some((edition, text.strip_prefix(edition.opening().as_bytes())?)))
}

/// "`key=value`, each ended by one newline. Values are decimal, one to five digits, no leading zero (but `0`)."
fn read_line<'a>(text: &'a [u8], key: &str) -> Option<(usize, &'a [u8])> {
    let after_key = text.strip_prefix(key.as_bytes())?.strip_prefix(b"=")?;
    let end = after_key.iter().position(|&byte| byte == b'\n')?;
    let digits = &after_key[..end];
    let decimal = digits.iter().all(u8::is_ascii_digit) && (1..=5).contains(&digits.len());
    if !decimal || (digits[0] == b'0' && digits.len() > 1) {
        return None;
    }
    let value = digits.iter().fold(0, |sum, digit| sum * 10 + usize::from(digit - b'0'));
    Some((value, &after_key[end + 1..]))
}
