//! Settings text damaged in one place, in all three editions.

use crate::damage_values::{break_relation, break_two, low_above_normal};
use crate::edition::Edition::{self, First, Second, Third};
use crate::edition::Own;
use crate::generate::Random;
use crate::settings::*;

/// Values that are ill-formed, V standing for the value.
const ILL_FORMED: [&str; 9] = ["0V", "+V", "-V", " V", "V ", "V\r", "00000V", "10000V", ""];

/// First lines that open no edition, and whether the other lines follow them.
#[rustfmt::skip]
const NO_EDITION: [(&str, bool); 8] = [
    ("", false), ("edition=1\n", true), ("edition=02\n", true), ("edition=99999\n", true), ("edition=2", true),
    ("edition=3", false), ("edition=3", true), ("edition=4\n", true),
];

/// More of them, one in 60 seeds, and at last two that do open one, which cannot go on so.
#[rustfmt::skip]
const ODD_EDITION: [&str; 18] = [
    "\n", " edition=3\n", "Edition=3\n", "edition=3 \n", "edition=3\r\n", "edition=+3\n", "edition=\n", "edition=0\n",
    "edition=03\n", "edition=5\n", "edition=30\n", "edition=65539\n", "edition=100003\n", "edition:3\n", "edition\n", "orbit\n",
    "orbit=\n", "edition=3\n\n",
];

/// Which lines a fault may be in.
type Choice = fn(&str) -> bool;
const SCHEDULES: Choice = |key| key.starts_with("at");
const SHARED: Choice = |key| !key.starts_with("at");
const RETIRED: Choice = |key| key == "warn_blocks";

/// Twenty kinds of damage in turn, and every third seed has the same edition, so that any 60 seeds running meet each kind once in
/// each edition. Now and then a later fault is added: the first has to be named.
pub fn text(random: &mut Random, edition: Edition, mut own: Own, seed: usize) -> Vec<u8> {
    let (turn, third, round) = (seed % 20, seed % 3, seed / 60);
    break_values(random, edition, &mut own, seed);
    let (good, either, older) = (edition.text(&own), random.pick(&[SHARED, SCHEDULES]), edition != Third);
    let form = Some(ILL_FORMED[(3 * turn + third + round) % 9]);
    let mut text = match turn {
        6 => damaged_byte(random, good.into_bytes()),
        7 if older && round % 2 == 0 => good.replace(&retired_line(own.warn_blocks), "").into_bytes(),
        7 => damaged_line(random, &good),
        8 if older => with_value(random, edition, &own, RETIRED, form),
        8..=10 => with_value(random, edition, &own, either, form),
        11 => with_value(random, edition, &own, SHARED, None),
        12 => with_value(random, edition, &own, SCHEDULES, None),
        14 if older => with_value(random, edition, &own, RETIRED, None),
        14 => with_retired_line(random, &good),
        15..=17 => without_edition(random, &own, 3 * (turn - 15) + third, round),
        18 => swapped_keys(random, edition, &good),
        19 => other_keys(random, edition, &own),
        _ => good.into_bytes(),
    };
    if turn == 13 || (turn > 5 && !(15..=17).contains(&turn) && random.once_in(4)) {
        let tails =
            ["\n", " ", "\0", "x", "part32=0\n", "orbit=3564\n", "edition=2\n", "edition=3\n", "at8_bc0=0\n", "warn_blocks=0\n"];
        text.extend(random.pick(&tails).repeat(random.pick(&[1, 1, 3000])).bytes());
    }
    text
}

/// The first turns break relations: each one, relation 5 by each rule in turn and mostly under `warn_blocks=1`, and two at
/// once. In the other turns a broken relation comes after the fault in the text.
fn break_values(random: &mut Random, edition: Edition, own: &mut Own, seed: usize) {
    let (turn, third, round) = (seed % 20, seed % 3, seed / 60);
    match turn {
        0..=3 => break_relation(random, edition, &mut own.settings, 1 + turn),
        4 => {
            low_above_normal(random, &mut own.settings, RULES[(third + round) % 3]);
            own.warn_blocks = usize::from(round % 4 < 3);
        }
        5 => break_two(random, edition, &mut own.settings, (third + round) % 2 == 1),
        _ if random.once_in(4) => break_relation(random, edition, &mut own.settings, 1 + turn % 5),
        _ => {}
    }
}

fn damaged_byte(random: &mut Random, mut text: Vec<u8>) -> Vec<u8> {
    let place = random.below(text.len());
    match random.below(5) {
        0 => text[place] = random.below(256) as u8,
        1 => text[place] = random.pick(b"0123456789=\n\r _"),
        2 => text.insert(place, text[place]),
        3 => drop(text.remove(place)),
        _ => text.truncate(random.pick(&[0, place, text.len() - 1])),
    }
    text
}

/// A line that is missing, that comes twice, or that changes places with the next.
fn damaged_line(random: &mut Random, text: &str) -> Vec<u8> {
    let mut lines: Vec<&str> = text.split_inclusive('\n').collect();
    let place = random.below(lines.len() - 1);
    match random.below(3) {
        0 => drop(lines.remove(place)),
        1 => lines.swap(place, place + 1),
        _ => lines.insert(place, lines[place]),
    }
    lines.concat().into_bytes()
}

/// The text with the value of a chosen line ill-formed or, without a form, outside its range.
fn with_value(random: &mut Random, edition: Edition, own: &Own, chosen: Choice, form: Option<&str>) -> Vec<u8> {
    let lines = edition.lines();
    let places: Vec<usize> = (0..lines.len()).filter(|&place| chosen(&lines[place].key)).collect();
    let place = random.pick(&places);
    let (line, value) = (&lines[place], edition.values(own)[place]);
    let below = if line.low > 0 { line.low - 1 } else { line.high + 1 };
    let damaged = match form {
        Some(form) => form.replace('V', &value.to_string()),
        None => random.pick(&[99_999, 65_536 + value, below, line.high + 1]).to_string(),
    };
    let (good, damaged) = (format!("{}={value}\n", line.key), format!("{}={damaged}\n", line.key));
    edition.text(own).replace(&good, &damaged).into_bytes()
}

fn retired_line(value: usize) -> String {
    format!("warn_blocks={value}\n")
}

/// Edition 3 with the line that it dropped: in its old place, before it or after it, or instead of the line that is there now.
fn with_retired_line(random: &mut Random, text: &str) -> Vec<u8> {
    let mut lines: Vec<&str> = text.split_inclusive('\n').collect();
    let line = retired_line(random.below(3));
    let place = 1 + random.pick(&[IGNORE_DISC, IGNORE_DISC, IGNORE_DISC - 1, IGNORE_BAD]);
    lines.splice(place..place + usize::from(random.once_in(4)), [line.as_str()]);
    lines.concat().into_bytes()
}

/// The lines of any edition, or none, after a first line that opens no edition.
fn without_edition(random: &mut Random, own: &Own, turn: usize, round: usize) -> Vec<u8> {
    let odd = (ODD_EDITION[round % ODD_EDITION.len()], true);
    let (first, followed) = NO_EDITION.get(turn).copied().unwrap_or(odd);
    let edition = random.pick(&[First, Second, Third]);
    let lines = if followed { edition.text(own).split_off(edition.opening().len()) } else { String::new() };
    (first.to_string() + &lines).into_bytes()
}

/// Lines of two schedules change places, one or all eleven; in edition 1 two lines of the schedule.
fn swapped_keys(random: &mut Random, edition: Edition, text: &str) -> Vec<u8> {
    let mut lines: Vec<&str> = text.split_inclusive('\n').collect();
    let begin = lines.iter().position(|line| SCHEDULES(line)).expect("the lines of a schedule");
    let (one, place) = (random.below(7), random.below(10));
    let (other, all) = (one + 1 + random.below(7 - one), random.once_in(2));
    match edition {
        First => lines.swap(begin + place, begin + place + 1 + random.below(10 - place)),
        Second | Third => {
            let places = if all { 0..ELEVEN } else { place..place + 1 };
            places.for_each(|place| lines.swap(begin + ELEVEN * one + place, begin + ELEVEN * other + place));
        }
    }
    lines.concat().into_bytes()
}

/// A key of edition 1's schedule in a later edition, or of a later one's in edition 1; or all of them.
fn other_keys(random: &mut Random, edition: Edition, own: &Own) -> Vec<u8> {
    let (mut text, place, n) = (edition.text(own), random.below(ELEVEN), random.below(8));
    let key = |begin: &str| format!("{}=", at_lines(begin)[place].key);
    let (old, new) = (key("at_"), key(&format!("at{n}_")));
    let other = if edition == First { Second } else { First }.text(own);
    let schedules = |text: &str| text.find("\nat").zip(text.find("\npart0=")).map_or(0..0, |(begin, end)| begin..end);
    match edition {
        _ if random.once_in(2) => text.replace_range(schedules(&text), &other[schedules(&other)]),
        First => text = text.replace(&old, &new),
        Second | Third => text = text.replace(&new, &old),
    }
    text.into_bytes()
}
