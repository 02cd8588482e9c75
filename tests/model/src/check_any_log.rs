//! The model's own tests of what P7 promises of any log, on random bytes and on generated logs.

use crate::check::{crossing, Cases};
use crate::damage_record::random_bytes;
use crate::generate::{generate, Random, KINDS};
use crate::program::{run, well_formed, BYTES};
use crate::salvage::salvage;
use std::str::FromStr;

pub fn cases() -> Cases {
    [bytes(), logs(), seeds()].concat()
}

/// An entry of the list: record, byte, was, and now, which a drop has none of.
type Entry = (usize, usize, u8, Option<u8>);

/// The entries of a list that has nothing else in it.
fn told(list: &[u8]) -> Option<Vec<Entry>> {
    let lines: Vec<&str> = std::str::from_utf8(list).ok()?.split_inclusive('\n').collect();
    lines.chunks(4).map(entry).collect()
}

fn entry(lines: &[&str]) -> Option<Entry> {
    let value = |place: usize, key: &str| lines.get(place)?.strip_prefix(key)?.strip_suffix('\n');
    let now = match value(3, "now=")? {
        "drop" => None,
        now => Some(number(now)?),
    };
    Some((number(value(0, "record=")?)?, number(value(1, "byte=")?)?, number(value(2, "was=")?)?, now))
}

/// A decimal number without leading zeros or a sign.
fn number<T: FromStr + ToString>(text: &str) -> Option<T> {
    text.parse().ok().filter(|number: &T| number.to_string() == text)
}

/// The log with everything done to it that the list says; nothing if an entry does not fit it, or changes nothing.
fn applied(log: &[u8], first: usize, entries: &[Entry]) -> Option<Vec<u8>> {
    let mut records: Vec<Option<Vec<u8>>> = log.chunks(BYTES).map(|record| Some(record.to_vec())).collect();
    for &(number, byte, was, now) in entries {
        let record = records.get_mut(number.checked_sub(first)?)?;
        if *record.as_ref()?.get(byte)? != was || now == Some(was) {
            return None;
        }
        match now {
            Some(now) => record.as_mut()?[byte] = now,
            None => *record = None,
        }
    }
    Some(records.into_iter().flatten().flatten().collect())
}

/// Whether a record is well formed once all of it that may be mended is 0. One that is not has to go.
fn can_stay(record: &[u8]) -> bool {
    let mut cleared = record.to_vec();
    match record[0] {
        0 => (cleared[1], cleared[3]) = (0, 0),
        _ => cleared[3..].fill(0),
    }
    well_formed(&cleared)
}

/// The log cut into pieces of so many records, the last with the tail, each salvaged by itself, and all joined.
fn in_pieces(log: &[u8], first: usize, records: usize) -> (Vec<u8>, Vec<u8>) {
    let (mut salvaged, mut list) = (Vec::new(), Vec::new());
    for (piece, bytes) in log.chunks(BYTES * records).enumerate() {
        let (salvaged_piece, list_piece) = salvage(bytes, first + piece * records);
        salvaged.extend(salvaged_piece);
        list.extend(list_piece);
    }
    (salvaged, list)
}

/// "Every record is well formed"; "well-formed records pass unchanged", so the output is left as it is; the list is "in rising
/// order" and tells all that was done; just what cannot stay is dropped; and pieces are the whole.
fn holds(log: &[u8], first: usize, pieces: &[usize]) -> bool {
    let (salvaged, list) = salvage(log, first);
    let Some(entries) = told(&list) else { return false };
    let all_well_formed = salvaged.len() % BYTES == 0 && salvaged.chunks(BYTES).all(well_formed);
    let left = salvage(&salvaged, first) == (salvaged.clone(), Vec::new());
    let rising = entries.is_sorted_by(|one, next| (one.0, one.1) < (next.0, next.1));
    let records = log.chunks(BYTES).enumerate();
    let gone = records.filter(|(_, record)| record.len() < BYTES || !can_stay(record)).map(|(place, _)| (first + place, 0));
    let dropped = entries.iter().filter(|entry| entry.3.is_none()).map(|entry| (entry.0, entry.1));
    let whole = pieces.iter().all(|&records| in_pieces(log, first, records) == (salvaged.clone(), list.clone()));
    let done = applied(log, first, &entries).as_ref() == Some(&salvaged);
    all_well_formed && left && rising && dropped.eq(gone) && whole && done
}

/// Every value of every byte of a crossing and of a command; the list is empty just where the record is well formed.
fn bytes() -> Cases {
    let mut command = [0; BYTES];
    (command[0], command[1], command[2]) = (1, 7, 6);
    let changed = |base: [u8; BYTES], byte: usize, value: u8| {
        let mut record = base;
        record[byte] = value;
        holds(&record, 0, &[]) && salvage(&record, 0).1.is_empty() == well_formed(&record)
    };
    let all = |base: [u8; BYTES]| (0..BYTES).all(|byte| (0..=255).all(|value| changed(base, byte, value)));
    vec![("every byte of a crossing", all(crossing(1, 0xFF, 15))), ("every byte of a command", all(command))]
}

/// Random bytes: any at all; with kinds 0 to 2 and any others; and so low ones that many records are good or nearly good.
fn random_log(random: &mut Random, way: usize) -> Vec<u8> {
    let mut log = vec![0; random.below(120 * BYTES)];
    random_bytes(random, &mut log);
    let below: &[u8] = [&[][..], &[3], &[2, 10, 9, 24]][way];
    for record in log.chunks_mut(BYTES) {
        record.iter_mut().zip(below).for_each(|(byte, below)| *byte %= below);
        if way == 2 && random.once_in(2) {
            record.iter_mut().skip(3).for_each(|byte| *byte = 0);
        }
    }
    log
}

fn logs() -> Cases {
    let all = |way: usize| {
        let random = &mut Random::of(7 + way);
        (0..60).all(|_| {
            let (log, first) = (random_log(random, way), random.pick(&[0, 1, 95, 99_990]));
            holds(&log, first, &[1, 2, 7, 64, 1 + random.below(120)])
        })
    };
    vec![("any bytes", all(0)), ("any bytes under kinds 0 to 2", all(1)), ("nearly good bytes", all(2))]
}

/// Three rounds of `salvage`, and some seeds of the other kinds. "A block made of its output never gets RECORD": the texts are
/// good, so nothing is refused.
fn seeds() -> Cases {
    let salvages: Vec<_> = (1..=60).filter_map(|seed| generate("salvage", seed)).collect();
    let others = KINDS.iter().filter(|&&kind| kind != "salvage").flat_map(|kind| (1..=3).filter_map(|seed| generate(kind, seed)));
    let runs = |text: &[u8], log: &[u8]| run(text, log, &mut |_, _| {}).is_ok();
    let refused = salvages.iter().filter(|(text, log)| !runs(text, log)).count();
    vec![
        ("logs of the kind salvage", salvages.iter().all(|(_, log)| holds(log, 0, &[64, 1000]))),
        ("logs of the other kinds", others.into_iter().all(|(_, log)| holds(&log, 0, &[64, 1000]))),
        ("most of them were refused", refused > 40),
        ("none is refused once salvaged", salvages.iter().all(|(text, log)| runs(text, &salvage(log, 0).0))),
    ]
}
