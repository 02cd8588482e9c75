//! The model's own tests of P7's sentences: what is mended, what is dropped, the list, and ROOM. What is true of any log is in
//! `check_any_log.rs`.

use crate::check::{crossing, Cases};
use crate::program::BYTES;
use crate::refusal::Refusal;
use crate::salvage::{salvage, salvage_into};

pub fn cases() -> Cases {
    [mends(), drops(), tails(), numbers(), rooms()].concat()
}

/// A record with some bytes changed.
fn with(mut record: [u8; BYTES], bytes: &[(usize, u8)]) -> [u8; BYTES] {
    bytes.iter().for_each(|&(byte, value)| record[byte] = value);
    record
}

/// STOP of controller 5.
fn command() -> [u8; BYTES] {
    with([0; BYTES], &[(0, 1), (1, 5), (2, 2)])
}

/// A crossing in which every byte that any value is good for has the highest.
fn full() -> [u8; BYTES] {
    with([255; BYTES], &[(0, 0), (1, 1), (3, 15)])
}

/// Whether a log of these records gives these others, and the list, its lines written with spaces between.
fn gives(records: &[[u8; BYTES]], salvaged: &[[u8; BYTES]], list: &str) -> bool {
    let lines: String = list.split_whitespace().map(|line| line.to_string() + "\n").collect();
    salvage(&records.concat(), 0) == (salvaged.concat(), lines.into_bytes())
}

/// "Reserved bytes of a command are cleared; a marker byte above 1 becomes its lowest bit; a high nibble in the GTFE byte is
/// cleared"; "well-formed records pass unchanged".
fn mends() -> Cases {
    let crossing = crossing(0, 0x81, 8);
    let unchanged = |record: [u8; BYTES]| gives(&[record], &[record], "");
    let one = |base: [u8; BYTES], byte: usize, was: u8, now: u8| {
        let list = format!("record=0 byte={byte} was={was} now={now}");
        gives(&[with(base, &[(byte, was)])], &[with(base, &[(byte, now)])], &list)
    };
    let marker = |was: u8, now: u8| one(crossing, 1, was, now) && one(full(), 1, was, now);
    let gtfe = |was: u8, now: u8| one(crossing, 3, was, now) && one(full(), 3, was, now);
    let reserved = |was: u8| (3..BYTES).all(|byte| one(command(), byte, was, 0));
    let all_21: String = (3..BYTES).map(|byte| format!("record=0 byte={byte} was=255 now=0 ")).collect();
    let every_byte = with([255; BYTES], &[(0, 1), (1, 5), (2, 2)]);
    let two = "record=0 byte=1 was=6 now=0 record=0 byte=3 was=100 now=4";
    vec![
        ("well-formed crossings", unchanged(crossing) && unchanged(full()) && unchanged([0; BYTES])),
        ("every request and code", (0..=255).all(|value| unchanged(with([value; BYTES], &[(0, 0), (1, 0), (3, 0)])))),
        ("well-formed commands", (0..8).all(|n| (1..7).all(|code| unchanged(with(command(), &[(1, n), (2, code)]))))),
        ("a marker of an even value", marker(2, 0) && marker(254, 0)),
        ("a marker of an odd value", marker(3, 1) && marker(255, 1)),
        ("a high nibble", gtfe(16, 0) && gtfe(0xF8, 8) && gtfe(255, 15)),
        ("both in rising order", gives(&[with(crossing, &[(3, 100), (1, 6)])], &[with(crossing, &[(3, 4), (1, 0)])], two)),
        ("each reserved byte", reserved(1) && reserved(2) && reserved(255)),
        ("all of them in rising order", gives(&[every_byte], &[command()], &all_21)),
    ]
}

/// "A record of unknown kind, controller or command is dropped": it "has one entry, whatever else was bad in it, and `was` is its
/// first byte".
fn drops() -> Cases {
    let dropped = |record: [u8; BYTES]| gives(&[record], &[], &format!("record=0 byte=0 was={} now=drop", record[0]));
    let of = |bytes: &[(usize, u8)]| dropped(with(command(), bytes)) && dropped(with(with([255; BYTES], &[(0, 1)]), bytes));
    let as_crossing = with(command(), &[(0, 0)]);
    vec![
        ("unknown kinds, otherwise a crossing", (2..=255).all(|kind| dropped(with(full(), &[(0, kind)])))),
        ("unknown kinds, otherwise a command", (2..=255).all(|kind| dropped(with(command(), &[(0, kind)])))),
        ("an unknown kind, and all else bad", dropped([255; BYTES]) && dropped([2; BYTES])),
        ("a controller above 7", (8..=255).all(|n| of(&[(1, n)]) && of(&[(1, n), (2, 1)]))),
        ("command 0", of(&[(2, 0)]) && of(&[(1, 7), (2, 0)])),
        ("a command above 6", (7..=255).all(|code| of(&[(2, code)]) && of(&[(1, 0), (2, code)]))),
        ("a crossing of kind 1", dropped(with(crossing(1, 0xFF, 8), &[(0, 1)]))),
        (
            "a command of kind 0 is a crossing",
            gives(&[as_crossing], &[with(as_crossing, &[(1, 1)])], "record=0 byte=1 was=5 now=1"),
        ),
    ]
}

/// "A tail shorter than 24 bytes is dropped", also where its bytes would be good: "the tail has the number of whole records".
fn tails() -> Cases {
    let (good, two) = (full(), [full(), command()].concat());
    let cut = |before: &[u8], tail: &[u8], records: usize| {
        let list = format!("record={records}\nbyte=0\nwas={}\nnow=drop\n", tail[0]);
        salvage(&[before, tail].concat(), 0) == (before.to_vec(), list.into_bytes())
    };
    let lengths = |before: &[u8], record: [u8; BYTES], records: usize| (1..BYTES).all(|n| cut(before, &record[..n], records));
    let after_drop = salvage(&[&[9; BYTES][..], &[7]].concat(), 0);
    let list = "record=0\nbyte=0\nwas=9\nnow=drop\nrecord=1\nbyte=0\nwas=7\nnow=drop\n";
    vec![
        ("no log", salvage(&[], 0) == (vec![], vec![])),
        ("a tail alone", lengths(&[], good, 0) && lengths(&[], command(), 0) && lengths(&[], [255; BYTES], 0)),
        ("a tail after records", lengths(&two, good, 2) && lengths(&two, command(), 2) && lengths(&two, [255; BYTES], 2)),
        ("a tail after a dropped record", after_drop == (vec![], list.as_bytes().to_vec())),
    ]
}

/// "Records count from 0 as in the input, dropped ones too"; "decimal numbers".
fn numbers() -> Cases {
    let (good, marked, unknown) = (full(), with(full(), &[(1, 2)]), with(full(), &[(0, 2)]));
    let log = [unknown, good, marked, unknown, unknown, command(), marked];
    let salvaged = [good, with(full(), &[(1, 0)]), command(), with(full(), &[(1, 0)])];
    let list = "record=0 byte=0 was=2 now=drop record=2 byte=1 was=2 now=0 record=3 byte=0 was=2 now=drop \
        record=4 byte=0 was=2 now=drop record=6 byte=1 was=2 now=0";
    let entry = |first: usize| format!("record={first}\nbyte=1\nwas=2\nnow=0\n").into_bytes();
    let numbered = |place: usize| salvage(&[good.repeat(place), marked.to_vec()].concat(), 0).1 == entry(place);
    let from = |first: usize| salvage(&marked, first).1 == entry(first);
    vec![
        ("dropped records count", gives(&log, &salvaged, list)),
        ("numbers of one to five digits", [0, 9, 10, 99, 100, 999, 1000, 9999, 10_000].into_iter().all(numbered)),
        ("numbering that begins later", from(0) && from(10) && from(123_456_789)),
    ]
}

/// "ROOM for either buffer, the log's first", with "the whole length that the buffer needs; neither buffer is touched then".
fn rooms() -> Cases {
    let log = [with(full(), &[(1, 2)]), [9; BYTES], command()].concat();
    let (salvaged, list) = salvage(&log, 5);
    let (bytes, list_bytes) = (salvaged.len(), list.len());
    let written = "record=5\nbyte=1\nwas=2\nnow=0\nrecord=6\nbyte=0\nwas=9\nnow=drop\n";
    let lent = |room: usize, list_room: usize| {
        let (mut room, mut list_room) = (vec![77; room], vec![77; list_room]);
        (salvage_into(&log, 5, &mut room, &mut list_room), room, list_room)
    };
    let refused = |room: usize, list_room: usize, needed: usize| {
        lent(room, list_room) == (Err(Refusal::Room(needed)), vec![77; room], vec![77; list_room])
    };
    let (longer, longer_list) = ([&salvaged[..], &[77; 3]].concat(), [&list[..], &[77]].concat());
    vec![
        ("two records and two entries", bytes == 2 * BYTES && list == written.as_bytes()),
        ("just room", lent(bytes, list_bytes) == (Ok((bytes, list_bytes)), salvaged, list)),
        ("later bytes stay", lent(bytes + 3, list_bytes + 1) == (Ok((bytes, list_bytes)), longer, longer_list)),
        ("ROOM of the log", refused(bytes - 1, list_bytes, bytes) && refused(0, list_bytes, bytes)),
        ("ROOM of the list", refused(bytes, list_bytes - 1, list_bytes) && refused(bytes + 9, 0, list_bytes)),
        ("the log's first", refused(bytes - 1, list_bytes - 1, bytes) && refused(0, 0, bytes)),
        ("no room needed", salvage_into(&[], 0, &mut [], &mut []) == Ok((0, 0))),
    ]
}
