//! Document 02, P7, "A salvage tool for logs": a log in which every record is well formed, and the list of what was changed.

use crate::program::BYTES;
use crate::refusal::Refusal;

/// The salvaged log and the list, both as bytes. "Records count from 0 as in the input, dropped ones too; the tail has the number
/// of whole records" (REQUESTS section 3); of a log that is salvaged in pieces the first record of each has the given number.
pub fn salvage(log: &[u8], first: usize) -> (Vec<u8>, Vec<u8>) {
    let (mut salvaged, mut list) = (Vec::new(), String::new());
    for (place, record) in log.chunks(BYTES).enumerate() {
        if record.len() < BYTES || unknown(record) {
            list += &entry(first + place, 0, record[0], "drop");
            continue;
        }
        for (byte, &was) in record.iter().enumerate() {
            let now = mended(record, byte);
            if now != was {
                list += &entry(first + place, byte, was, &now.to_string());
            }
            salvaged.push(now);
        }
    }
    (salvaged, list.into_bytes())
}

/// "For each change it writes `record=`, `byte=`, `was=`, `now=` lines": "each with a newline, decimal numbers, nothing between".
/// "A dropped record or tail has `byte=0`, its first byte's value as `was`, and `now=drop`."
fn entry(record: usize, byte: usize, was: u8, now: &str) -> String {
    format!("record={record}\nbyte={byte}\nwas={was}\nnow={now}\n")
}

/// "A record of unknown kind, controller or command is dropped": "kind is looked at first, then controller and command".
fn unknown(record: &[u8]) -> bool {
    match record[0] {
        0 => false,
        1 => record[1] > 7 || record[2] == 0 || record[2] > 6,
        _ => true,
    }
}

/// A byte of a kept record. "Reserved bytes of a command are cleared", which are all but kind, controller and command; "a marker
/// byte above 1 becomes its lowest bit; a high nibble in the GTFE byte is cleared". Requests and the other codes are never mended,
/// since any value of theirs is well formed.
fn mended(record: &[u8], byte: usize) -> u8 {
    match (record[0], byte) {
        (1, 3..) => 0,
        (0, 1) => record[1] & 1,
        (0, 3) => record[3] & 15,
        _ => record[byte],
    }
}

/// "Refusals: ROOM for either buffer, the log's first": it "carries the whole length that the buffer needs; neither buffer is
/// touched then". "A success writes exactly its output; later bytes stay." How many bytes it wrote into each.
pub fn salvage_into(log: &[u8], first: usize, room: &mut [u8], list_room: &mut [u8]) -> Result<(usize, usize), Refusal> {
    let (salvaged, list) = salvage(log, first);
    let lent = room.get_mut(..salvaged.len()).ok_or(Refusal::Room(salvaged.len()))?;
    let list_lent = list_room.get_mut(..list.len()).ok_or(Refusal::Room(list.len()))?;
    lent.copy_from_slice(&salvaged);
    list_lent.copy_from_slice(&list);
    Ok((salvaged.len(), list.len()))
}
