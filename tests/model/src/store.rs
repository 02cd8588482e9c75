//! Document 02, P6, "The status history store": the store, its groups, a change kept, and the read-out. A block with a store
//! beside the board is in `program.rs`.

use crate::refusal::Refusal;

/// "1,024 words of 16 bits"; "the header is repeated after 64 changes under one header".
pub const WORDS: usize = 1024;
pub const MOST: usize = 64;

/// "The store is the 1,024 words, the place of the oldest group's first word, and how many words are in use" (REQUESTS section 3).
#[derive(Clone, PartialEq, Eq)]
pub struct Store {
    pub words: [u16; WORDS],
    pub oldest: usize,
    pub used: usize,
}

/// "Groups (a header, 1 to 64 changes)": the header's orbit count, and how many changes follow it.
pub struct Group {
    pub orbit: u32,
    pub changes: usize,
}

impl Group {
    pub fn words(&self) -> usize {
        3 + self.changes
    }
}

/// "0 and 15, both disconnected, are one code here, stored and read as 15."
pub fn one_code(code: u8) -> u8 {
    if code == 0 {
        15
    } else {
        code
    }
}

impl Store {
    /// "A fresh store has none in use." The oldest place is 0.
    pub fn fresh() -> Store {
        Store { words: [0; WORDS], oldest: 0, used: 0 }
    }

    /// "STORE, 9, when its words can't be split into groups from its oldest place": "the place of the oldest is 0..1023, at most
    /// 1,024 words are in use, and those are exactly groups. Words out of use may be anything" (REQUESTS section 3).
    pub fn groups(&self) -> Result<Vec<Group>, Refusal> {
        if self.oldest >= WORDS || self.used > WORDS {
            return Err(Refusal::Store);
        }
        split(&self.in_use()).ok_or(Refusal::Store)
    }

    /// The words in use, from the oldest place on; place 1023 is followed by 0.
    fn in_use(&self) -> Vec<u16> {
        (0..self.used).map(|word| self.words[(self.oldest + word) % WORDS]).collect()
    }

    /// "Each change is kept: a word holding the code in the top four bits and the crossing number below; before a change whose
    /// orbit count differs from the last header's, a header: a word 0, then the orbit count's high and low 16 bits. The header is
    /// repeated after 64 changes under one header. Orbit counts are modulo 2^32." The store has to be sound.
    pub fn keep(&mut self, orbit: usize, number: usize, code: u8) {
        let (groups, orbit) = (self.groups().expect("a sound store"), orbit as u32);
        let goes_on = groups.last().is_some_and(|last| last.orbit == orbit && last.changes < MOST);
        let mut words = if goes_on { Vec::new() } else { vec![0, (orbit >> 16) as u16, orbit as u16] };
        words.push(u16::from(one_code(code)) << 12 | number as u16);
        self.make_room(&groups, words.len());
        for word in words {
            self.words[(self.oldest + self.used) % WORDS] = word;
            self.used += 1;
        }
    }

    /// "When room is short the oldest whole groups go, no more than needed, and the place of the oldest is kept": "whole groups go
    /// from the oldest while fewer are free, and whether a header comes is decided first". Since 4 words are needed at most and a
    /// group has 4 or more, one goes at most.
    fn make_room(&mut self, groups: &[Group], needed: usize) {
        for group in groups {
            if WORDS - self.used >= needed {
                return;
            }
            self.oldest = (self.oldest + group.words()) % WORDS;
            self.used -= group.words();
        }
    }

    /// "Exactly the retained changes in order, each as orbit count, crossing number and code in 4, 2 and 1 bytes, little-endian."
    pub fn retained(&self) -> Result<Vec<u8>, Refusal> {
        let (groups, mut words, mut bytes) = (self.groups()?, self.in_use().into_iter(), Vec::new());
        for group in groups {
            for change in words.by_ref().take(group.words()).skip(3) {
                bytes.extend(group.orbit.to_le_bytes());
                bytes.extend((change & 0x0FFF).to_le_bytes());
                bytes.push((change >> 12) as u8);
            }
        }
        Ok(bytes)
    }

    /// Reading "is refused by STORE, then ROOM", which carries the bytes needed. "A success writes exactly its output; later bytes
    /// stay." How many bytes it wrote.
    pub fn read_out(&self, buffer: &mut [u8]) -> Result<usize, Refusal> {
        let bytes = self.retained()?;
        let lent = buffer.get_mut(..bytes.len()).ok_or(Refusal::Room(bytes.len()))?;
        lent.copy_from_slice(&bytes);
        Ok(bytes.len())
    }
}

/// "A word 0, two words of any value, then 1 to 64 words whose top four bits are 1..15", again and again to the last word. A word
/// with other top bits than 0 belongs to the group before it, since it opens none.
fn split(mut words: &[u16]) -> Option<Vec<Group>> {
    let mut groups = Vec::new();
    while !words.is_empty() {
        let [0, high, low, after @ ..] = words else { return None };
        let changes = after.iter().take_while(|&word| word >> 12 > 0).count();
        if !(1..=MOST).contains(&changes) {
            return None;
        }
        words = &after[changes..];
        groups.push(Group { orbit: u32::from(*high) << 16 | u32::from(*low), changes });
    }
    Some(groups)
}
