//! Document 02, P1, "Hold a status until it is steady": the codes that the board holds for each of its inputs.

/// Inputs 0 to 31 are the partitions, 32 to 39 the aTTS codes, which follow them in the record, 40 is the GTFE code.
pub const ATTS0: usize = 32;
pub const GTFE: usize = 40;
pub const INPUTS: usize = 41;

/// A code for each input.
pub type Codes = [u8; INPUTS];

/// "The held codes are part of the board": those that the inputs carried last, and those that were believed last.
#[derive(Clone, Copy)]
pub struct Held {
    pub carried: Codes,
    pub believed: Codes,
}

impl Held {
    /// Every input carries and is believed the same code; "a fresh board believes 0".
    pub fn all(code: u8) -> Held {
        Held { carried: [code; INPUTS], believed: [code; INPUTS] }
    }

    /// "A code counts when the same input carried it in two consecutive crossings; until then the last believed one stands."
    pub fn crossing(&mut self, record: &[u8]) {
        let codes = carried(record);
        for input in 0..INPUTS {
            if codes[input] == self.carried[input] {
                self.believed[input] = codes[input];
            }
        }
        self.carried = codes;
    }
}

/// "Byte 3 = GTFE code; bytes 4–19 = partition codes, partition 2k in the low nibble of byte 4+k and 2k+1 in the high; bytes
/// 20–23 = aTTS codes, likewise."
pub fn carried(record: &[u8]) -> Codes {
    std::array::from_fn(|input| match input {
        GTFE => record[3],
        _ => (record[4 + input / 2] >> (4 * (input % 2))) & 15,
    })
}
