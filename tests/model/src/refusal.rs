//! Document 01, "Numbers a caller may get back", with document 02, P2 and P6. BOARD, ROOM, LIFE and STORE cannot come from files;
//! BOARD and STORE are here for a block with a store beside the board, ROOM for the read-out and the salvaged log (P7).

/// What is refused and what it carries: TEXT the line, RANGE the line or the input, RELATION its number and the controller, ROOM
/// the bytes needed, RECORD the index.
#[derive(Clone, Copy, Debug, PartialEq, Eq)]
pub enum Refusal {
    Text(usize),
    Range(usize),
    Relation(usize, usize),
    Board,
    Length,
    Room(usize),
    Record(usize),
    Store,
}

impl Refusal {
    pub fn number(self) -> usize {
        match self {
            Refusal::Text(_) => 1,
            Refusal::Range(_) => 2,
            Refusal::Relation(..) => 3,
            Refusal::Board => 4,
            Refusal::Length => 5,
            Refusal::Room(_) => 6,
            Refusal::Record(_) => 7,
            Refusal::Store => 9,
        }
    }
}
