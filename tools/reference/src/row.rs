//! A booking under its number.

#[derive(Clone, Copy, Debug, PartialEq, Eq)]
pub enum State {
    Confirmed,
    UnderWay,
    Held,
}

#[derive(Clone, Copy, Debug, PartialEq, Eq)]
pub struct Row {
    pub number: u32,
    pub start: u32,
    pub end: u32,
    pub claim: u64,
    pub state: State,
}

impl State {
    /// The state's number in a board file.
    pub fn in_file(self) -> u32 {
        match self {
            State::Confirmed => 1,
            State::UnderWay => 2,
            State::Held => 3,
        }
    }
}
