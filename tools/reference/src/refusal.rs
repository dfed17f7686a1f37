//! Refusals by their numbers; of a file's rows with the row, counted from 0.

#[derive(Clone, Copy, Debug, PartialEq, Eq)]
pub enum Refusal {
    Plain(u32),
    FileRow(usize),
    FileClash(usize),
}

impl Refusal {
    pub fn number(self) -> u32 {
        match self {
            Refusal::Plain(number) => number,
            Refusal::FileRow(_) => 18,
            Refusal::FileClash(_) => 19,
        }
    }
}

/// Refuses with the number where the condition holds.
pub fn refuse_if(condition: bool, number: u32) -> Result<(), Refusal> {
    if condition {
        Err(Refusal::Plain(number))
    } else {
        Ok(())
    }
}
