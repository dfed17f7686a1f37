//! Why a call is refused, by the numbers of docs/RULES.md.

#[derive(Clone, Copy, Debug, PartialEq, Eq)]
pub enum Refusal {
    NoDuration = 4,
    Wanted = 5,
    Window = 6,
    Full = 7,
    NumbersUsedUp = 8,
    NoGap = 9,
    NotHeld = 10,
    NoSuchBooking = 11,
    State = 12,
    Line = 22,
}
