//! The board: making it, and holds.
use crate::kind::Kind;
use crate::minutes::{self, Slot};
use crate::policy::Policy;
use crate::refusal::{refuse_if, Refusal};
use crate::row::{Row, State};
use crate::search::{Day, Request};

pub const MOST_HORIZON: u32 = 1_048_576;
pub const MOST_ROWS: usize = 256;
pub const LAST_NUMBER: u32 = 99_999;

#[derive(Clone, Debug, PartialEq, Eq)]
pub struct Board {
    pub kind: Kind,
    pub capacity: u32,
    pub horizon: u32,
    /// How many rows there is room for.
    pub room: usize,
    /// The number of the next grant.
    pub next: u32,
    /// The bookings that stand, in order of their numbers.
    pub rows: Vec<Row>,
}

/// Whether a board can be set up with these numbers.
pub fn check(kind: Kind, capacity: u32, horizon: u32, rows: usize, records: usize) -> Result<(), Refusal> {
    refuse_if(capacity == 0 || capacity > kind.most(), 1)?;
    refuse_if(horizon == 0 || horizon > MOST_HORIZON, 2)?;
    refuse_if(rows == 0 || rows > MOST_ROWS || records < 2 * rows, 3)
}

impl Board {
    /// An empty board, or a closed one where the numbers are refused.
    pub fn make(kind: Kind, capacity: u32, horizon: u32, rows: usize, records: usize) -> Board {
        let fits = check(kind, capacity, horizon, rows, records).is_ok();
        let (capacity, horizon, room) = if fits { (capacity, horizon, rows) } else { (0, 0, 0) };
        Board { kind, capacity, horizon, room, next: 1, rows: Vec::new() }
    }

    /// The load at each minute, from the bookings.
    pub fn loads(&self) -> Vec<u64> {
        minutes::loads(self.kind, self.capacity, self.horizon, &self.rows)
    }

    pub fn slot_list(&self) -> Vec<Slot> {
        minutes::slot_list(&self.loads())
    }

    /// The refusals 4 to 8.
    fn check_hold(&self, request: &Request) -> Result<(), Refusal> {
        let done = u64::from(request.ready) + u64::from(request.duration);
        refuse_if(request.duration == 0, 4)?;
        refuse_if(request.wanted == 0 || request.wanted > self.capacity, 5)?;
        refuse_if(request.deadline > self.horizon || done > u64::from(request.deadline), 6)?;
        refuse_if(self.rows.len() == self.room, 7)?;
        refuse_if(self.next > LAST_NUMBER, 8)
    }

    /// Books the best start for now, and answers its row.
    pub fn hold(&mut self, request: &Request, policy: Policy) -> Result<Row, Refusal> {
        self.check_hold(request)?;
        let loads = self.loads();
        let day = Day { kind: self.kind, capacity: self.capacity, loads: &loads };
        let start = day.best(request, policy).ok_or(Refusal::Plain(9))?;
        let joined = day.joined(start, request.duration);
        let claim = self.kind.pick(self.capacity, joined, request.wanted).ok_or(Refusal::Plain(9))?;
        let end = start + request.duration;
        let row = Row { number: self.next, start, end, claim, state: State::Held };
        self.rows.push(row);
        self.next += 1;
        Ok(row)
    }
}
