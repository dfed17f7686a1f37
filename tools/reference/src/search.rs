//! Candidates, feasible starts and their rectangles, and the one that the policy ranks best.
use crate::kind::{Kind, NOTHING};
use crate::minutes::slot_list;
use crate::policy::{Policy, Rectangle};

/// What is to be booked.
#[derive(Clone, Copy, Debug, PartialEq, Eq)]
pub struct Request {
    pub ready: u32,
    pub duration: u32,
    pub deadline: u32,
    pub wanted: u32,
}

/// The loads of a board, minute by minute, and what it takes to read them.
pub struct Day<'a> {
    pub kind: Kind,
    pub capacity: u32,
    pub loads: &'a [u64],
}

/// Whether a start lies in the request's window; it may be before minute 0.
fn in_window(request: &Request, start: i64) -> bool {
    i64::from(request.ready) <= start && start + i64::from(request.duration) <= i64::from(request.deadline)
}

/// The starts that are tried, perhaps with repeats.
pub fn candidates(loads: &[u64], request: &Request) -> Vec<u32> {
    let duration = i64::from(request.duration);
    let mut starts = vec![i64::from(request.ready), i64::from(request.deadline) - duration];
    for slot in slot_list(loads) {
        starts.push(i64::from(slot.minute));
        starts.push(i64::from(slot.minute) - duration);
    }
    starts.retain(|&start| in_window(request, start));
    starts.iter().map(|&start| start as u32).collect()
}

impl Day<'_> {
    /// The loads of so many minutes, joined.
    pub fn joined(&self, start: u32, duration: u32) -> u64 {
        let mut all = NOTHING;
        for minute in start..start + duration {
            all = self.kind.joined(all, self.loads[minute as usize]);
        }
        all
    }

    /// Whether the load at a minute adds nothing to the joined loads.
    fn adds_nothing(&self, minute: u32, joined: u64) -> bool {
        self.kind.joined(joined, self.loads[minute as usize]) == joined
    }

    /// The rectangle of a start with these joined loads.
    pub fn rectangle(&self, start: u32, joined: u64) -> Rectangle {
        let horizon = self.loads.len() as u32 - 1;
        let mut opening = start;
        while opening > 0 && self.adds_nothing(opening - 1, joined) {
            opening -= 1;
        }
        let mut closing = start;
        while closing < horizon && self.adds_nothing(closing, joined) {
            closing += 1;
        }
        let units = self.kind.free(self.capacity, joined);
        Rectangle { start, units, opening, closing }
    }

    /// The rectangles of the feasible candidates.
    pub fn feasible(&self, request: &Request) -> Vec<Rectangle> {
        let mut found = Vec::new();
        for start in candidates(self.loads, request) {
            let joined = self.joined(start, request.duration);
            if self.kind.free(self.capacity, joined) >= u64::from(request.wanted) {
                found.push(self.rectangle(start, joined));
            }
        }
        found
    }

    /// The start that is granted: none is preferred to it, and it is the earliest of its equals.
    pub fn best(&self, request: &Request, policy: Policy) -> Option<u32> {
        let all = self.feasible(request);
        all.iter().filter(|mine| !all.iter().any(|other| policy.preferred(other, mine))).map(|mine| mine.start).min()
    }
}
