//! The load at each minute, and the slot list that says it in records.
use crate::kind::{Kind, NOTHING};
use crate::row::Row;

/// A record: the load from this minute until the next record.
#[derive(Clone, Copy, Debug, PartialEq, Eq)]
pub struct Slot {
    pub minute: u32,
    pub load: u64,
}

/// Puts a row's claim on each minute of its span.
pub fn put_row(kind: Kind, capacity: u32, loads: &mut [u64], row: &Row) {
    for minute in row.start..row.end {
        let load = &mut loads[minute as usize];
        *load = kind.put(capacity, *load, row.claim);
    }
}

/// The load at every minute, the horizon included: nothing with the claims of all that stand there put on, in order of their numbers.
pub fn loads(kind: Kind, capacity: u32, horizon: u32, rows: &[Row]) -> Vec<u64> {
    let mut loads = vec![NOTHING; horizon as usize + 1];
    for row in rows {
        put_row(kind, capacity, &mut loads, row);
    }
    loads
}

/// A record at each minute whose load differs from the one before it.
pub fn slot_list(loads: &[u64]) -> Vec<Slot> {
    let mut list = Vec::new();
    let mut before = NOTHING;
    for (minute, &load) in loads.iter().enumerate() {
        if load != before {
            list.push(Slot { minute: minute as u32, load });
        }
        before = load;
    }
    list
}
