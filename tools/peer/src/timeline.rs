//! The slot list: who is taken from which minute on.

/// From this minute until the next record these mechanics are taken.
#[derive(Clone, Copy, Debug, PartialEq, Eq)]
pub struct Slot {
    pub minute: u32,
    pub load: u64,
}

#[derive(Clone, Debug, Default)]
pub struct Timeline {
    slots: Vec<Slot>,
}

impl Timeline {
    pub fn with_capacity(records: usize) -> Timeline {
        Timeline { slots: Vec::with_capacity(records) }
    }

    pub fn slots(&self) -> &[Slot] {
        &self.slots
    }

    /// The place of the first record after a minute.
    pub fn after(&self, minute: u32) -> usize {
        self.slots.partition_point(|slot| slot.minute <= minute)
    }

    /// The load of the stretch that ends at a record's place.
    pub fn load_before(&self, place: usize) -> u64 {
        match place.checked_sub(1) {
            Some(before) => self.slots[before].load,
            None => 0,
        }
    }

    pub fn put(&mut self, start: u32, end: u32, claim: u64) {
        self.change(start, end, |load| load | claim);
    }

    pub fn lift(&mut self, start: u32, end: u32, claim: u64) {
        self.change(start, end, |load| load & !claim);
    }

    /// Changes every load from start up to end, and drops a record at either side that says nothing new.
    fn change(&mut self, start: u32, end: u32, new: impl Fn(u64) -> u64) {
        let first = self.split(start);
        let last = self.split(end);
        for slot in &mut self.slots[first..last] {
            slot.load = new(slot.load);
        }
        self.merge(last);
        self.merge(first);
    }

    /// The place of the record at a minute, which is made if there is none.
    fn split(&mut self, minute: u32) -> usize {
        let place = self.slots.partition_point(|slot| slot.minute < minute);
        if self.slots.get(place).is_none_or(|slot| slot.minute != minute) {
            let load = self.load_before(place);
            self.slots.insert(place, Slot { minute, load });
        }
        place
    }

    /// Drops a record that repeats the load before it.
    fn merge(&mut self, place: usize) {
        if self.slots[place].load == self.load_before(place) {
            self.slots.remove(place);
        }
    }
}
