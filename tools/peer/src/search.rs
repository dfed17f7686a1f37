//! Finds the start to grant.
use crate::timeline::Timeline;

#[derive(Clone, Copy, Debug, PartialEq, Eq)]
pub struct Request {
    pub ready: u32,
    pub duration: u32,
    pub deadline: u32,
    pub wanted: u32,
}

#[derive(Clone, Copy, Debug, PartialEq, Eq)]
pub enum Policy {
    EarliestStart,
    LargestProduct,
}

/// A start, and who is taken at some minute of the job.
#[derive(Clone, Copy, Debug, PartialEq, Eq)]
pub struct Found {
    pub start: u32,
    pub taken: u64,
}

/// What a search looks at.
pub struct Search<'a> {
    pub timeline: &'a Timeline,
    pub crew: u64,
    pub horizon: u32,
    pub request: Request,
}

/// The longest stretch around a start in which nobody else is taken.
struct Stretch {
    taken: u64,
    opening: u32,
    closing: u32,
}

impl Search<'_> {
    pub fn run(&self, policy: Policy) -> Option<Found> {
        match policy {
            Policy::EarliestStart => self.earliest(),
            Policy::LargestProduct => self.largest(),
        }
    }

    fn latest(&self) -> u32 {
        self.request.deadline - self.request.duration
    }

    fn suffices(&self, taken: u64) -> bool {
        (self.crew & !taken).count_ones() >= self.request.wanted
    }

    /// Who is taken from a start on, which lies before the record `next`; or the place of the record at which too many are.
    fn taken(&self, start: u32, next: usize) -> Result<u64, usize> {
        let slots = self.timeline.slots();
        let end = start + self.request.duration;
        let mut taken = self.timeline.load_before(next);
        let mut place = next;
        while self.suffices(taken) {
            match slots.get(place) {
                Some(slot) if slot.minute < end => taken |= slot.load,
                _ => return Ok(taken),
            }
            place += 1;
        }
        Err(place)
    }

    /// The first record to start at after too many were taken before the record `failed`: from an earlier one they still would be.
    fn restart(&self, failed: usize) -> usize {
        let mut place = failed;
        let mut taken = self.timeline.load_before(place);
        while self.suffices(taken) {
            place -= 1;
            taken |= self.timeline.load_before(place);
        }
        place
    }

    /// The earliest start is the ready minute or one at which a load ends, which is a record's.
    fn earliest(&self) -> Option<Found> {
        let slots = self.timeline.slots();
        let mut start = self.request.ready;
        let mut next = self.timeline.after(start);
        loop {
            match self.taken(start, next) {
                Ok(taken) => return Some(Found { start, taken }),
                Err(failed) => next = self.restart(failed),
            }
            start = slots.get(next)?.minute;
            if start > self.latest() {
                return None;
            }
            next += 1;
        }
    }

    /// The stretch around a start that lies before the record `next`.
    fn stretch(&self, taken: u64, next: usize) -> Stretch {
        let slots = self.timeline.slots();
        let within = |load: u64| load & !taken == 0;
        let kept = slots[..next].iter().rposition(|slot| !within(slot.load));
        let opening = kept.map_or(0, |place| slots[place + 1].minute);
        let closing = slots[next..].iter().find(|slot| !within(slot.load));
        Stretch { taken, opening, closing: closing.map_or(self.horizon, |slot| slot.minute) }
    }

    fn product(&self, stretch: &Stretch) -> u64 {
        let free = u64::from((self.crew & !stretch.taken).count_ones());
        free * u64::from(stretch.closing - stretch.opening)
    }

    /// Goes over all starts at which a record enters or leaves the job's span, in order.
    fn largest(&self) -> Option<Found> {
        let slots = self.timeline.slots();
        let duration = self.request.duration;
        let mut start = self.request.ready;
        let mut next = self.timeline.after(start);
        let mut entering = self.timeline.after(start + duration);
        let mut best: Option<(u64, Found)> = None;
        let mut last: Option<Stretch> = None;
        loop {
            if let Ok(taken) = self.taken(start, next) {
                if !last.as_ref().is_some_and(|old| old.taken == taken && start < old.closing) {
                    let stretch = self.stretch(taken, next);
                    let product = self.product(&stretch);
                    if best.is_none_or(|(most, _)| product > most) {
                        best = Some((product, Found { start, taken }));
                    }
                    last = Some(stretch);
                }
            }
            if start == self.latest() {
                return best.map(|(_, found)| found);
            }
            let leaves = slots.get(next).map_or(u32::MAX, |slot| slot.minute);
            let enters = slots.get(entering).map_or(u32::MAX, |slot| slot.minute - duration);
            start = self.latest().min(leaves).min(enters);
            next += usize::from(leaves == start);
            entering += usize::from(enters == start);
        }
    }
}
