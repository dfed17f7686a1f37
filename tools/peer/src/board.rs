//! The board of a crew: bookings in order of their numbers, and the slot list that they make.
use crate::refusal::Refusal;
use crate::search::{Policy, Request, Search};
use crate::timeline::{Slot, Timeline};

pub const LAST_NUMBER: u32 = 99_999;

#[derive(Clone, Copy, Debug, PartialEq, Eq)]
pub enum State {
    Held,
    Confirmed,
    UnderWay,
}

#[derive(Clone, Copy, Debug, PartialEq, Eq)]
pub struct Booking {
    pub number: u32,
    pub start: u32,
    pub end: u32,
    pub claim: u64,
    pub state: State,
}

#[derive(Clone, Debug)]
pub struct Board {
    mechanics: u32,
    crew: u64,
    horizon: u32,
    room: usize,
    next: u32,
    bookings: Vec<Booking>,
    timeline: Timeline,
}

/// The lowest so many of those who are free.
fn lowest(mut free: u64, wanted: u32) -> u64 {
    let all = free;
    for _ in 0..wanted {
        free &= free - 1;
    }
    all & !free
}

impl Board {
    /// A board for up to 64 mechanics.
    pub fn new(mechanics: u32, horizon: u32, room: usize) -> Board {
        Board {
            mechanics,
            crew: u64::MAX >> (64 - mechanics),
            horizon,
            room,
            next: 1,
            bookings: Vec::with_capacity(room),
            timeline: Timeline::with_capacity(2 * room + 2),
        }
    }

    pub fn slots(&self) -> &[Slot] {
        self.timeline.slots()
    }

    fn check(&self, request: &Request) -> Result<(), Refusal> {
        let done = request.ready.checked_add(request.duration);
        if request.duration == 0 {
            Err(Refusal::NoDuration)
        } else if request.wanted == 0 || request.wanted > self.mechanics {
            Err(Refusal::Wanted)
        } else if request.deadline > self.horizon || done.is_none_or(|done| done > request.deadline) {
            Err(Refusal::Window)
        } else if self.bookings.len() == self.room {
            Err(Refusal::Full)
        } else if self.next > LAST_NUMBER {
            Err(Refusal::NumbersUsedUp)
        } else {
            Ok(())
        }
    }

    pub fn hold(&mut self, request: Request, policy: Policy) -> Result<Booking, Refusal> {
        self.check(&request)?;
        let search = Search { timeline: &self.timeline, crew: self.crew, horizon: self.horizon, request };
        let found = search.run(policy).ok_or(Refusal::NoGap)?;
        let booking = Booking {
            number: self.next,
            start: found.start,
            end: found.start + request.duration,
            claim: lowest(self.crew & !found.taken, request.wanted),
            state: State::Held,
        };
        self.next += 1;
        self.bookings.push(booking);
        self.timeline.put(booking.start, booking.end, booking.claim);
        Ok(booking)
    }

    fn place(&self, number: u32) -> Option<usize> {
        self.bookings.binary_search_by_key(&number, |booking| booking.number).ok()
    }

    /// The place of a booking in the one state that allows the event.
    fn place_in(&self, number: u32, state: State) -> Result<usize, Refusal> {
        let place = self.place(number).ok_or(Refusal::NoSuchBooking)?;
        if self.bookings[place].state == state {
            Ok(place)
        } else {
            Err(Refusal::State)
        }
    }

    fn held(&self, number: u32) -> Result<usize, Refusal> {
        self.place_in(number, State::Held).map_err(|_| Refusal::NotHeld)
    }

    fn remove(&mut self, place: usize) {
        let booking = self.bookings.remove(place);
        self.timeline.lift(booking.start, booking.end, booking.claim);
    }

    pub fn confirm(&mut self, number: u32) -> Result<(), Refusal> {
        let place = self.held(number)?;
        self.bookings[place].state = State::Confirmed;
        Ok(())
    }

    pub fn release(&mut self, number: u32) -> Result<(), Refusal> {
        let place = self.held(number)?;
        self.remove(place);
        Ok(())
    }

    pub fn cancel(&mut self, number: u32) -> Result<(), Refusal> {
        let place = self.place_in(number, State::Confirmed)?;
        self.remove(place);
        Ok(())
    }

    pub fn begin(&mut self, number: u32) -> Result<(), Refusal> {
        let place = self.place_in(number, State::Confirmed)?;
        self.bookings[place].state = State::UnderWay;
        Ok(())
    }

    pub fn finish(&mut self, number: u32) -> Result<(), Refusal> {
        let place = self.place_in(number, State::UnderWay)?;
        self.remove(place);
        Ok(())
    }
}
