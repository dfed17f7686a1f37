//! The job of the program `growth`: fills all but one row of a board, and then times holds and releases.
use crate::board::Board;
use crate::search::{Policy, Request};
use std::hint::black_box;
use std::time::Instant;

pub const MECHANICS: u32 = 64;
pub const HORIZON: u32 = 1_048_576;
pub const MOST_ROWS: usize = 256;

/// The hold that is timed.
pub const REQUEST: Request = Request { ready: 0, duration: 40, deadline: HORIZON, wanted: 60 };

/// A board with one mechanic booked for 15 minutes every 10 minutes.
pub fn filled(rows: usize) -> Board {
    let mut board = Board::new(MECHANICS, HORIZON, rows);
    for i in 0..rows.saturating_sub(1) as u32 {
        let ready = i * 10;
        let request = Request { ready, duration: 15, deadline: ready + 15, wanted: 1 };
        if let Ok(booking) = board.hold(request, Policy::EarliestStart) {
            let _ = board.confirm(booking.number);
        }
    }
    board
}

/// Nanoseconds for so many holds and releases.
fn time(board: &mut Board, policy: Policy, times: u32) -> u128 {
    let start = Instant::now();
    for _ in 0..times {
        if let Ok(booking) = black_box(&mut *board).hold(black_box(REQUEST), policy) {
            let _ = black_box(board.release(booking.number));
        }
    }
    start.elapsed().as_nanos()
}

/// Fills a board with so many rows, and says what holds on it take.
pub fn measure(rows: usize, times: u32) -> String {
    let used = rows.min(MOST_ROWS);
    let mut board = filled(used);
    let earliest = time(&mut board, Policy::EarliestStart, times);
    let largest = time(&mut board, Policy::LargestProduct, times);
    let records = board.slots().len();
    format!("{used} rows, {records} records, {times} times: {earliest} ns by earliest start, {largest} ns by largest product")
}
