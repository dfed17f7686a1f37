//! Board files, good and damaged, and what the C interface says of them.
use crate::damage::{self, number, Damage};
use crate::dice::Dice;
use crate::office;
use crate::tally::{Differences, Tally};
use reference::board::{Board, MOST_ROWS};
use reference::kind::Kind;
use reference::office::{board_file_check, board_file_free};
use reference::policy;
use reference::row::{Row, State};
use reference::search::Request;

/// A class of files: its name, how many, and how one is made.
struct Class {
    name: &'static str,
    files: usize,
    make: fn(&mut Dice) -> Vec<u8>,
}

const CLASSES: &[Class] = &[
    Class { name: "good files", files: 1500, make: good },
    Class { name: "header fields", files: 2000, make: |dice| damaged(dice, &[damage::header_field]) },
    Class { name: "counts", files: 800, make: |dice| damaged(dice, &[damage::count]) },
    Class { name: "lengths", files: 1200, make: |dice| damaged(dice, &[damage::length]) },
    Class { name: "row fields", files: 3000, make: |dice| damaged(dice, &[damage::row_field]) },
    Class { name: "row claims", files: 2000, make: |dice| damaged(dice, &[damage::row_claim]) },
    Class { name: "row states", files: 800, make: |dice| damaged(dice, &[damage::row_state]) },
    Class { name: "swapped rows", files: 800, make: |dice| damaged(dice, &[damage::swap_rows]) },
    Class { name: "clashes", files: 3000, make: |dice| damaged(dice, &[damage::repeat_row, damage::same_span]) },
    Class { name: "flipped bytes", files: 3000, make: |dice| damaged(dice, &[damage::flip]) },
    Class { name: "several damages", files: 4000, make: much_damaged },
    Class { name: "many rows", files: 120, make: many_rows },
    Class { name: "random bytes", files: 2000, make: random_bytes },
];

fn empty_board(dice: &mut Dice) -> Board {
    let kind = dice.pick(&[Kind::Crew, Kind::Stock]);
    let some = dice.between(1, 12);
    let capacity = dice.pick(&[1, 2, 8, some, some, kind.most() - 1, kind.most()]);
    let horizon = if dice.one_in(100) { 1_048_576 } else { dice.pick(&[1, 2, 50, 200, 200, 1000]) };
    let rows = if horizon <= 200 { dice.pick(&[1, 4, 12, 40, 256]) } else { 8 };
    let mut board = Board::make(kind, capacity, horizon, rows, 2 * rows);
    board.next = dice.pick(&[1, 1, 1, 1, 500, 99_990]);
    board
}

/// A request that fits the board, mostly for few units.
fn request(dice: &mut Dice, board: &Board) -> Request {
    let ready = dice.below(board.horizon);
    let duration = dice.between(1, (board.horizon - ready).min(20));
    let deadline = dice.between(ready + duration, board.horizon);
    let most = dice.pick(&[1, board.capacity.div_ceil(4), board.capacity]);
    Request { ready, duration, deadline, wanted: dice.between(1, most) }
}

/// Holds, confirms, and now and then begins or cancels, so that numbers and states vary.
fn book(dice: &mut Dice, board: &mut Board) {
    for _ in 0..dice.place(2 * board.room.min(60)) {
        let asked = request(dice, board);
        let by = dice.pick(&policy::ALL);
        let Ok(row) = board.hold(&asked, by) else { continue };
        let done = board.confirm(row.number).and_then(|()| match dice.below(6) {
            0 => board.cancel(row.number),
            1 | 2 => board.begin(row.number),
            _ => Ok(()),
        });
        assert!(done.is_ok(), "a fresh hold can be confirmed, and then cancelled or begun");
    }
}

/// The file of a board with some bookings.
fn good(dice: &mut Dice) -> Vec<u8> {
    let mut board = empty_board(dice);
    book(dice, &mut board);
    let mut memory = vec![0; 24 + 24 * board.rows.len()];
    assert_eq!(board.save(&mut memory), Ok(memory.len()));
    memory
}

fn damaged(dice: &mut Dice, ways: &[Damage]) -> Vec<u8> {
    let mut file = good(dice);
    dice.pick(ways)(dice, &mut file);
    file
}

fn much_damaged(dice: &mut Dice) -> Vec<u8> {
    let mut file = good(dice);
    for _ in 0..dice.between(2, 4) {
        dice.pick(damage::ALL)(dice, &mut file);
    }
    file
}

/// About as many rows as a board can have or more, side by side, perhaps damaged.
fn many_rows(dice: &mut Dice) -> Vec<u8> {
    let most = MOST_ROWS as u32;
    let count = dice.pick(&[most - 1, most, most, most + 1, most + 2, 300]);
    let row = |i| Row { number: i + 1, start: 3 * i, end: 3 * i + 4, claim: 1u64 << (i % 2), state: State::Confirmed };
    let kind = dice.pick(&[Kind::Crew, Kind::Stock]);
    let rows = (0..count).map(row).collect();
    let contents = reference::file::Contents { kind, capacity: 3, horizon: 1000, next: count + 1, rows };
    let mut file = contents.bytes();
    if dice.one_in(2) {
        dice.pick(damage::ALL)(dice, &mut file);
    }
    file
}

/// Bytes at random, half of them behind the header of a good file.
fn random_bytes(dice: &mut Dice) -> Vec<u8> {
    let mut file = if dice.one_in(2) { good(dice) } else { Vec::new() };
    file.truncate(24);
    let rows = dice.below(4);
    if file.len() == 24 {
        damage::set(&mut file, 16, rows);
    }
    let any = dice.below(100);
    let more = dice.pick(&[24 * rows, any]);
    file.extend((0..more).map(|_| dice.next() as u8));
    file
}

/// Minutes worth asking for: about the horizon and about the rows' bounds.
fn minutes(dice: &mut Dice, file: &[u8]) -> Vec<u32> {
    let horizon = number(file, 8);
    let mut all =
        vec![0, horizon, horizon.wrapping_sub(1), horizon.wrapping_add(1), u32::MAX, dice.below(horizon.max(1))];
    let row = 24 + 24 * dice.place(file.len() / 24 + 1);
    for bound in [number(file, row + 4), number(file, row + 8)] {
        all.extend([bound, bound.wrapping_sub(1)]);
    }
    all
}

/// A good file must be taken by a board and be saved again as it was.
fn goes_round(file: &[u8]) -> bool {
    let kind = if number(file, 0) == 1 { Kind::Crew } else { Kind::Stock };
    let mut board = Board::make(kind, 1, 1, MOST_ROWS, 2 * MOST_ROWS);
    board.load(file).is_ok() && board.contents().bytes() == file
}

fn compare_file(dice: &mut Dice, name: &str, file: &[u8], tally: &mut Tally, differences: &mut Differences) {
    let wanted = board_file_check(file);
    let got = office::check(file).unwrap_or(wanted);
    tally.add(wanted.to_string(), 1);
    if got != wanted || (wanted == 0 && !goes_round(file)) {
        differences.report(&format!("check {name}"), file, wanted.to_string().as_bytes(), got.to_string().as_bytes());
    }
    for minute in minutes(dice, file) {
        let wanted = board_file_free(file, minute);
        let got = office::free(file, minute).unwrap_or(wanted);
        tally.add(if wanted == u32::MAX { "free: none" } else { "free: units" }, 1);
        if got != wanted {
            let (wanted, got) = (format!("at {minute}: {wanted}"), format!("at {minute}: {got}"));
            differences.report(&format!("free {name}"), file, wanted.as_bytes(), got.as_bytes());
        }
    }
}

pub fn compare(seed: u64, share: usize, differences: &mut Differences) {
    if !office::LINKED {
        println!("files: the feature office is off, so these are the answers of the reference alone");
    }
    for class in CLASSES {
        let dice = &mut Dice::new(seed, class.name);
        let mut tally = Tally::default();
        for _ in 0..class.files * share {
            let file = (class.make)(dice);
            compare_file(dice, class.name, &file, &mut tally, differences);
        }
        println!("{}: {} files; {}", class.name, class.files * share, tally.text());
    }
}
