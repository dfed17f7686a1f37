//! Ways to damage a board file. Each may also leave it sound, as chance has it.
use crate::dice::Dice;
use reference::file::{HEADER, ROW};

/// A way to damage a file.
pub type Damage = fn(&mut Dice, &mut Vec<u8>);

pub const ALL: &[Damage] =
    &[header_field, count, length, row_field, row_claim, row_state, swap_rows, repeat_row, same_span, flip];

const EDGES: &[u32] = &[
    0,
    1,
    2,
    3,
    23,
    24,
    25,
    48,
    63,
    64,
    65,
    255,
    256,
    257,
    4094,
    4095,
    4096,
    99_999,
    100_000,
    100_001,
    1_048_575,
    1_048_576,
    1_048_577,
    178_956_970,
    178_956_971,
    0x1000_0000,
    0x7fff_ffff,
    0x8000_0000,
    0xffff_fffe,
    0xffff_ffff,
];

/// The number at a byte, or 0 where the file is too short.
pub fn number(file: &[u8], at: usize) -> u32 {
    let bytes = file.get(at..at + 4).and_then(|bytes| bytes.try_into().ok());
    bytes.map_or(0, u32::from_le_bytes)
}

/// Sets the number at a byte, if the file has it.
pub fn set(file: &mut [u8], at: usize, number: u32) {
    if let Some(bytes) = file.get_mut(at..at + 4) {
        bytes.copy_from_slice(&number.to_le_bytes());
    }
}

/// The first byte of some whole row.
fn some_row(dice: &mut Dice, file: &[u8]) -> Option<usize> {
    let rows = file.len().saturating_sub(HEADER) / ROW;
    if rows == 0 {
        None
    } else {
        Some(HEADER + ROW * dice.place(rows))
    }
}

/// An edge, or a neighbour of the number that stands there, or one of the header's numbers or next to it.
fn near(dice: &mut Dice, file: &[u8], at: usize) -> u32 {
    let own = number(file, at);
    let field = dice.pick(&[4, 8, 12]);
    let head = number(file, field);
    let edge = dice.pick(EDGES);
    dice.pick(&[edge, edge, own.wrapping_add(1), own.wrapping_sub(1), head, head.wrapping_add(1), head.wrapping_sub(1)])
}

/// Changes a field of the header other than the count.
pub fn header_field(dice: &mut Dice, file: &mut Vec<u8>) {
    let at = dice.pick(&[0, 4, 8, 12, 20]);
    let value = near(dice, file, at);
    set(file, at, value);
}

pub fn count(dice: &mut Dice, file: &mut Vec<u8>) {
    let value = near(dice, file, 16);
    set(file, 16, value);
}

/// Makes the file shorter or longer: by a byte, by a row, or to any length.
pub fn length(dice: &mut Dice, file: &mut Vec<u8>) {
    let now = file.len();
    let cut = dice.place(now + 1);
    let new =
        dice.pick(&[now.saturating_sub(1), now + 1, now.saturating_sub(ROW), now + ROW, HEADER, HEADER - 1, cut, 0]);
    file.resize(new, dice.next() as u8);
}

/// Changes number, start or end of a row.
pub fn row_field(dice: &mut Dice, file: &mut Vec<u8>) {
    if let Some(row) = some_row(dice, file) {
        let at = row + dice.pick(&[0, 4, 8]);
        let value = near(dice, file, at);
        set(file, at, value);
    }
}

pub fn row_state(dice: &mut Dice, file: &mut Vec<u8>) {
    if let Some(row) = some_row(dice, file) {
        set(file, row + 12, dice.pick(&[0, 1, 2, 3, 4, 257, 0x0100_0000, u32::MAX]));
    }
}

/// Changes a row's claim: empty, everything, at or above the capacity, or beyond 32 bits.
pub fn row_claim(dice: &mut Dice, file: &mut Vec<u8>) {
    let Some(row) = some_row(dice, file) else { return };
    let capacity = number(file, 4);
    let one_above = 1u64.checked_shl(capacity).unwrap_or(0);
    let capacity = u64::from(capacity);
    let any = dice.next();
    let one = 1 << dice.below(64);
    let edges =
        [0, 1, 2, 3, one_above, one_above.wrapping_sub(1), one_above >> 1, capacity, capacity + 1, 4096, 1 << 32];
    let edge = dice.pick(&edges);
    let value = dice.pick(&[edge, edge, edge, u64::MAX, 1 << 63, (1 << 32) + 1, any, one]);
    set(file, row + 16, value as u32);
    set(file, row + 20, (value >> 32) as u32);
}

pub fn swap_rows(dice: &mut Dice, file: &mut Vec<u8>) {
    if let (Some(a), Some(b)) = (some_row(dice, file), some_row(dice, file)) {
        for i in 0..ROW {
            file.swap(a + i, b + i);
        }
    }
}

/// Copies a row over another, now and then with its own number kept, so that the claims clash.
pub fn repeat_row(dice: &mut Dice, file: &mut Vec<u8>) {
    if let (Some(a), Some(b)) = (some_row(dice, file), some_row(dice, file)) {
        let from = a + dice.pick(&[0, 4, 4, 4, 16]);
        let copy = file[from..a + ROW].to_vec();
        file[b + from - a..b + ROW].copy_from_slice(&copy);
    }
}

/// Gives one row the span of another, or one that begins or ends where that does.
pub fn same_span(dice: &mut Dice, file: &mut Vec<u8>) {
    if let (Some(a), Some(b)) = (some_row(dice, file), some_row(dice, file)) {
        let (start, end) = (number(file, a + 4), number(file, a + 8));
        let (new_start, new_end) = dice.pick(&[
            (start, end),
            (start, start + 1),
            (end.wrapping_sub(1), end),
            (end, end + 1),
            (start.wrapping_sub(1), start),
            (0, end),
        ]);
        set(file, b + 4, new_start);
        set(file, b + 8, new_end);
    }
}

/// Changes a bit, or a whole byte.
pub fn flip(dice: &mut Dice, file: &mut Vec<u8>) {
    if file.is_empty() {
        return;
    }
    let at = dice.place(file.len());
    if dice.one_in(2) {
        file[at] ^= 1 << dice.below(8);
    } else {
        file[at] = dice.next() as u8;
    }
}
