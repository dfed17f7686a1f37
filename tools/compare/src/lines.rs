//! Lines of a sheet: sound ones, ones with edge numbers, and spoilt ones.
use crate::dice::Dice;

pub const HORIZON: u32 = 10_080;

/// Texts for a field: edge numbers, and what isn't a number.
pub const EDGES: &[&str] = &[
    "0",
    "1",
    "2",
    "7",
    "8",
    "9",
    "10",
    "63",
    "64",
    "65",
    "255",
    "256",
    "10079",
    "10080",
    "10081",
    "65535",
    "65536",
    "99999",
    "100000",
    "1048576",
    "2147483647",
    "2147483648",
    "4294957216",
    "4294967294",
    "4294967295",
    "4294967296",
    "4294967297",
    "4294967356",
    "9999999999",
    "10000000000",
    "42949672950",
    "18446744073709551615",
    "18446744073709551616",
    "18446744073709551617",
    "340282366920938463463374607431768211457",
    "00",
    "01",
    "060",
    "000000",
    "00000000001",
    "-1",
    "-0",
    "+1",
    "1.0",
    "1e3",
    "0x1",
    "1_0",
    "1,0",
    "",
    " ",
    "\t1",
    "1\t",
    "1\r",
    "\r",
    "\0",
    "1\0",
    "a",
    "P",
    "\u{663}",
    "\u{ff11}",
    "\"1\"",
    "/",
    ":",
];

/// Numbers that are sound as a field but lie at an edge.
pub const SOUND_EDGES: &[u32] =
    &[0, 1, 7, 8, 9, 60, 10_079, 10_080, 10_081, 99_999, 100_000, u32::MAX - 10_080, u32::MAX - 1, u32::MAX];

/// The five numbers of a hold: ready, duration, deadline, wanted, welcome.
pub type Hold = [u32; 5];

/// A hold with sound numbers, mostly on a grid, so that bookings touch and overlap.
pub fn sound_hold(dice: &mut Dice) -> Hold {
    let step = dice.pick(&[1, 5, 10, 10, 60]);
    let span = dice.pick(&[100, 300, 1000, HORIZON]);
    let ready = (dice.below(span / step + 1) * step).min(HORIZON - 1);
    let duration = (step * dice.between(1, 12)).min(HORIZON - ready);
    let slack = dice.pick(&[0, step, 3 * step, 20 * step, HORIZON]);
    let deadline = (ready + duration + slack).min(HORIZON);
    let most = dice.pick(&[2, 4, 8]);
    let wanted = dice.between(1, most);
    let welcome = dice.pick(&[0, ready, ready + duration, HORIZON, HORIZON, u32::MAX]);
    [ready, duration, deadline, wanted, welcome]
}

/// A small hold that is mostly taken, to fill a board.
pub fn filling_hold(dice: &mut Dice) -> Hold {
    if dice.one_in(8) {
        return sound_hold(dice);
    }
    let [ready, duration, _, wanted, _] = sound_hold(dice);
    [ready.min(HORIZON - duration), duration, HORIZON, wanted.min(3), HORIZON]
}

/// The hold of a place from 0 to 63 that touches no other's, so that each booking has two records.
pub fn lone_hold(dice: &mut Dice, place: u32) -> Hold {
    let ready = 157 * place + dice.below(50);
    let duration = dice.between(1, 100);
    [ready, duration, ready + duration, dice.between(1, 8), ready]
}

pub fn hold_line(hold: &Hold) -> String {
    let [ready, duration, deadline, wanted, welcome] = hold;
    format!("P {ready} {duration} {deadline} {wanted} {welcome}")
}

/// Cancels, begins or finishes one of the numbers up to `last`, or the one behind.
pub fn event_line(dice: &mut Dice, last: u32) -> String {
    let letter = dice.pick(&["C", "C", "C", "B", "B", "F", "F"]);
    let near = last.saturating_sub(40);
    let number = if dice.one_in(4) { dice.below(last + 2) } else { dice.between(near, last + 1) };
    format!("{letter} {number}")
}

/// A sound line of any form, on a sheet with so many holds before it.
pub fn sound_line(dice: &mut Dice, holds: u32) -> String {
    match dice.below(12) {
        0..=6 => hold_line(&sound_hold(dice)),
        7..=9 => event_line(dice, holds),
        10 => "L".to_string(),
        _ => dice.pick(&["", "#", "# L", "#P 0 1 1 1 0"]).to_string(),
    }
}

/// A sound line with some fields replaced by edge texts.
pub fn edge_line(dice: &mut Dice, holds: u32) -> String {
    let line = sound_line(dice, holds);
    let mut parts: Vec<&str> = line.split(' ').collect();
    for part in parts.iter_mut().skip(1) {
        if dice.one_in(4) {
            *part = dice.pick(EDGES);
        }
    }
    parts.join(" ")
}

/// A hold of sound edge numbers.
pub fn edge_hold(dice: &mut Dice) -> Hold {
    let mut hold = sound_hold(dice);
    for number in &mut hold {
        if !dice.one_in(3) {
            *number = dice.pick(SOUND_EDGES);
        }
    }
    hold
}

/// Spoils a line in one of many ways; now and then it stays sound.
pub fn spoil(dice: &mut Dice, line: &str) -> Vec<u8> {
    let mut bytes = line.as_bytes().to_vec();
    let at = dice.place(bytes.len() + 1);
    let odd = dice.pick(&[0, 9, 10, 13, 31, 32, 32, 35, 43, 45, 46, 48, 57, 58, 67, 76, 80, 127, 128, 160, 195, 255]);
    match dice.below(10) {
        0 => bytes.insert(at, odd),
        1 if at < bytes.len() => bytes[at] = odd,
        2 if at < bytes.len() => drop(bytes.remove(at)),
        3 => bytes.push(b' '),
        4 => bytes.push(b'\r'),
        5 => bytes.insert(0, b' '),
        6 => return line.replacen(' ', "  ", 1).into_bytes(),
        7 => bytes.truncate(at),
        8 => bytes.extend(dice.pick(&[" 0", " 1", " x", "0", " #", "\0", "\u{e9}", " L"]).as_bytes()),
        _ => bytes.make_ascii_lowercase(),
    }
    bytes
}
