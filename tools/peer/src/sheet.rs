//! Reads a sheet and writes the answers.
use crate::board::Board;
use crate::refusal::Refusal;
use crate::search::{Policy, Request};
use std::fmt::Write;

pub const MOST_BYTES: usize = 65_536;

fn number(text: &[u8]) -> Option<u32> {
    match text {
        [] => None,
        [b'0'] => Some(0),
        [b'0', ..] => None,
        digits => digits.iter().try_fold(0u32, |value, digit| {
            let digit = digit.wrapping_sub(b'0');
            if digit > 9 {
                None
            } else {
                value.checked_mul(10)?.checked_add(u32::from(digit))
            }
        }),
    }
}

/// Exactly so many numbers, each behind one space.
fn numbers<const N: usize>(text: &[u8]) -> Result<[u32; N], Refusal> {
    let mut words = text.strip_prefix(b" ").ok_or(Refusal::Line)?.split(|&byte| byte == b' ');
    let mut found = [0; N];
    for place in &mut found {
        *place = words.next().and_then(number).ok_or(Refusal::Line)?;
    }
    if words.next().is_some() {
        Err(Refusal::Line)
    } else {
        Ok(found)
    }
}

fn hold(board: &mut Board, text: &[u8], out: &mut String) -> Result<(), Refusal> {
    let [ready, duration, deadline, wanted, welcome] = numbers(text)?;
    let request = Request { ready, duration, deadline, wanted };
    let booking = board.hold(request, Policy::EarliestStart)?;
    if booking.start <= welcome {
        board.confirm(booking.number)?;
        let _ = writeln!(out, "ok {} {} {}", booking.number, booking.start, booking.claim);
    } else {
        board.release(booking.number)?;
        let _ = writeln!(out, "late {} {}", booking.number, booking.start);
    }
    Ok(())
}

fn event(
    board: &mut Board,
    text: &[u8],
    out: &mut String,
    call: fn(&mut Board, u32) -> Result<(), Refusal>,
) -> Result<(), Refusal> {
    let [number] = numbers(text)?;
    call(board, number)?;
    out.push_str("ok\n");
    Ok(())
}

fn list(board: &Board, out: &mut String) {
    let _ = writeln!(out, "list {}", board.slots().len());
    for slot in board.slots() {
        let _ = writeln!(out, "{} {}", slot.minute, slot.load);
    }
}

fn run_line(board: &mut Board, line: &[u8], out: &mut String) -> Result<(), Refusal> {
    match line {
        [] | [b'#', ..] => {}
        [b'P', rest @ ..] => hold(board, rest, out)?,
        [b'C', rest @ ..] => event(board, rest, out, Board::cancel)?,
        [b'B', rest @ ..] => event(board, rest, out, Board::begin)?,
        [b'F', rest @ ..] => event(board, rest, out, Board::finish)?,
        [b'L'] => list(board, out),
        _ => return Err(Refusal::Line),
    }
    Ok(())
}

/// The answers to a whole sheet, for a crew of 8, horizon 10,080 and 64 rows.
pub fn answer(sheet: &[u8]) -> String {
    if sheet.len() > MOST_BYTES {
        return "no 23\n".to_string();
    }
    let mut board = Board::new(8, 10_080, 64);
    let mut out = String::with_capacity(sheet.len());
    for line in sheet.split(|&byte| byte == b'\n') {
        if let Err(refusal) = run_line(&mut board, line, &mut out) {
            let _ = writeln!(out, "no {}", refusal as u32);
        }
    }
    out
}
