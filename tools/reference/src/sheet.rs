//! The call sheet: bytes in, the bytes of the answers out.
use crate::board::Board;
use crate::kind::Kind;
use crate::policy::Policy;
use crate::refusal::Refusal;
use crate::search::Request;

pub const MOST_BYTES: usize = 65_536;

/// What a line asks for.
enum Order {
    Nothing,
    Hold(Request, u32),
    Cancel(u32),
    Begin(u32),
    Finish(u32),
    List,
    Unknown,
}

/// A decimal number without leading zeros, up to 4,294,967,295.
fn field(text: &[u8]) -> Option<u32> {
    let digits = !text.is_empty() && text.iter().all(u8::is_ascii_digit);
    let leading_zero = text.len() > 1 && text[0] == b'0';
    if !digits || leading_zero || text.len() > 10 {
        return None;
    }
    let mut value = 0u64;
    for byte in text {
        value = value * 10 + u64::from(byte - b'0');
    }
    u32::try_from(value).ok()
}

/// The numbers behind the letter, if they are exactly so many.
fn fields(line: &[u8], count: usize) -> Option<Vec<u32>> {
    let mut parts = line.split(|&byte| byte == b' ');
    if parts.next()?.len() != 1 {
        return None;
    }
    let numbers: Option<Vec<u32>> = parts.map(field).collect();
    numbers.filter(|found| found.len() == count)
}

/// The order of a line that begins with P.
fn hold_order(line: &[u8]) -> Option<Order> {
    let n = fields(line, 5)?;
    let request = Request { ready: n[0], duration: n[1], deadline: n[2], wanted: n[3] };
    Some(Order::Hold(request, n[4]))
}

/// The order of a line with a letter and a number.
fn number_order(line: &[u8], order: fn(u32) -> Order) -> Option<Order> {
    Some(order(fields(line, 1)?[0]))
}

/// What a line asks for: its first letter decides.
fn order(line: &[u8]) -> Order {
    let found = match line.first() {
        None | Some(b'#') => Some(Order::Nothing),
        Some(b'P') => hold_order(line),
        Some(b'C') => number_order(line, Order::Cancel),
        Some(b'B') => number_order(line, Order::Begin),
        Some(b'F') => number_order(line, Order::Finish),
        Some(b'L') if line.len() == 1 => Some(Order::List),
        _ => None,
    };
    found.unwrap_or(Order::Unknown)
}

/// Holds, and then confirms or releases.
fn run_hold(board: &mut Board, request: &Request, welcome: u32) -> Result<String, Refusal> {
    let row = board.hold(request, Policy::EarliestStart)?;
    if row.start <= welcome {
        board.confirm(row.number)?;
        Ok(format!("ok {} {} {}\n", row.number, row.start, row.claim))
    } else {
        board.release(row.number)?;
        Ok(format!("late {} {}\n", row.number, row.start))
    }
}

/// The slot list in text.
fn list(board: &Board) -> String {
    let slots = board.slot_list();
    let mut text = format!("list {}\n", slots.len());
    for slot in slots {
        text.push_str(&format!("{} {}\n", slot.minute, slot.load));
    }
    text
}

/// Runs an order, and answers what it prints.
fn run(board: &mut Board, order: &Order) -> Result<String, Refusal> {
    let ok = |()| "ok\n".to_string();
    match order {
        Order::Nothing => Ok(String::new()),
        Order::Hold(request, welcome) => run_hold(board, request, *welcome),
        Order::Cancel(number) => board.cancel(*number).map(ok),
        Order::Begin(number) => board.begin(*number).map(ok),
        Order::Finish(number) => board.finish(*number).map(ok),
        Order::List => Ok(list(board)),
        Order::Unknown => Err(Refusal::Plain(22)),
    }
}

/// The answers to a whole sheet, for a crew of 8, horizon 10,080 and 64 rows.
pub fn answer(sheet: &[u8]) -> Vec<u8> {
    if sheet.len() > MOST_BYTES {
        return b"no 23\n".to_vec();
    }
    let mut board = Board::make(Kind::Crew, 8, 10_080, 64, 128);
    let mut text = String::new();
    for line in sheet.split(|&byte| byte == b'\n') {
        match run(&mut board, &order(line)) {
            Ok(answer) => text.push_str(&answer),
            Err(refusal) => text.push_str(&format!("no {}\n", refusal.number())),
        }
    }
    text.into_bytes()
}
