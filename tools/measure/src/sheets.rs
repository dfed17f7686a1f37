//! The sheets that speed is measured on. None is left to chance.

pub const MOST_BYTES: usize = 65_536;

/// What a sheet is for, and its text.
pub struct Sheet {
    pub name: &'static str,
    pub text: String,
}

pub fn all() -> Vec<Sheet> {
    vec![
        Sheet { name: "an empty sheet", text: String::new() },
        Sheet { name: "a light day: 20 bookings", text: light() },
        Sheet { name: "64 bookings, each alone", text: lone() },
        Sheet { name: "a full board, cancelled and refilled throughout", text: refilled() },
        Sheet { name: "a full board, and no gap", text: no_gap() },
        Sheet { name: "a full board, listed throughout", text: listed() },
        Sheet { name: "only refused lines", text: refused() },
        Sheet { name: "only remarks", text: fill_up(String::new(), |_| "# see the note on the desk\n".to_string()) },
    ]
}

/// Adds lines as long as the sheet may grow.
fn fill_up(mut text: String, line: impl Fn(u32) -> String) -> String {
    for i in 0.. {
        let next = line(i);
        if text.len() + next.len() > MOST_BYTES {
            break;
        }
        text.push_str(&next);
    }
    text
}

/// A hold that is always welcome.
fn hold(ready: u32, duration: u32, deadline: u32, wanted: u32) -> String {
    format!("P {ready} {duration} {deadline} {wanted} 10080\n")
}

fn light() -> String {
    let mut text: String = (0..20).map(|i| hold(480 + 17 * i, 30 + i % 4 * 15, 2000, 1 + i % 3)).collect();
    text.push_str("C 3\nB 4\nF 4\nL\n");
    text
}

/// The 64 bookings that touch no other: 128 records.
fn lone() -> String {
    (0..64).map(|i| hold(150 * i, 100, 150 * i + 100, 1 + i % 8)).collect()
}

/// Bookings of several sizes that overlap, until there is no row left.
fn full() -> String {
    (0..64).map(|i| hold(i * 37 % 600, 20 + i % 7 * 10, 10_080, 1 + i % 4)).collect()
}

/// Cancels the oldest booking and asks for another, over and over.
fn refilled() -> String {
    fill_up(full(), |i| format!("C {}\n{}", i + 1, hold(i * 53 % 600, 20 + i % 5 * 13, 10_080, 1 + i % 5)))
}

/// All mechanics are wanted for longer than any gap between bookings.
fn no_gap() -> String {
    let booked: String = (0..63).map(|i| hold(160 * i, 100, 160 * i + 100, 1 + i % 8)).collect();
    fill_up(booked, |i| hold(i % 60, 70, 10_000, 8))
}

fn listed() -> String {
    fill_up(lone(), |_| "L\n".to_string()).chars().take(3_000).collect()
}

/// Lines of no form, unknown numbers and requests that can't be.
fn refused() -> String {
    let lines = [
        "C 99\n",
        "P 0 0 10 1 0\n",
        "P 0 60 60 9 0\n",
        "P 10 60 60 1 0\n",
        "p 0 60 60 1 0\n",
        "B 007\n",
        "F\n",
        "L 1\n",
        "P 0 60 60 1\n",
    ];
    fill_up(String::new(), |i| lines[i as usize % lines.len()].to_string())
}
