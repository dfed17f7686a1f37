//! The classes of sheets.
use crate::dice::Dice;
use crate::lines::{self, edge_hold, edge_line, event_line, filling_hold, hold_line, lone_hold, sound_line, spoil};
use reference::sheet::MOST_BYTES;

/// A class of sheets: its name, how many, and how one is made.
pub struct Class {
    pub name: &'static str,
    pub sheets: usize,
    pub make: fn(&mut Dice) -> Vec<u8>,
}

pub const CLASSES: &[Class] = &[
    Class { name: "sound lines", sheets: 1200, make: sound },
    Class { name: "full boards", sheets: 200, make: full },
    Class { name: "most records", sheets: 100, make: most_records },
    Class { name: "edge numbers", sheets: 1200, make: edges },
    Class { name: "edge holds", sheets: 600, make: edge_holds },
    Class { name: "every field", sheets: 40, make: every_field },
    Class { name: "spoilt lines", sheets: 1200, make: spoilt },
    Class { name: "short sheets", sheets: 800, make: short },
    Class { name: "any bytes", sheets: 400, make: any_bytes },
    Class { name: "sizes", sheets: 120, make: sizes },
    Class { name: "busy long sheets", sheets: 12, make: busy },
    Class { name: "long answers", sheets: 4, make: long_answers },
];

/// Puts lines together; most sheets end their last line.
fn join(dice: &mut Dice, lines: Vec<Vec<u8>>) -> Vec<u8> {
    let mut sheet = lines.join(&b'\n');
    if !dice.one_in(4) {
        sheet.push(b'\n');
    }
    sheet
}

/// A sheet of up to so many lines, each made with the count of those before it.
fn of_lines(dice: &mut Dice, most: u32, line: fn(&mut Dice, u32) -> Vec<u8>) -> Vec<u8> {
    let count = dice.between(1, most);
    let mut all: Vec<Vec<u8>> = (0..count).map(|i| line(dice, i)).collect();
    all.push(b"L".to_vec());
    join(dice, all)
}

fn sound(dice: &mut Dice) -> Vec<u8> {
    of_lines(dice, 120, |dice, holds| sound_line(dice, holds).into_bytes())
}

fn edges(dice: &mut Dice) -> Vec<u8> {
    of_lines(dice, 60, |dice, holds| edge_line(dice, holds).into_bytes())
}

fn edge_holds(dice: &mut Dice) -> Vec<u8> {
    of_lines(dice, 60, |dice, _| hold_line(&edge_hold(dice)).into_bytes())
}

/// Sound and spoilt lines in turn.
fn spoilt(dice: &mut Dice) -> Vec<u8> {
    of_lines(dice, 60, |dice, holds| {
        let line = sound_line(dice, holds);
        if dice.one_in(2) {
            line.into_bytes()
        } else {
            spoil(dice, &line)
        }
    })
}

/// Adds holds until well over 64 are asked for.
fn fill(dice: &mut Dice, lines: &mut Vec<Vec<u8>>, holds: &mut u32) {
    for _ in 0..dice.between(66, 80) {
        *holds += 1;
        lines.push(hold_line(&filling_hold(dice)).into_bytes());
    }
    lines.push(b"L".to_vec());
}

/// Fills the board, clears part of it or all, and fills it again.
fn fill_and_refill(dice: &mut Dice, rounds: u32) -> Vec<Vec<u8>> {
    let mut lines = Vec::new();
    let mut holds = 0;
    for _ in 0..rounds {
        fill(dice, &mut lines, &mut holds);
        for number in 0..holds * dice.below(2) {
            lines.push(format!("C {number}").into_bytes());
        }
        for _ in 0..dice.between(0, 120) {
            lines.push(event_line(dice, holds).into_bytes());
        }
        lines.push(b"L".to_vec());
    }
    fill(dice, &mut lines, &mut holds);
    lines
}

fn full(dice: &mut Dice) -> Vec<u8> {
    let rounds = dice.between(1, 4);
    let lines = fill_and_refill(dice, rounds);
    join(dice, lines)
}

/// As many records as there can be; then bookings go, and others come between.
fn most_records(dice: &mut Dice) -> Vec<u8> {
    let mut lines: Vec<Vec<u8>> = (0..64).map(|place| hold_line(&lone_hold(dice, place)).into_bytes()).collect();
    lines.push(b"L".to_vec());
    for _ in 0..dice.between(20, 150) {
        let gone = dice.between(1, 70);
        lines.push(format!("C {gone}").into_bytes());
        let place = dice.below(64);
        let hold = if dice.one_in(2) { lone_hold(dice, place) } else { filling_hold(dice) };
        lines.push(hold_line(&hold).into_bytes());
        lines.push(b"L".to_vec());
    }
    join(dice, lines)
}

/// Every edge text in every field of every form, on a board with some bookings.
fn every_field(dice: &mut Dice) -> Vec<u8> {
    let mut all: Vec<Vec<u8>> = (0..10).map(|_| hold_line(&filling_hold(dice)).into_bytes()).collect();
    let sound = hold_line(&lines::sound_hold(dice));
    for form in [sound.as_str(), "C 3", "B 4", "F 4", "L", "# 1"] {
        let parts: Vec<&str> = form.split(' ').collect();
        for place in 0..=parts.len() {
            for edge in lines::EDGES {
                let mut changed = parts.clone();
                if place < parts.len() {
                    changed[place] = edge
                } else {
                    changed.push(edge)
                }
                all.push(changed.join(" ").into_bytes());
            }
        }
    }
    join(dice, all)
}

/// A few pieces with and without line ends.
fn short(dice: &mut Dice) -> Vec<u8> {
    let pieces: &[&[u8]] = &[
        b"",
        b"\n",
        b"\n\n",
        b"L",
        b"L\n",
        b"#",
        b"#\n",
        b"P 0 1 1 1 0",
        b"P 0 1 1 1 0\n",
        b"C 1",
        b"C 1\n",
        b"B 1\n",
        b"F 1\n",
        b"C",
        b"\r\n",
        b"L\r\n",
        b" ",
        b"\0",
        b"\0\n",
        b"LL",
        b"L \n",
        b"\xff\n",
        b"\x80",
        b"P",
        b"P \n",
        b"x\n",
    ];
    (0..dice.below(7)).flat_map(|_| dice.pick(pieces).to_vec()).collect()
}

/// Bytes at random: any at all, or those that lines are made of.
fn any_bytes(dice: &mut Dice) -> Vec<u8> {
    let length = dice.below(2000);
    let common = b"PPCBFL##\n\n\n    0123456789\r";
    let wild = dice.one_in(2);
    (0..length).map(|_| if wild { dice.next() as u8 } else { dice.pick(common) }).collect()
}

/// Sheets of or near the most bytes; over it only the one answer is due.
fn sizes(dice: &mut Dice) -> Vec<u8> {
    let most = MOST_BYTES as u32;
    let near = dice.between(most - 30, most + 1);
    let size = dice.pick(&[most - 1, most, most, most + 1, near, most + 2, 70_000, 131_072, 1_000_000]) as usize;
    let filler: &[u8] =
        dice.pick(&[b"\n" as &[u8], b"#", b"# a remark\n", b"L\n", b"1", b"P 0 0 0 0 0\n", b"\0", b"C 1\n", b"x\n"]);
    let head = dice.pick(&["", "#", "L\n", "P 0 1 1 1 0\nL\n", "P ", "C 1", "P 0 1 1 1 "]);
    let mut sheet = head.as_bytes().to_vec();
    sheet.extend(filler.iter().cycle().take(size - sheet.len()));
    sheet
}

/// A sheet of nearly the most bytes that keeps its board full.
fn busy(dice: &mut Dice) -> Vec<u8> {
    let mut lines = fill_and_refill(dice, 24);
    while lines.iter().map(|line| line.len() + 1).sum::<usize>() > MOST_BYTES {
        lines.pop();
    }
    join(dice, lines)
}

/// A full board that is listed over and over, at last to the end of the sheet.
fn long_answers(dice: &mut Dice) -> Vec<u8> {
    let mut lines = Vec::new();
    fill(dice, &mut lines, &mut 0);
    let mut sheet = join(dice, lines);
    sheet.push(b'\n');
    let lists = dice.pick(&[100, 3_000, MOST_BYTES]);
    while sheet.len() + 2 <= MOST_BYTES && sheet.len() / 2 < lists + 700 {
        sheet.extend(b"L\n");
    }
    sheet
}
