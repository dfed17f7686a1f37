//! The board file: saving, reading and loading.
use crate::board::{Board, LAST_NUMBER, MOST_HORIZON};
use crate::kind::{Kind, NOTHING};
use crate::minutes::put_row;
use crate::refusal::{refuse_if, Refusal};
use crate::row::{Row, State};

pub const HEADER: usize = 24;
pub const ROW: usize = 24;

/// The six numbers at the head of a file.
#[derive(Clone, Copy, Debug, PartialEq, Eq)]
struct Header {
    kind: u32,
    capacity: u32,
    horizon: u32,
    next: u32,
    count: u32,
    offset: u32,
}

/// What a file that isn't refused says.
#[derive(Clone, Debug, PartialEq, Eq)]
pub struct Contents {
    pub kind: Kind,
    pub capacity: u32,
    pub horizon: u32,
    pub next: u32,
    pub rows: Vec<Row>,
}

fn number_at(bytes: &[u8], at: usize) -> u32 {
    u32::from_le_bytes([bytes[at], bytes[at + 1], bytes[at + 2], bytes[at + 3]])
}

fn read_header(bytes: &[u8]) -> Header {
    Header {
        kind: number_at(bytes, 0),
        capacity: number_at(bytes, 4),
        horizon: number_at(bytes, 8),
        next: number_at(bytes, 12),
        count: number_at(bytes, 16),
        offset: number_at(bytes, 20),
    }
}

/// The kind of a file's number.
fn kind_of(number: u32) -> Option<Kind> {
    [Kind::Crew, Kind::Stock].into_iter().find(|kind| kind.in_file() == number)
}

/// Refuses with 15 where a field other than the count has a value that is not allowed.
fn check_header(header: &Header, kind: Kind) -> Result<(), Refusal> {
    refuse_if(header.kind != kind.in_file(), 15)?;
    refuse_if(header.capacity == 0 || header.capacity > kind.most(), 15)?;
    refuse_if(header.horizon == 0 || header.horizon > MOST_HORIZON, 15)?;
    refuse_if(header.next == 0 || header.next > LAST_NUMBER + 1, 15)?;
    refuse_if(header.offset != HEADER as u32, 15)
}

/// The row that begins at a byte, or none where its state isn't allowed.
fn read_row(bytes: &[u8], at: usize) -> Option<Row> {
    let state = match number_at(bytes, at + 12) {
        1 => State::Confirmed,
        2 => State::UnderWay,
        _ => return None,
    };
    let low = u64::from(number_at(bytes, at + 16));
    let high = u64::from(number_at(bytes, at + 20));
    Some(Row {
        number: number_at(bytes, at),
        start: number_at(bytes, at + 4),
        end: number_at(bytes, at + 8),
        claim: low + (high << 32),
        state,
    })
}

/// Whether a row keeps the rules for rows, below a row with the number `above` (0 for the first).
fn lawful(header: &Header, kind: Kind, above: u32, row: &Row) -> bool {
    row.number >= 1
        && row.number > above
        && row.number < header.next
        && row.start < row.end
        && row.end <= header.horizon
        && kind.size(row.claim) >= 1
        && kind.clear(header.capacity, NOTHING, row.claim)
}

/// All rows, or the refusal of the uppermost that breaks a rule or clashes with those above it.
fn read_rows(bytes: &[u8], header: &Header, kind: Kind) -> Result<Vec<Row>, Refusal> {
    let mut loads = vec![NOTHING; header.horizon as usize + 1];
    let mut rows: Vec<Row> = Vec::new();
    for i in 0..header.count as usize {
        let above = rows.last().map_or(0, |row| row.number);
        let row = read_row(bytes, HEADER + ROW * i).ok_or(Refusal::FileRow(i))?;
        if !lawful(header, kind, above, &row) {
            return Err(Refusal::FileRow(i));
        }
        let span = &loads[row.start as usize..row.end as usize];
        if !span.iter().all(|&load| kind.clear(header.capacity, load, row.claim)) {
            return Err(Refusal::FileClash(i));
        }
        put_row(kind, header.capacity, &mut loads, &row);
        rows.push(row);
    }
    Ok(rows)
}

/// Reads a file for a board with so much room: of the kind that is given, or else of its own.
pub fn read(bytes: &[u8], wanted: Option<Kind>, room: usize) -> Result<Contents, Refusal> {
    refuse_if(bytes.len() < HEADER, 14)?;
    let header = read_header(bytes);
    let kind = wanted.or(kind_of(header.kind)).ok_or(Refusal::Plain(15))?;
    check_header(&header, kind)?;
    let length = HEADER as u64 + ROW as u64 * u64::from(header.count);
    refuse_if(bytes.len() as u64 != length, 16)?;
    refuse_if(header.count as usize > room, 17)?;
    let rows = read_rows(bytes, &header, kind)?;
    Ok(Contents { kind, capacity: header.capacity, horizon: header.horizon, next: header.next, rows })
}

/// The bytes of a row.
fn row_bytes(row: &Row) -> Vec<u8> {
    let mut bytes = Vec::new();
    for number in [row.number, row.start, row.end, row.state.in_file()] {
        bytes.extend(number.to_le_bytes());
    }
    bytes.extend(row.claim.to_le_bytes());
    bytes
}

impl Contents {
    /// The file that says this.
    pub fn bytes(&self) -> Vec<u8> {
        let mut bytes = Vec::new();
        let count = self.rows.len() as u32;
        for number in [self.kind.in_file(), self.capacity, self.horizon, self.next, count, HEADER as u32] {
            bytes.extend(number.to_le_bytes());
        }
        for row in &self.rows {
            bytes.extend(row_bytes(row));
        }
        bytes
    }
}

impl Board {
    /// What a file of this board says.
    pub fn contents(&self) -> Contents {
        let rows = self.rows.clone();
        Contents { kind: self.kind, capacity: self.capacity, horizon: self.horizon, next: self.next, rows }
    }

    /// Writes the file to the front of the memory, and answers its length.
    pub fn save(&self, memory: &mut [u8]) -> Result<usize, Refusal> {
        let held = self.rows.iter().any(|row| row.state == State::Held);
        refuse_if(held || self.capacity == 0, 20)?;
        let file = self.contents().bytes();
        refuse_if(memory.len() < file.len(), 21)?;
        memory[..file.len()].copy_from_slice(&file);
        Ok(file.len())
    }

    /// Takes capacity, horizon, next number and rows from a file.
    pub fn load(&mut self, file: &[u8]) -> Result<(), Refusal> {
        refuse_if(!self.rows.is_empty(), 13)?;
        let contents = read(file, Some(self.kind), self.room)?;
        self.capacity = contents.capacity;
        self.horizon = contents.horizon;
        self.next = contents.next;
        self.rows = contents.rows;
        Ok(())
    }
}
