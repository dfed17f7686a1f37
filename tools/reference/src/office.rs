//! What the two functions of the C interface answer.
use crate::board::MOST_ROWS;
use crate::file;
use crate::minutes;

/// The answer of `board_file_free` where there is none.
pub const NO_ANSWER: u32 = u32::MAX;

/// 0, or the refusal's number from 14 to 19.
pub fn board_file_check(bytes: &[u8]) -> u32 {
    match file::read(bytes, None, MOST_ROWS) {
        Ok(_) => 0,
        Err(refusal) => refusal.number(),
    }
}

/// The units that are free at a minute.
pub fn board_file_free(bytes: &[u8], minute: u32) -> u32 {
    let Ok(file) = file::read(bytes, None, MOST_ROWS) else {
        return NO_ANSWER;
    };
    if minute >= file.horizon {
        return NO_ANSWER;
    }
    let loads = minutes::loads(file.kind, file.capacity, file.horizon, &file.rows);
    file.kind.free(file.capacity, loads[minute as usize]) as u32
}
