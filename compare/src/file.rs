//! History files: a record has its length and its kind, two bytes each, then register and value and, but for the opening, start and finish.

use crate::answer::Answer;
use crate::codes::{CUT_RECORD, OVERFULL, STRANGE_RECORD};
use crate::table::COLUMNS;

/// The bytes of a record, its length among them: of a write or a read, and of an opening.
pub const RECORD: usize = 36;
pub const OPENING_RECORD: usize = 20;
pub const MOST_ROWS: usize = 1024;
pub const LENGTH: u16 = 34;
pub const OPENING_LENGTH: u16 = 18;
pub const WRITE: u16 = 1;
pub const READ: u16 = 2;
pub const OPENING: u16 = 3;

/// A row of the register asked for, with its number in the file.
#[derive(Clone, Copy, Debug)]
pub struct Row {
    pub number: u32,
    /// one of the three kinds
    pub kind: u16,
    pub value: u64,
    pub start: u64,
    pub finish: u64,
}

impl Row {
    /// Whether it counts as a write: the opening does.
    pub fn write(&self) -> bool {
        self.kind != READ
    }

    /// Whether it is the opening (document 02, W-207).
    pub fn opening(&self) -> bool {
        self.kind == OPENING
    }
}

fn u16_at(bytes: &[u8], at: usize) -> u16 {
    u16::from_le_bytes([bytes[at], bytes[at + 1]])
}

fn u64_at(bytes: &[u8], at: usize) -> u64 {
    u64::from_le_bytes(bytes[at..at + 8].try_into().expect("eight bytes"))
}

/// A record's length and kind as one number, so that one test tells whether they go together.
const fn head(length: u16, kind: u16) -> u32 {
    (length as u32) << 16 | kind as u32
}

const WRITE_HEAD: u32 = head(LENGTH, WRITE);
const READ_HEAD: u32 = head(LENGTH, READ);
const OPENING_HEAD: u32 = head(OPENING_LENGTH, OPENING);

/// The head of the record that a file's rest begins with, where so much is there.
fn head_of(rest: &[u8]) -> Option<u32> {
    rest.first_chunk().map(|bytes| u32::from_le_bytes(*bytes).rotate_left(16))
}

/// The code of the refusal of a rest that begins with no whole record, or with one whose kind does not go with its length.
fn fault(rest: &[u8]) -> u64 {
    if rest.len() == 1 {
        return CUT_RECORD;
    }
    match u16_at(rest, 0) {
        LENGTH if rest.len() < RECORD => CUT_RECORD,
        OPENING_LENGTH if rest.len() < OPENING_RECORD => CUT_RECORD,
        _ => STRANGE_RECORD,
    }
}

/// Hands each record of a file on, with its number; or the first refusal, with the offset of its record.
fn records(bytes: &[u8], mut each: impl FnMut(u32, &[u8])) -> Result<(), Answer> {
    let mut rest = bytes;
    let mut number = 0;
    while !rest.is_empty() {
        let refused = |code| Err(Answer::refused(code, (bytes.len() - rest.len()) as u64));
        let (record, after) = match head_of(rest) {
            Some(WRITE_HEAD..=READ_HEAD) if rest.len() >= RECORD => rest.split_at(RECORD),
            Some(OPENING_HEAD) if rest.len() >= OPENING_RECORD => rest.split_at(OPENING_RECORD),
            _ => return refused(fault(rest)),
        };
        if number as usize == MOST_ROWS {
            return refused(OVERFULL);
        }
        each(number, record);
        number += 1;
        rest = after;
    }
    Ok(())
}

/// The start and the finish of a record: an opening's are 0.
fn stamps(record: &[u8]) -> [u64; 2] {
    if record.len() < RECORD {
        return [0; 2];
    }
    [20, 28].map(|at| u64_at(record, at))
}

/// As many rows as a file can have by its size.
fn most_rows(bytes: &[u8]) -> usize {
    (bytes.len() / OPENING_RECORD).min(MOST_ROWS)
}

/// The rows of the register in a file that is sound as a whole, or the file's refusal.
pub fn rows_of(bytes: &[u8], register: u64) -> Result<Vec<Row>, Answer> {
    let mut rows = Vec::with_capacity(most_rows(bytes));
    records(bytes, |number, record| {
        if u64_at(record, 4) == register {
            let [start, finish] = stamps(record);
            rows.push(Row { number, kind: u16_at(record, 2), value: u64_at(record, 12), start, finish });
        }
    })?;
    Ok(rows)
}

/// The table of a file, or the file's refusal.
pub fn table_of(bytes: &[u8]) -> Result<Vec<u64>, Answer> {
    let mut table = Vec::with_capacity(most_rows(bytes) * COLUMNS);
    records(bytes, |_, record| {
        table.extend([u64_at(record, 4), u64::from(u16_at(record, 2)), u64_at(record, 12)]);
        table.extend(stamps(record));
    })?;
    Ok(table)
}

/// One record at the end of a file.
pub fn push_record(bytes: &mut Vec<u8>, register: u64, row: &Row) {
    let (length, numbers) = match row.kind {
        OPENING => (OPENING_LENGTH, &[register, row.value][..]),
        _ => (LENGTH, &[register, row.value, row.start, row.finish][..]),
    };
    bytes.extend_from_slice(&length.to_le_bytes());
    bytes.extend_from_slice(&row.kind.to_le_bytes());
    for number in numbers {
        bytes.extend_from_slice(&number.to_le_bytes());
    }
}
