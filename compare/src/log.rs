//! Logs with named columns (document 02, W-201), stamps in decimal or as clock time.

use crate::answer::Answer;
use crate::clock;
use crate::codes::{HEADER_FAULT, OVERFULL, UNREADABLE_CELL};
use crate::file::{MOST_ROWS, OPENING, READ, WRITE};
use crate::table::COLUMNS;

/// The needed names, in the sequence of a row's numbers.
pub const NAMES: [&[u8]; COLUMNS] = [b"register", b"kind", b"value", b"start", b"finish"];
pub const KIND: usize = 1;
pub const START: usize = 3;
pub const FINISH: usize = 4;

/// Which of a row's numbers a column has; none where it is skipped.
type Column = Option<usize>;

fn cells(line: &[u8]) -> impl Iterator<Item = &[u8]> {
    line.split(|&byte| byte == b',')
}

/// The line that begins a text, where it ends in a line feed.
fn line(text: &[u8]) -> Option<&[u8]> {
    text.iter().position(|&byte| byte == b'\n').map(|end| &text[..end])
}

/// The header's columns, where each needed name stands once.
fn columns(header: &[u8]) -> Option<Vec<Column>> {
    let columns: Vec<Column> = cells(header).map(|name| NAMES.iter().position(|&needed| needed == name)).collect();
    let once = |number| columns.iter().filter(|&&column| column == Some(number)).count() == 1;
    (0..COLUMNS).all(once).then_some(columns)
}

fn kind(cell: &[u8]) -> Option<u64> {
    match cell {
        b"w" => Some(u64::from(WRITE)),
        b"r" => Some(u64::from(READ)),
        b"o" => Some(u64::from(OPENING)),
        _ => None,
    }
}

/// The number of one or more digits, where 64 bits hold it.
fn number(cell: &[u8]) -> Option<u64> {
    let mut value: u64 = 0;
    for byte in cell {
        if !byte.is_ascii_digit() {
            return None;
        }
        value = value.checked_mul(10)?.checked_add(u64::from(byte - b'0'))?;
    }
    (!cell.is_empty()).then_some(value)
}

/// The number that a cell of a needed column says.
fn said(cell: &[u8], column: usize) -> Option<u64> {
    match column {
        KIND => kind(cell),
        START | FINISH => number(cell).or_else(|| clock::stamp_in(cell)),
        _ => number(cell),
    }
}

/// The row of a data line that begins at an offset, or the offset of what cannot be read.
fn row(line: &[u8], at: usize, columns: &[Column]) -> Result<[u64; COLUMNS], usize> {
    let mut row = [0; COLUMNS];
    let mut fault = None;
    let mut count = 0;
    let mut place = at;
    for cell in cells(line) {
        if let Some(&Some(column)) = columns.get(count) {
            match said(cell, column) {
                Some(number) => row[column] = number,
                None => fault = fault.or(Some(place)),
            }
        }
        count += 1;
        place += cell.len() + 1;
    }
    if count != columns.len() {
        return Err(at);
    }
    fault.map_or(Ok(row), Err)
}

/// The table of a log, or its first refusal.
pub fn table_of(log: &[u8]) -> Result<Vec<u64>, Answer> {
    let header = line(log).and_then(|line| Some((columns(line)?, line.len() + 1)));
    let (columns, mut at) = header.ok_or(Answer::refused(HEADER_FAULT, 0))?;
    let unreadable = |at: usize| Answer::refused(UNREADABLE_CELL, at as u64);
    let mut table = Vec::with_capacity(MOST_ROWS * COLUMNS);
    while at < log.len() {
        if table.len() == MOST_ROWS * COLUMNS {
            return Err(Answer::refused(OVERFULL, at as u64));
        }
        let line = line(&log[at..]).ok_or(unreadable(at))?;
        table.extend(row(line, at, &columns).map_err(unreadable)?);
        at += line.len() + 1;
    }
    Ok(table)
}
