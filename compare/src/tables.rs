//! Random tables: histories of all shapes and sizes, sound ones and malformed ones.

use crate::file::{Row, MOST_ROWS};
use crate::random::Random;
use crate::register::LAST_STAMP;
use crate::shapes;
use crate::table::COLUMNS;

fn cells(register: u64, row: &Row) -> [u64; COLUMNS] {
    [register, u64::from(row.kind), row.value, row.start, row.finish]
}

/// A table of one register, a few, or sixty.
pub fn table(random: &mut Random) -> Vec<u64> {
    let rows = shapes::rows(random);
    changed(&rows, random)
}

/// A table of many registers.
pub fn road(random: &mut Random) -> Vec<u64> {
    let rows = shapes::road(random);
    changed(&rows, random)
}

/// The table of these rows; one in four is changed up to three times.
fn changed(rows: &[(u64, Row)], random: &mut Random) -> Vec<u64> {
    let mut table: Vec<u64> = rows.iter().flat_map(|(register, row)| cells(*register, row)).collect();
    if random.one_in(4) {
        for _ in 0..1 + random.below(3) {
            change(&mut table, random);
        }
    }
    table
}

/// A number of the table by its place, or 0.
fn some_cell(table: &[u64], random: &mut Random) -> usize {
    random.below(table.len().max(1) as u64) as usize
}

fn set(table: &mut [u64], at: usize, number: u64) {
    if let Some(cell) = table.get_mut(at) {
        *cell = number;
    }
}

/// Puts the number at one place at another too.
fn copy(table: &mut [u64], to: usize, from: usize) {
    if let Some(&number) = table.get(from) {
        set(table, to, number);
    }
}

/// One change: to the length, the count of rows, a kind, a number, a row, or to what two rows share.
fn change(table: &mut Vec<u64>, random: &mut Random) {
    let (at, other) = (some_cell(table, random), some_cell(table, random));
    match random.below(16) {
        0 => table.truncate(at),
        1 => table.extend((0..1 + random.below(6)).map(|_| random.below(4))),
        2 => pad(table, random),
        3..=5 => {
            let kind = [0, 3, 4, 1 << 32, 1 << 32 | 1, 3 << 32 | 3, u64::MAX, random.next()][random.below(8) as usize];
            set(table, at / COLUMNS * COLUMNS + 1, kind);
        }
        6..=8 => {
            let number = [0, 1, LAST_STAMP, LAST_STAMP + 1, u64::MAX, random.next()][random.below(6) as usize];
            set(table, at, number);
        }
        9..=11 => copy(table, at, other / COLUMNS * COLUMNS + at % COLUMNS),
        12..=13 => copy(table, at, other),
        _ => {
            let row: Vec<u64> = table.chunks(COLUMNS).nth(at / COLUMNS).unwrap_or_default().to_vec();
            table.extend(row);
        }
    }
}

/// Rows of another register until there are about as many as can be, or a few too many. One in three times, since such tables take long.
fn pad(table: &mut Vec<u64>, random: &mut Random) {
    if !random.one_in(3) {
        return;
    }
    let count = MOST_ROWS - 1 + random.below(3) as usize;
    let register = random.next();
    while table.len() / COLUMNS < count {
        let start = 2 * table.len() as u64;
        table.extend([register, 1, start, start, start + 1]);
    }
}
