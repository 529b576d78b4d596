//! Tables of numbers, five a row: register, kind, value, start, finish.

use crate::answer::Answer;
use crate::codes::{BAD_KIND, NO_SUCH_QUESTION, OVERFULL, RAGGED};
use crate::file::{Row, MOST_ROWS, OPENING, WRITE};

pub const COLUMNS: usize = 5;

/// Tests 1 and 2.
pub fn whole(table: &[u64]) -> Result<(), Answer> {
    if table.len() % COLUMNS != 0 {
        return Err(Answer::refused(RAGGED, 0));
    }
    if table.len() / COLUMNS > MOST_ROWS {
        return Err(Answer::refused(OVERFULL, 0));
    }
    Ok(())
}

/// The row of five numbers, or the refusal of its kind.
pub fn row(number: u32, cells: &[u64]) -> Result<Row, Answer> {
    match u16::try_from(cells[1]) {
        Ok(kind @ WRITE..=OPENING) => Ok(Row { number, kind, value: cells[2], start: cells[3], finish: cells[4] }),
        _ => Err(Answer::refused(BAD_KIND, u64::from(number))),
    }
}

/// Tests 1 to 3; `asked` tells the condition of test 3.
pub fn tested(table: &[u64], asked: bool) -> Result<(), Answer> {
    whole(table)?;
    if !asked {
        return Err(Answer::refused(NO_SUCH_QUESTION, 0));
    }
    Ok(())
}

/// The rows of a register, or the first of tests 1 to 4 whose condition is met.
pub fn rows_of(table: &[u64], register: u64, asked: bool) -> Result<Vec<Row>, Answer> {
    tested(table, asked)?;
    let rows = (0..).zip(table.chunks(COLUMNS));
    rows.filter(|(_, cells)| cells[0] == register).map(|(number, cells)| row(number, cells)).collect()
}

/// The rows' registers and numbers, by register and then by number.
pub fn by_register(table: &[u64]) -> Vec<(u64, u32)> {
    let mut rows: Vec<(u64, u32)> = table.chunks(COLUMNS).map(|cells| cells[0]).zip(0..).collect();
    rows.sort_by_key(|&(register, _)| register);
    rows
}

/// The rows of a register, out of all of them by register; or test 4.
pub fn rows_among(table: &[u64], by_register: &[(u64, u32)], register: u64) -> Result<Vec<Row>, Answer> {
    let first = by_register.partition_point(|&(its, _)| its < register);
    let rows = by_register[first..].iter().take_while(|&&(its, _)| its == register);
    rows.map(|&(_, number)| row(number, &table[number as usize * COLUMNS..][..COLUMNS])).collect()
}

/// The registers that the rows bear, ascending.
pub fn registers(table: &[u64]) -> Vec<u64> {
    let mut registers: Vec<u64> = table.chunks(COLUMNS).map(|cells| cells[0]).collect();
    registers.sort_unstable();
    registers.dedup();
    registers
}
