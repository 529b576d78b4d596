//! The screening with its row field: which row it is that a register is refused for.

use std::collections::{HashMap, HashSet};
use std::mem::replace;

use crate::answer::Answer;
use crate::codes::{BAD_SPAN, ORPHAN_READ, SECOND_OPENING, TWIN_WRITE};
use crate::file::Row;
use crate::register::{bad_span, Register};

/// The register of these rows, or the first of tests 5, 20 and 7 to 9 whose condition is met.
pub fn screened(rows: &[Row]) -> Result<Register, Answer> {
    Register::screened(rows).map_err(|code| Answer::refused(code, u64::from(lowest(rows, code))))
}

/// The lowest row that meets the condition of the code of one of these tests.
fn lowest(rows: &[Row], code: u64) -> u32 {
    let mut seen = HashSet::new();
    let begun: HashMap<u64, u64> = rows.iter().filter(|row| row.write()).map(|row| (row.value, row.start)).collect();
    let mut opened = false;
    let found = rows.iter().find(|row| match code {
        BAD_SPAN => bad_span(row),
        SECOND_OPENING => row.opening() && replace(&mut opened, true),
        TWIN_WRITE => row.write() && !seen.insert(row.value),
        ORPHAN_READ => !row.write() && !begun.contains_key(&row.value),
        _ => !row.write() && row.finish < begun[&row.value],
    });
    found.expect("a register is refused for one of its rows").number
}
