//! Random files: histories of all shapes and sizes, with the faults that the screening finds.

use crate::file::{Row, MOST_ROWS, WRITE};
use crate::histories::{self, Walk};
use crate::random::Random;
use crate::register::LAST_STAMP;

/// Most files are small; one in 300 may be as large as can be.
pub fn size(random: &mut Random) -> usize {
    let most = match random.below(300) {
        0 => MOST_ROWS as u64,
        1..=9 => 200,
        10..=99 => 40,
        _ => 9,
    };
    if random.one_in(20) {
        most as usize
    } else {
        random.below(most + 1) as usize
    }
}

/// The rows of a file, each with its register: one register, a few, or sixty.
pub fn rows(random: &mut Random) -> Vec<(u64, Row)> {
    let count = size(random);
    let registers = match random.below(12) {
        0..=7 => 1,
        8..=10 => 2 + random.below(4),
        _ => 60,
    };
    let first = if random.one_in(4) { random.next() } else { random.below(10) };
    let mut rows = Vec::with_capacity(count);
    for register in 0..registers {
        let share = (count as u64 * (register + 1) / registers - count as u64 * register / registers) as usize;
        rows.extend(history(share, random).into_iter().map(|row| (first.wrapping_add(register), row)));
    }
    mixed(rows, random)
}

/// The rows of a road: registers with sizes of their own and numbers in steps of any size, up to as many rows as can be; now and then a register
/// for nearly every row.
pub fn road(random: &mut Random) -> Vec<(u64, Row)> {
    let (registers, tiny) = match random.below(100) {
        0 => (MOST_ROWS as u64, true),
        1..=9 => (60, false),
        _ => (random.below(12), false),
    };
    let first = [0, random.below(10), random.next(), u64::MAX][random.below(4) as usize];
    let step = [1, 1 << random.below(64), u64::MAX, random.next()][random.below(4) as usize];
    let mut rows = Vec::new();
    for register in 0..registers {
        let share = if tiny { random.below(3) as usize } else { size(random) }.min(MOST_ROWS - rows.len());
        let number = first.wrapping_add(step.wrapping_mul(register));
        rows.extend(history(share, random).into_iter().map(|row| (number, row)));
    }
    mixed(rows, random)
}

/// The rows in any sequence, by start, or as they are.
fn mixed(mut rows: Vec<(u64, Row)>, random: &mut Random) -> Vec<(u64, Row)> {
    match random.below(3) {
        0 => random.shuffle(&mut rows),
        1 => rows.sort_by_key(|(_, row)| row.start),
        _ => {}
    }
    rows
}

/// The rows of one register.
fn history(count: usize, random: &mut Random) -> Vec<Row> {
    let mut rows = shape(count, random);
    if !random.one_in(4) {
        histories::coarsen(&mut rows, 2 + random.below(9));
    }
    place(&mut rows, random);
    if random.one_in(2) {
        open(&mut rows, random);
    }
    if random.one_in(2) {
        histories::scramble(&mut rows, random);
    }
    if random.one_in(5) {
        fault(&mut rows, random);
    }
    rows
}

/// Rows with ranks for stamps, 1 to twice their count.
fn shape(count: usize, random: &mut Random) -> Vec<Row> {
    match random.below(10) {
        0 => histories::scattered(count, 2 + random.below(2), random),
        1 => histories::concurrent(count, random),
        2 if count >= 3 => histories::late_failures(count, random),
        3 if count >= 8 => histories::chunks(count, random),
        4 if count >= 5 => histories::stale_at(random.one_in(2), count, random),
        5 if count >= 15 && random.one_in(2) => histories::failures_behind_reads(random.one_in(2), count, random),
        5 if count >= 7 => histories::failures_at_once(count, random),
        _ => {
            let reach = [4, 20, 40, 80, 400, 1 << 20][random.below(6) as usize];
            let older = [2, 4, 10, u64::MAX][random.below(4) as usize];
            let stale = [3, 10, 50, u64::MAX][random.below(4) as usize];
            histories::walked(count, Walk { writes: 2 + random.below(3), older, stale, reach }, random)
        }
    }
}

/// Ranks as they are, from 0, in steps, up to the largest stamp, or spread over all stamps.
fn place(rows: &mut [Row], random: &mut Random) {
    let last = 2 * rows.len() as u64;
    let (step, offset) = match random.below(6) {
        0 => (1, u64::MAX),
        1 => (1 + random.below(1 << 40), random.below(1 << 40)),
        2 => (1, LAST_STAMP - last),
        3 => return histories::spread(rows, random),
        _ => (1, 0),
    };
    for row in rows {
        row.start = (row.start * step).wrapping_add(offset);
        row.finish = (row.finish * step).wrapping_add(offset);
    }
}

/// Opens a history. The opening may come to stand anywhere, up to two rows go down to 0, where it lies, and a read more may be of it; now and then
/// there are two, or it has stamps.
fn open(rows: &mut [Row], random: &mut Random) {
    let Some(opening) = histories::open(rows) else { return };
    let [first, second, third] = [0; 3].map(|_| random.below(rows.len() as u64) as usize);
    for at in [first, second] {
        match random.below(8) {
            0 => (rows[at].start, rows[at].finish) = (0, 0),
            1..=2 => rows[at].start = 0,
            _ => {}
        }
    }
    if !rows[third].write() && random.one_in(2) {
        rows[third].value = rows[opening].value;
    }
    match random.below(40) {
        0..=1 => drop(histories::open(rows)),
        2 => rows[opening].finish = [1, LAST_STAMP, LAST_STAMP + 1, u64::MAX][random.below(4) as usize],
        3 => (rows[opening].start, rows[opening].finish) = (1 + random.below(3), 1 + random.below(3)),
        _ => {}
    }
    if random.one_in(2) {
        rows.swap(opening, first);
    }
}

/// One fault, or a change near one that is none.
fn fault(rows: &mut [Row], random: &mut Random) {
    if rows.is_empty() {
        return;
    }
    let (at, other) = (random.below(rows.len() as u64) as usize, random.below(rows.len() as u64) as usize);
    match random.below(11) {
        0 => rows[at].finish = rows[at].start,
        1 => (rows[at].start, rows[at].finish) = (rows[at].finish, rows[at].start),
        2 => rows[at].finish = [LAST_STAMP, LAST_STAMP + 1, u64::MAX][random.below(3) as usize],
        3 => rows[at].start = rows[other].start,
        4 => rows[at].finish = rows[other].finish,
        5 => rows[at].start = rows[other].finish,
        6 => rows[at].value = rows[other].value,
        7 => rows[at].value = if random.one_in(2) { rows[other].value ^ 1 << random.below(64) } else { random.next() },
        8 => rows[at].kind = WRITE + random.below(3) as u16,
        9 => (rows[at].value, rows[other].value) = (rows[other].value, rows[at].value),
        _ => {
            let (mine, its) = (rows[at], rows[other]);
            (rows[at].start, rows[at].finish) = (its.start, its.finish);
            (rows[other].start, rows[other].finish) = (mine.start, mine.finish);
        }
    }
}
