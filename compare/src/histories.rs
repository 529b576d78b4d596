//! Histories: random ones of many shapes, and the families of the benchmark. Stamps are made as ranks, 1 and up, and spread or coarsened afterwards.

use crate::file::{push_record, Row, OPENING, READ, WRITE};
use crate::random::Random;
use crate::register::LAST_STAMP;

/// An operation before its stamps are made ranks: the middle bits order the times, the lower ones part equal times.
fn row(write: bool, value: u64, start: u64, finish: u64) -> Row {
    Row { number: 0, kind: if write { WRITE } else { READ }, value, start, finish }
}

/// The rows numbered in sequence.
pub fn numbered(mut rows: Vec<Row>) -> Vec<Row> {
    for (row, number) in rows.iter_mut().zip(0..) {
        row.number = number;
    }
    rows
}

/// The file of rows, each with its register.
pub fn file(rows: &[(u64, Row)]) -> Vec<u8> {
    let mut bytes = Vec::with_capacity(rows.len() * crate::file::RECORD);
    for (register, row) in rows {
        push_record(&mut bytes, *register, row);
    }
    bytes
}

/// The file of one register's rows.
pub fn file_of(register: u64, rows: &[Row]) -> Vec<u8> {
    file(&rows.iter().map(|row| (register, *row)).collect::<Vec<_>>())
}

/// Replaces the stamps, which may be equal, by their ranks, 1 and up; equal ones at random, and no start by a rank above its finish's.
pub fn rank(rows: &mut [Row], random: &mut Random) {
    let mut stamps: Vec<(u64, bool, u64, usize)> = Vec::with_capacity(2 * rows.len());
    for (at, row) in rows.iter().enumerate() {
        stamps.push((row.start, false, random.next(), at));
        stamps.push((row.finish, true, random.next(), at));
    }
    stamps.sort_unstable_by_key(|&(stamp, finish, tie, _)| (stamp, finish, tie));
    for (&(_, finish, _, at), rank) in stamps.iter().zip(1..) {
        if finish {
            rows[at].finish = rank;
        } else {
            rows[at].start = rank;
        }
    }
}

/// How operations that commit one after another are made: one in `writes` is a write; a read is of the last write, one in `older` of the one
/// before, one in `stale` of a random one; an operation begins and ends up to `reach` away from its commit point, where a step is 16.
#[derive(Clone, Copy)]
pub struct Walk {
    pub writes: u64,
    pub older: u64,
    pub stale: u64,
    pub reach: u64,
}

/// A history along a walk, values from 1, the first operation a write.
pub fn walked(count: usize, walk: Walk, random: &mut Random) -> Vec<Row> {
    let mut rows = Vec::with_capacity(count);
    let mut last = 0;
    for at in 0..count as u64 {
        let commit = (1 << 32) + 16 * at;
        let (start, finish) = (commit - random.below(walk.reach), commit + 1 + random.below(walk.reach));
        if last == 0 || random.one_in(walk.writes) {
            last += 1;
            rows.push(row(true, last, start, finish));
        } else {
            let value = if random.one_in(walk.stale) {
                1 + random.below(last)
            } else if last > 1 && random.one_in(walk.older) {
                last - 1
            } else {
                last
            };
            rows.push(row(false, value, start, finish));
        }
    }
    rank(&mut rows, random);
    rows
}

/// Operations at random times, each read of a write that begins before the read ends where there is one.
pub fn scattered(count: usize, writes: u64, random: &mut Random) -> Vec<Row> {
    let mut ranks: Vec<u64> = (1..=2 * count as u64).collect();
    random.shuffle(&mut ranks);
    let mut rows: Vec<Row> = ranks.chunks(2).map(|pair| row(true, 0, pair[0].min(pair[1]), pair[0].max(pair[1]))).collect();
    let mut last = 0;
    for at in 0..count {
        let known: Vec<u64> =
            rows[..at].iter().filter(|earlier| earlier.write() && earlier.start < rows[at].finish).map(|earlier| earlier.value).collect();
        if known.is_empty() || random.one_in(writes) {
            last += 1;
            rows[at].value = last;
        } else {
            rows[at].kind = READ;
            rows[at].value = known[random.below(known.len() as u64) as usize];
        }
    }
    rows
}

/// The benchmark's first family: reads of the last value or the one before, some overlap.
pub fn quorum(count: usize, random: &mut Random) -> Vec<Row> {
    walked(count, Walk { writes: 3, older: 4, stale: u64::MAX, reach: 20 }, random)
}

/// Every operation meets every other; a third are reads.
pub fn concurrent(count: usize, random: &mut Random) -> Vec<Row> {
    let writes = count - count / 3;
    let mut rows = Vec::with_capacity(count);
    for at in 0..count {
        let value = if at < writes { 1 + at as u64 } else { 1 + random.below(writes as u64) };
        rows.push(row(at < writes, value, 1, 2));
    }
    rank(&mut rows, random);
    rows
}

/// A third of the rows are candidates that finish last; each but the one with the lowest finish begins an epoch that goes through a chain of
/// writes, another third, and fails at its end. The last third are the chain's reads.
pub fn late_failures(count: usize, random: &mut Random) -> Vec<Row> {
    let chain = (count / 3) as u64;
    let candidates = count as u64 - 2 * chain;
    // the chain's writes end at times 1000 - 10 i, i from 1; the read of write i begins where write i - 1 has ended
    let time = |i: u64| (1 << 32) - 100 * i;
    let far = time(0) + 100_000;
    let mut rows = Vec::with_capacity(count);
    for i in 1..=chain {
        rows.push(row(true, i, 1, time(i)));
        let start = if i == 1 { far + 10 } else { time(i - 1) + 10 };
        rows.push(row(false, i, start, far + 20));
    }
    for i in 0..candidates {
        // only the candidate tried last begins after the chain's first write has ended
        let start = if i == 0 { time(chain) + 5 } else { 2 };
        rows.push(row(true, chain + 1 + i, start, time(0) + 10_000 + i));
    }
    rank(&mut rows, random);
    rows
}

/// All writes meet one another, and then come reads of three of them: each epoch, one for each write, fails at these reads. At least seven rows.
pub fn failures_at_once(count: usize, random: &mut Random) -> Vec<Row> {
    let writes = count as u64 - 3;
    let mut rows: Vec<Row> = (1..=writes).map(|value| row(true, value, 1, 2)).collect();
    rows.extend([1, writes / 2, writes].map(|value| row(false, value, 3, 4)));
    rank(&mut rows, random);
    rows
}

/// The same behind a long write, whose reads are half of the rows and begin after the three reads: it is placed first with them, and each epoch
/// after it fails at the three reads, which lie below. With `above`, one of the three begins last, above what is placed. At least fifteen rows.
pub fn failures_behind_reads(above: bool, count: usize, random: &mut Random) -> Vec<Row> {
    let reads = count / 2;
    let writes = (count - reads - 4) as u64;
    let mut rows: Vec<Row> = (1..=writes).map(|value| row(true, value, 1, 2)).collect();
    rows.extend([1, writes / 2].map(|value| row(false, value, 3, 6)));
    rows.push(row(false, writes, if above { 5 } else { 3 }, 6));
    rows.push(row(true, writes + 1, 1, 8));
    rows.extend((0..reads).map(|_| row(false, writes + 1, 4, 7)));
    rank(&mut rows, random);
    rows
}

/// Chunks, each of one or two forward clusters and two backward ones: the one whose write begins first must go before the forward writes, the
/// other behind. One in three times the other has the lower low end, so that the second order listed is needed.
pub fn chunks(count: usize, random: &mut Random) -> Vec<Row> {
    let mut rows = Vec::with_capacity(count);
    let mut at = 100;
    while rows.len() + 8 <= count {
        let value = rows.len() as u64 + 1;
        let two = random.one_in(2);
        let last = if random.one_in(3) { 13 } else { 28 };
        let far = if two { 40 } else { 0 };
        rows.push(row(true, value, at, at + 10));
        rows.push(row(false, value, at + 50, at + 60));
        rows.push(row(true, value + 1, at + 1, at + 30));
        rows.push(row(false, value + 1, at + 15, at + 40));
        rows.push(row(true, value + 2, at + 12, at + 45 + far));
        rows.push(row(false, value + 2, at + last, at + 49 + far));
        if two {
            rows.push(row(true, value + 3, at + 20, at + 48));
            rows.push(row(false, value + 3, at + 90, at + 95));
        }
        at += 100;
    }
    while rows.len() < count {
        rows.push(row(true, rows.len() as u64 + 1, at, at + 10));
        at += 100;
    }
    rank(&mut rows, random);
    rows
}

/// A quorum-like history whose end, or whose beginning, is stale: two writes after another, and then a read of what was written before them.
pub fn stale_at(end: bool, count: usize, random: &mut Random) -> Vec<Row> {
    let mut rows = quorum(count - 4, random);
    let base = if end { 1 << 40 } else { 10 };
    for row in &mut rows {
        row.start += 1 << 32;
        row.finish += 1 << 32;
    }
    for (at, write) in [(0, true), (1, true), (2, true), (3, false)] {
        let value = if write { (1 << 20) + at } else { 1 << 20 };
        rows.push(row(write, value, base + 10 * at, base + 10 * at + 5));
    }
    rank(&mut rows, random);
    rows
}

/// Makes the write that begins first an opening; its place, where there is a write.
pub fn open(rows: &mut [Row]) -> Option<usize> {
    let first = (0..rows.len()).filter(|&at| rows[at].kind == WRITE).min_by_key(|&at| rows[at].start)?;
    rows[first] = Row { kind: OPENING, start: 0, finish: 0, ..rows[first] };
    Some(first)
}

/// The rows with their first write as the opening.
pub fn opened(mut rows: Vec<Row>) -> Vec<Row> {
    open(&mut rows);
    rows
}

/// The stamps that a clock with longer ticks would give for these ranks: 1 and up, many of them equal.
pub fn coarsen(rows: &mut [Row], tick: u64) {
    for row in rows {
        row.start = 1 + (row.start - 1) / tick;
        row.finish = 1 + (row.finish - 1) / tick;
    }
}

/// Ranks spread at random over all stamps: the gaps are random, and the largest rank is near the largest stamp.
pub fn spread(rows: &mut [Row], random: &mut Random) {
    let gap = LAST_STAMP / (2 * rows.len() as u64 + 1);
    let stamps: Vec<u64> = (0..=2 * rows.len() as u64).map(|rank| rank * gap + random.below(gap)).collect();
    for row in rows {
        row.start = stamps[row.start as usize];
        row.finish = stamps[row.finish as usize];
    }
}

/// Values of 64 random bits, the same for the same value.
pub fn scramble(rows: &mut [Row], random: &mut Random) {
    let key = random.next();
    for row in rows {
        row.value = Random::new(row.value ^ key).next();
    }
}
