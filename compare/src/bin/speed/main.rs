//! The benchmark: the proved library against the plain implementation, in one process on the same bytes.
//! `speed [MILLISECONDS]`: how long each batch of calls takes at least (default 2); the best of nine batches counts, taken in turn. With the feature
//! `before` an earlier build of the library is timed in the same run.

mod logs;
mod roads;
mod timing;
mod trials;
mod zones;

use std::hint::black_box;
use std::time::Duration;

use compare::file::Row;
use compare::histories::{self, coarsen, file, file_of, opened, scramble, spread};
use compare::random::Random;
use compare::{library, mark};

use timing::{best, Turn};

const SIZES: [usize; 3] = [64, 256, 1024];

/// A file, and the registers that one timed turn marks.
struct Case {
    bytes: Vec<u8>,
    registers: Vec<u64>,
}

type Maker = fn(usize, &mut Random) -> Case;

fn one(rows: Vec<Row>) -> Case {
    Case { bytes: file_of(1, &rows), registers: vec![1] }
}

fn wild(count: usize, random: &mut Random) -> Case {
    let mut rows = histories::quorum(count, random);
    spread(&mut rows, random);
    scramble(&mut rows, random);
    shuffled(rows, random)
}

/// A tenth of the stamps are distinct.
fn ties(count: usize, random: &mut Random) -> Vec<Row> {
    let mut rows = histories::quorum(count, random);
    coarsen(&mut rows, 10);
    rows
}

fn shuffled(mut rows: Vec<Row>, random: &mut Random) -> Case {
    random.shuffle(&mut rows);
    one(rows)
}

fn sixty(count: usize, random: &mut Random) -> Case {
    let mut rows = Vec::with_capacity(count);
    for register in 0..60 {
        let share = (count * (register + 1)) / 60 - (count * register) / 60;
        rows.extend(histories::quorum(share, random).into_iter().map(|row| (register as u64 + 1, row)));
    }
    rows.sort_by_key(|(_, row)| row.start);
    Case { bytes: file(&rows), registers: (1..=60).collect() }
}

const FAMILIES: [(&str, Maker); 14] = [
    ("1 quorum-like", |count, random| one(histories::quorum(count, random))),
    ("2 all concurrent", |count, random| one(histories::concurrent(count, random))),
    (trials::FAIL_LATE, |count, random| one(histories::late_failures(count, random))),
    (trials::FAIL_AT_ONCE, |count, random| one(histories::failures_at_once(count, random))),
    (trials::FAIL_BEHIND, |count, random| one(histories::failures_behind_reads(false, count, random))),
    (trials::FAIL_BELOW, |count, random| one(histories::failures_behind_reads(true, count, random))),
    ("4 many chunks", |count, random| one(histories::chunks(count, random))),
    ("5a stale at the end", |count, random| one(histories::stale_at(true, count, random))),
    ("5b stale at the start", |count, random| one(histories::stale_at(false, count, random))),
    ("6 sixty registers, all", sixty),
    ("7 as 1, wild", wild),
    ("8a as 1, equal stamps", |count, random| one(ties(count, random))),
    ("8b the same, shuffled", |count, random| shuffled(ties(count, random), random)),
    ("9 as 1, with an opening", |count, random| one(opened(histories::quorum(count, random)))),
];

type Mark = fn(&[u8], u64, u64) -> u64;

/// The calls that are timed: the proved library's, plain Rust's and, where there is one, that of an earlier build.
#[cfg(not(feature = "before"))]
const MARKS: [Mark; 2] = [library::mark, mark];
#[cfg(feature = "before")]
const MARKS: [Mark; 3] = [library::mark, mark, library::mark_before];

/// The codes of all the case's registers, added.
fn turn(call: Mark, case: &Case, question: u64) -> u64 {
    case.registers.iter().map(|&register| call(black_box(&case.bytes), register, question)).sum()
}

fn main() {
    let least = Duration::from_millis(std::env::args().nth(1).map_or(2, |text| text.parse().expect("milliseconds")));
    let before = if MARKS.len() > 2 { "   ns before    ratio" } else { "" };
    println!("{:<27} {:>5} {:>2} {:>5} {:>12} {:>12} {:>8}{before}", "family", "rows", "q", "code", "ns valgrist", "ns plain", "ratio");
    let mut growth = Vec::new();
    let mut differences = 0;
    for (name, make) in FAMILIES {
        let cases = SIZES.map(|size| make(size, &mut Random::new(7)));
        for question in 1..=3 {
            let mut found = Vec::new();
            for (case, size) in cases.iter().zip(SIZES) {
                for &register in &case.registers {
                    // an earlier build may answer otherwise: before stamps could be equal it refused them
                    let codes = [library::mark, mark].map(|call: Mark| call(&case.bytes, register, question));
                    differences += u64::from(codes[0] != codes[1]);
                }
                let turns = MARKS.map(|call| move || turn(call, case, question));
                let times = best(turns.each_ref().map(|turn| turn as Turn), least);
                let code = mark(&case.bytes, case.registers[0], question);
                print!("{name:<27} {size:>5} {question:>2} {code:>5} {:>12.0} {:>12.0} {:>8.2}", times[0], times[1], times[0] / times[1]);
                times[2..].iter().for_each(|before| print!(" {before:>11.0} {:>8.2}", before / times[1]));
                println!();
                found.push(times);
            }
            growth.push((name, question, found[2][0] / found[1][0], found[2][1] / found[1][1]));
        }
    }
    println!("\ngrowth of the time from 256 to 1,024 rows\n{:<27} {:>2} {:>9} {:>9}", "family", "q", "valgrist", "plain");
    for (name, question, ours, plain) in growth {
        println!("{name:<27} {question:>2} {ours:>9.1} {plain:>9.1}");
    }
    differences += trials::compare(least);
    differences += zones::compare(least);
    differences += roads::compare(least);
    differences += logs::compare(least);
    println!("\ndifferent results: {differences}");
    if differences > 0 {
        std::process::exit(1);
    }
}
