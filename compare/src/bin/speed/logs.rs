//! Logs with named columns of 1,024 lines, loaded.

use std::cell::RefCell;
use std::hint::black_box;
use std::time::Duration;

use compare::answer::Answer;
use compare::clock::text_of;
use compare::file::{Row, MOST_ROWS};
use compare::histories::{quorum, scramble, spread};
use compare::random::Random;
use compare::table::COLUMNS;
use compare::{calls, library};

use crate::timing::{best, Turn};

const OURS: &str = "register,kind,value,start,finish";
const RIVALS: &str = "junction,start,finish,kind,operator,register,value,note";

/// A log with these columns; those whose name is not needed hold a note.
fn log(columns: &str, rows: &[Row], stamp: fn(u64) -> String, note: &str) -> Vec<u8> {
    let mut log = format!("{columns}\n");
    for row in rows {
        let cell = |name| match name {
            "register" => String::from("7"),
            "kind" => String::from(if row.write() { "w" } else { "r" }),
            "value" => row.value.to_string(),
            "start" => stamp(row.start),
            "finish" => stamp(row.finish),
            _ => String::from(note),
        };
        log += &columns.split(',').map(cell).collect::<Vec<_>>().join(",");
        log.push('\n');
    }
    log.into_bytes()
}

fn decimal(stamp: u64) -> String {
    stamp.to_string()
}

fn families() -> [(&'static str, Vec<u8>); 4] {
    let mut random = Random::new(7);
    let rows = quorum(MOST_ROWS, &mut random);
    let mut wild = rows.clone();
    spread(&mut wild, &mut random);
    scramble(&mut wild, &mut random);
    [
        ("our columns", log(OURS, &rows, decimal, "")),
        ("the same, large numbers", log(OURS, &wild, decimal, "")),
        ("rival's columns", log(RIVALS, &rows, decimal, "Mill Lane")),
        ("the same, long notes", log(RIVALS, &rows, decimal, &"flashing again; ".repeat(6))),
    ]
}

/// The same rows over some 290 days.
fn clock_families() -> [(&'static str, Vec<u8>); 2] {
    let mut rows = quorum(MOST_ROWS, &mut Random::new(7));
    for row in &mut rows {
        row.start *= 12_345_678;
        row.finish *= 12_345_678;
    }
    [("our columns, clock time", log(OURS, &rows, text_of, "")), ("rival's columns, clock time", log(RIVALS, &rows, text_of, "Mill Lane"))]
}

type Load = fn(&[u8], &mut [u64]) -> Answer;

/// The calls that are timed: the proved library's and plain Rust's.
const BOTH: [Load; 2] = [library::load, calls::load];
/// The same and, where there is one, that of an earlier build, which takes decimal stamps alone.
#[cfg(not(feature = "before"))]
const LOADS: [Load; 2] = BOTH;
#[cfg(feature = "before")]
const LOADS: [Load; 3] = [library::load, calls::load, library::load_before];

/// How many of the calls answer otherwise than the first or leave another table.
fn differences(log: &[u8], loads: &[Load]) -> u64 {
    let loaded = |(load, fill): (&Load, u64)| {
        let mut table = [fill; MOST_ROWS * COLUMNS];
        (load(log, &mut table), table)
    };
    let first = loaded((&loads[0], 1));
    loads[1..].iter().zip(2..).map(loaded).filter(|other| *other != first).count() as u64
}

/// The nanoseconds of each call.
fn times<const N: usize>(log: &[u8], loads: [Load; N], least: Duration) -> [f64; N] {
    let table = &RefCell::new([0; MOST_ROWS * COLUMNS]);
    let turns = loads.map(|load| move || load(black_box(log), &mut *table.borrow_mut()).code);
    best(turns.each_ref().map(|turn| turn as Turn), least)
}

/// Prints the times of a log's calls; how many answers or tables differ.
fn compare_log<const N: usize>((name, log): (&str, Vec<u8>), loads: [Load; N], least: Duration) -> u64 {
    let times = times(&log, loads, least);
    let [ours, plain] = [times[0], times[1]];
    print!("{name:<27} {:>8} {ours:>12.0} {plain:>12.0} {:>8.2} {:>9.0}", log.len(), ours / plain, log.len() as f64 * 1000.0 / ours);
    for which in 2..LOADS.len() {
        print!(" {:>12}", times.get(which).map_or(String::from("-"), |before| format!("{before:.0}")));
    }
    println!();
    differences(&log, &loads)
}

/// Prints the times of all; how many answers or tables differ.
pub fn compare(least: Duration) -> u64 {
    let before = if LOADS.len() > 2 { "    ns before" } else { "" };
    println!("\nlogs of 1,024 lines\n{:<27} {:>8} {:>12} {:>12} {:>8} {:>9}{before}", "family", "bytes", "ns valgrist", "ns plain", "ratio", "MB/s");
    let decimal: u64 = families().into_iter().map(|family| compare_log(family, LOADS, least)).sum();
    let clock: u64 = clock_families().into_iter().map(|family| compare_log(family, BOTH, least)).sum();
    decimal + clock
}
