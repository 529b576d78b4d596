//! The zone list of a register, against the mark of question 1 and against plain Rust's list, on the main table's histories of one register.

use std::cell::RefCell;
use std::hint::black_box;
use std::time::Duration;

use compare::answer::Answer;
use compare::file::table_of;
use compare::random::Random;
use compare::table::COLUMNS;
use compare::zones::NUMBERS;
use compare::{calls, library};

use crate::timing::{best, Turn};
use crate::{FAMILIES, SIZES};

const ZONES: u64 = 1;

type Call = fn(&[u64], u64, &mut [u64]) -> Answer;

fn mark(table: &[u64], register: u64, list: &mut [u64]) -> Answer {
    library::mark_table(table, register, ZONES, 0, list)
}

#[cfg(feature = "before")]
fn mark_before(table: &[u64], register: u64, list: &mut [u64]) -> Answer {
    library::mark_table_before(table, register, ZONES, 0, list)
}

/// The calls that are timed: the proved library's list and mark, plain Rust's list and, where there is one, the mark of an earlier build.
#[cfg(not(feature = "before"))]
const CALLS: [Call; 3] = [library::zone_list, mark, calls::zone_list];
#[cfg(feature = "before")]
const CALLS: [Call; 4] = [library::zone_list, mark, calls::zone_list, mark_before];

/// Four places a row, so that no list is too short.
fn places(table: &[u64]) -> Vec<u64> {
    vec![0; table.len() / COLUMNS * NUMBERS]
}

/// Whether plain Rust answers otherwise or leaves another list.
fn differs(table: &[u64], register: u64) -> bool {
    let [ours, plain] = [library::zone_list, calls::zone_list].map(|call: Call| {
        let mut list = places(table);
        (call(table, register, &mut list), list)
    });
    ours != plain
}

/// The nanoseconds of each call.
fn times(table: &[u64], register: u64, least: Duration) -> [f64; CALLS.len()] {
    let list = &RefCell::new(places(table));
    let turns = CALLS.map(|call| move || call(black_box(table), register, &mut list.borrow_mut()).code);
    best(turns.each_ref().map(|turn| turn as Turn), least)
}

/// Prints the times, the list's ratios to the mark and to plain Rust's list, and the mark's to that of an earlier build; how many lists differ.
pub fn compare(least: Duration) -> u64 {
    let before = if CALLS.len() > 3 { ["ns before", "ratio"].as_slice() } else { &[] };
    let names = [&["ns zones", "ns mark", "ratio", "ns plain", "ratio"], before].concat();
    let names: String = names.iter().map(|name| format!(" {name:>10}")).collect();
    println!("\nthe zone list, and the mark of question 1\n{:<27} {:>5}{names}", "family", "rows");
    let mut differences = 0;
    for (name, make) in FAMILIES {
        for size in SIZES {
            let case = make(size, &mut Random::new(7));
            let [register] = case.registers[..] else { continue };
            let table = table_of(&case.bytes).expect("a whole file");
            differences += u64::from(differs(&table, register));
            let times = times(&table, register, least);
            let [zones, mark, plain] = [times[0], times[1], times[2]];
            print!("{name:<27} {size:>5} {zones:>10.0} {mark:>10.0} {:>10.2} {plain:>10.0} {:>10.2}", zones / mark, zones / plain);
            times[3..].iter().for_each(|before| print!(" {before:>10.0} {:>10.2}", mark / before));
            println!();
        }
    }
    differences
}
