//! What a trial of LBT takes: the marking call with trials enough, less the same call with none, over the trials made. Where the register is fresh,
//! the writing of its order is counted too.

use std::cell::RefCell;
use std::hint::black_box;
use std::time::Duration;

use compare::answer::Answer;
use compare::file::{table_of, Row, MOST_ROWS};
use compare::histories::{failures_at_once, failures_behind_reads, file_of, late_failures};
use compare::random::Random;
use compare::{calls, library};

use crate::timing::best;

const LBT: u64 = 2;

type Mark = fn(&[u64], u64, u64, u64, &mut [u64]) -> Answer;

pub const FAIL_LATE: &str = "3a epochs that fail late";
pub const FAIL_AT_ONCE: &str = "3b epochs that fail at once";
pub const FAIL_BEHIND: &str = "3c the same behind reads";
pub const FAIL_BELOW: &str = "3d the same, one above";

type Maker = fn(usize, &mut Random) -> Vec<Row>;

const FAMILIES: [(&str, Maker); 4] = [
    (FAIL_LATE, late_failures),
    (FAIL_AT_ONCE, failures_at_once),
    (FAIL_BEHIND, |count, random| failures_behind_reads(false, count, random)),
    (FAIL_BELOW, |count, random| failures_behind_reads(true, count, random)),
];

/// Prints the times of both; how many answers differ.
pub fn compare(least: Duration) -> u64 {
    println!("\na trial of LBT\n{:<27} {:>5} {:>7} {:>12} {:>12}", "family", "rows", "trials", "ns valgrist", "ns plain");
    let mut differences = 0;
    for (name, make) in FAMILIES {
        for size in [256, MOST_ROWS] {
            let table = table_of(&file_of(1, &make(size, &mut Random::new(7)))).expect("a whole file");
            let list = RefCell::new([0; MOST_ROWS]);
            let answer = |call: Mark, allowance| call(black_box(&table), 1, LBT, allowance, &mut *list.borrow_mut());
            let answers = [answer(library::mark_table, u64::MAX), answer(calls::mark, u64::MAX)];
            differences += u64::from(answers[0] != answers[1]);
            let time = |call: Mark| {
                let [all, none] = best([&|| answer(call, u64::MAX).code, &|| answer(call, 0).code], least);
                (all - none) / answers[0].trials as f64
            };
            println!("{name:<27} {size:>5} {:>7} {:>12.1} {:>12.1}", answers[0].trials, time(library::mark_table), time(calls::mark));
        }
    }
    differences
}
