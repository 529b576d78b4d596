//! The answers of sixty registers in one call, against sixty single calls and against plain Rust's one call.

use std::cell::RefCell;
use std::hint::black_box;
use std::time::Duration;

use compare::answer::{Answer, FIELDS};
use compare::codes::FRESH;
use compare::file::{table_of, Row, MOST_ROWS};
use compare::histories::{file, opened, walked, Walk};
use compare::random::Random;
use compare::table::COLUMNS;
use compare::{calls, library, ALLOWANCE};

use crate::timing::best;

const REGISTERS: u64 = 60;
const NUMBERS: usize = REGISTERS as usize * FIELDS;

/// Reads of the last value or, one in twenty, of the one before; each operation meets a few others.
const MOSTLY_FRESH: Walk = Walk { writes: 3, older: 20, stale: u64::MAX, reach: 40 };
/// Reads of the first value alone.
const ONE_WRITE: Walk = Walk { writes: u64::MAX, older: u64::MAX, stale: u64::MAX, reach: 40 };

/// The table of registers 1 to 60, each with a history of its share of the rows, by start.
fn table(count: u64, mut history: impl FnMut(usize) -> Vec<Row>) -> Vec<u64> {
    let mut rows = Vec::new();
    for register in 0..REGISTERS {
        let share = count * (register + 1) / REGISTERS - count * register / REGISTERS;
        rows.extend(history(share as usize).into_iter().map(|row| (register + 1, row)));
    }
    rows.sort_by_key(|(_, row)| row.start);
    table_of(&file(&rows)).expect("a whole file")
}

fn shuffled(table: &[u64], random: &mut Random) -> Vec<u64> {
    let mut rows: Vec<&[u64]> = table.chunks(COLUMNS).collect();
    random.shuffle(&mut rows);
    rows.concat()
}

fn families() -> [(&'static str, Vec<u64>); 4] {
    let mut random = Random::new(7);
    let by_start = table(MOST_ROWS as u64, |share| walked(share, MOSTLY_FRESH, &mut random));
    let mixed = shuffled(&by_start, &mut random);
    let pairs = table(2 * REGISTERS, |share| walked(share, ONE_WRITE, &mut random));
    let openings = table(MOST_ROWS as u64, |share| opened(walked(share, MOSTLY_FRESH, &mut random)));
    [("by start", by_start), ("shuffled", mixed), ("a write and its read", pairs), ("by start, with openings", openings)]
}

type Answers = fn(&[u64], &[u64], u64, u64, &mut [u64]) -> Answer;

/// A table, its registers and a question.
struct Asked<'a> {
    table: &'a [u64],
    registers: &'a [u64],
    question: u64,
}

impl Asked<'_> {
    fn at_once(&self, call: Answers, list: &mut [u64]) -> Answer {
        call(black_box(self.table), self.registers, self.question, ALLOWANCE, list)
    }

    /// The codes of sixty calls, added.
    fn singly(&self, call: impl Fn(&[u64], u64) -> Answer) -> u64 {
        self.registers.iter().map(|&register| call(black_box(self.table), register).code).sum()
    }

    /// The microseconds of the one call, of sixty with a list, of sixty without one, and of plain Rust's one call.
    fn times(&self, least: Duration) -> [f64; 4] {
        let list = RefCell::new([0; MOST_ROWS]);
        let mark = |table: &[u64], register| library::mark_table(table, register, self.question, ALLOWANCE, &mut *list.borrow_mut());
        let answer = |table: &[u64], register| library::answer(table, register, self.question, ALLOWANCE);
        let once = |call: Answers| self.at_once(call, &mut list.borrow_mut()[..NUMBERS]).code;
        best([&|| once(library::answers), &|| self.singly(mark), &|| self.singly(answer), &|| once(calls::answers)], least).map(|time| time / 1000.0)
    }

    /// How many registers are fresh; and whether plain Rust, or a single call, answers otherwise.
    fn marked(&self) -> (usize, bool) {
        let mut lists = [[1; NUMBERS], [2; NUMBERS]];
        let answers = [self.at_once(library::answers, &mut lists[0]), self.at_once(calls::answers, &mut lists[1])];
        let single = |&register: &u64| library::answer(self.table, register, self.question, ALLOWANCE).numbers();
        let same = answers[0] == answers[1] && lists[0] == lists[1] && self.registers.iter().flat_map(single).eq(lists[0]);
        (lists[0].chunks(FIELDS).filter(|numbers| numbers[0] == FRESH).count(), !same)
    }
}

/// Prints the times, and their ratios to the cheaper sixty calls and to plain Rust's; how many answers differ.
pub fn compare(least: Duration) -> u64 {
    let times = ["us one", "us 60 marks", "us 60 answers", "ratio", "us plain", "ratio"].map(|name| format!(" {name:>13}")).concat();
    println!("\nsixty registers in one call, and in sixty\n{:<27} {:>5} {:>2} {:>5}{times}", "family", "rows", "q", "fresh");
    let registers: Vec<u64> = (1..=REGISTERS).collect();
    let mut differences = 0;
    for (name, table) in families() {
        for question in 1..=3 {
            let asked = Asked { table: &table, registers: &registers, question };
            let (fresh, differs) = asked.marked();
            differences += u64::from(differs);
            let [one, marks, answers, plain] = asked.times(least);
            print!("{name:<27} {:>5} {question:>2} {fresh:>5} {one:>13.1} {marks:>13.1} {answers:>13.1}", table.len() / COLUMNS);
            println!(" {:>13.2} {plain:>13.1} {:>13.2}", one / marks.min(answers), one / plain);
        }
    }
    differences
}
