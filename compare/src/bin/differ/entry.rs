//! The entry for a C host on random files, sound ones and damaged ones. The plain side is held to the order check, and for small registers to a
//! trial of all orders.

use std::collections::HashSet;
use std::process::exit;

use compare::codes::{FRESH, STALE};
use compare::damage::damage;
use compare::file::{rows_of, Row, RECORD};
use compare::random::Random;
use compare::{histories, library, marking, order, shapes, Marking};

use crate::tally::Tally;

/// The codes that a call on a file's bytes can give.
const CODES: [u64; 11] = [0, 2, 3, 5, 7, 8, 9, 12, 16, 17, 20];
/// The largest register whose orders are all tried.
const SMALL: usize = 6;

#[derive(Default)]
pub struct Counts {
    tally: Tally,
    files: u64,
    damaged: u64,
    largest: usize,
    /// the orders checked, and the marks held to all orders
    orders: u64,
    tried: u64,
    ties: Ties,
    openings: Openings,
}

/// The marks of registers with equal stamps, and by which stamps these are.
#[derive(Default)]
struct Ties {
    marks: u64,
    starts: u64,
    finishes: u64,
    touching: u64,
    no_length: u64,
}

impl Ties {
    /// One mark more; an opening ties with no row.
    fn add(&mut self, rows: &[Row]) {
        let rows: Vec<Row> = rows.iter().filter(|row| !row.opening()).copied().collect();
        let [starts, finishes] = [|row: &Row| row.start, |row: &Row| row.finish].map(|stamp| rows.iter().map(stamp).collect::<HashSet<_>>());
        let touching = |row: &Row| finishes.contains(&row.start) && row.start != row.finish;
        let met = [starts.len() < rows.len(), finishes.len() < rows.len(), rows.iter().any(touching), rows.iter().any(|row| row.start == row.finish)];
        self.marks += u64::from(met.contains(&true));
        for (count, met) in [&mut self.starts, &mut self.finishes, &mut self.touching, &mut self.no_length].into_iter().zip(met) {
            *count += u64::from(met);
        }
    }

    /// Whether none of the kinds is rare.
    fn varied(&self) -> bool {
        [self.starts, self.finishes, self.touching, self.no_length].iter().all(|&count| 10 * count > self.marks)
    }
}

/// The marks of registers with an opening, and of which kinds these are.
#[derive(Default)]
struct Openings {
    marks: u64,
    tried: u64,
    read: u64,
    behind: u64,
    at_zero: u64,
    behind_zero: u64,
}

impl Openings {
    fn add(&mut self, rows: &[Row]) {
        let Some(at) = rows.iter().position(Row::opening) else { return };
        let read = |row: &Row| !row.write() && row.value == rows[at].value;
        let at_zero = |row: &Row| row.start == 0 && !row.opening();
        self.marks += 1;
        self.tried += u64::from(rows.len() <= SMALL);
        self.read += u64::from(rows.iter().any(read));
        self.behind += u64::from(at > 0);
        self.at_zero += u64::from(rows.iter().any(at_zero));
        self.behind_zero += u64::from(rows[..at].iter().any(at_zero));
    }

    /// Whether none of the kinds is rare.
    fn varied(&self) -> bool {
        [self.tried, self.read, self.behind, self.at_zero, self.behind_zero].iter().all(|&count| 10 * count > self.marks)
    }
}

/// A call on a file's bytes.
struct Call<'a> {
    bytes: &'a [u8],
    register: u64,
    question: u64,
}

impl Call<'_> {
    fn shown(&self, what: &str) -> String {
        let records = self.bytes.chunks(RECORD).map(|record| record.iter().map(|byte| format!("{byte:02x}")).collect::<String>() + "\n");
        format!("{what}: register {}, question {}, {} bytes:\n{}", self.register, self.question, self.bytes.len(), records.collect::<String>())
    }

    fn fail(&self, what: &str) -> ! {
        println!("{}", self.shown(what));
        exit(1)
    }

    /// Holds a mark of the plain implementation to the order check, and to all orders where they are few.
    fn hold(&self, plain: &Marking, counts: &mut Counts) {
        if plain.code != FRESH && plain.code != STALE {
            return;
        }
        let rows = rows_of(self.bytes, self.register).expect("a marked register has a sound file");
        counts.ties.add(&rows);
        counts.openings.add(&rows);
        let k = if self.question == 1 { 1 } else { 2 };
        if plain.code == FRESH {
            counts.orders += 1;
            let order: Vec<u64> = plain.order.iter().map(|&row| u64::from(row)).collect();
            if !order::accepted(&rows, &order, k) {
                self.fail("the plain implementation's order is not accepted");
            }
        }
        if rows.len() <= SMALL {
            counts.tried += 1;
            if order::some_order(&rows, k) != (plain.code == FRESH) {
                self.fail("the plain implementation's mark is not that of all orders");
            }
        }
    }

    fn compare(&self, counts: &mut Counts) {
        let plain = marking(self.bytes, self.register, self.question);
        let code = library::mark(self.bytes, self.register, self.question);
        let what = || self.shown(&format!("the library says {code}, the plain implementation {}", plain.code));
        counts.tally.add(plain.code, code == plain.code, what);
        self.hold(&plain, counts);
    }
}

/// The questions asked of a register: the three, and sometimes one that is none.
fn questions(random: &mut Random) -> Vec<u64> {
    let mut questions = vec![1, 2, 3];
    match random.below(12) {
        0 => questions.push(0),
        1 => questions.push(4),
        2 => questions.push(random.next()),
        _ => {}
    }
    questions
}

/// A few of the file's registers, and sometimes one that it has not.
fn registers(rows: &[(u64, Row)], random: &mut Random) -> Vec<u64> {
    let mut registers: Vec<u64> = rows.iter().map(|&(register, _)| register).collect();
    registers.sort_unstable();
    registers.dedup();
    random.shuffle(&mut registers);
    registers.truncate(3);
    if registers.is_empty() || random.one_in(10) {
        registers.push(random.next());
    }
    registers
}

/// The calls on one file.
fn compare_file(random: &mut Random, counts: &mut Counts) {
    let rows = shapes::rows(random);
    let mut bytes = histories::file(&rows);
    if random.one_in(4) {
        damage(&mut bytes, random);
        counts.damaged += 1;
    }
    // of exactly the file's size, so that a memory checker sees a read outside
    let bytes = bytes.into_boxed_slice();
    counts.files += 1;
    counts.largest = counts.largest.max(rows.len());
    for register in registers(&rows, random) {
        for question in questions(random) {
            Call { bytes: &bytes, register, question }.compare(counts);
        }
    }
}

/// So many calls, or a few more.
pub fn compare(calls: u64) -> Counts {
    let mut random = Random::new(1);
    let mut counts = Counts::default();
    while counts.tally.calls < calls {
        compare_file(&mut random, &mut counts);
    }
    counts
}

impl Counts {
    /// Prints the entry's line; whether nothing differs, every code has come, most marks are of registers with equal stamps, of all kinds, and a
    /// third are of registers with openings, of all kinds.
    pub fn sound(&self) -> bool {
        let marked = self.tally.came(FRESH) + self.tally.came(STALE);
        let tied = 2 * self.ties.marks > marked && self.ties.varied();
        let opened = 3 * self.openings.marks > marked && self.openings.varied();
        if !tied {
            println!("valgrist_mark: too few marks of registers with equal stamps");
        }
        if !opened {
            println!("valgrist_mark: too few marks of registers with openings");
        }
        self.tally.sound("valgrist_mark", &CODES) && tied && opened
    }

    /// Prints what the entry's calls were made on, and what the plain side was held to.
    pub fn print(&self) {
        println!("valgrist_mark: {} files, of them damaged {}, of up to {} rows", self.files, self.damaged, self.largest);
        println!("plain side: orders accepted {}, marks held to all orders {}", self.orders, self.tried);
        let Ties { marks, starts, finishes, touching, no_length } = self.ties;
        println!("equal stamps: marks {marks}; two starts {starts}, two finishes {finishes}");
        println!("equal stamps: a start and another row's finish {touching}, a row of no length {no_length}");
        let Openings { marks, tried, read, behind, at_zero, behind_zero } = self.openings;
        println!("openings: marks {marks}, of them held to all orders {tried}; read {read}, behind another row {behind}");
        println!("openings: with a row that starts at 0 {at_zero}, behind such a row {behind_zero}");
    }
}
