//! Random input of the calls.

use compare::answer::Answer;
use compare::codes::FRESH;
use compare::damage::damage;
use compare::file::{table_of, MOST_ROWS, OPENING, WRITE};
use compare::random::Random;
use compare::table::{registers, COLUMNS};
use compare::tables::{road, table};
use compare::{calls, clocks, histories, logs, shapes, ALLOWANCE};

/// What a call is given; each call takes some of it.
#[derive(Debug, Default)]
pub struct Given {
    pub table: Box<[u64]>,
    pub bytes: Box<[u8]>,
    pub register: u64,
    pub registers: Box<[u64]>,
    pub question: u64,
    pub allowance: u64,
    pub k: u64,
    pub list: Box<[u64]>,
    pub answer: Answer,
    pub stamp: u64,
}

impl Given {
    /// The rows of the table that bear the register.
    pub fn rows(&self) -> usize {
        self.table.chunks(COLUMNS).filter(|cells| cells[0] == self.register).count()
    }

    /// Those of them that are writes or openings.
    pub fn writes(&self) -> usize {
        let write = |cells: &&[u64]| [WRITE, OPENING].iter().any(|&kind| cells.starts_with(&[self.register, u64::from(kind)]));
        self.table.chunks(COLUMNS).filter(write).count()
    }
}

/// One of the registers, and sometimes one that is not among them.
fn register(table: &[u64], random: &mut Random) -> u64 {
    let registers = registers(table);
    if registers.is_empty() || random.one_in(20) {
        return random.next();
    }
    registers[random.below(registers.len() as u64) as usize]
}

/// The table's registers, or some of them, in any sequence or ascending; often with others among them, and now and then with many more.
fn listed(table: &[u64], random: &mut Random) -> Box<[u64]> {
    let mut list = registers(table);
    if !random.one_in(4) {
        random.shuffle(&mut list);
    }
    if random.one_in(4) {
        list.truncate(random.below(list.len() as u64 + 1) as usize);
    }
    let more = if random.one_in(1000) { random.below(2000) } else { [0, 0, 1, 3][random.below(4) as usize] };
    for _ in 0..more {
        let at = random.below(list.len() as u64 + 1) as usize;
        list.insert(at, another(table, random));
    }
    list.into_boxed_slice()
}

/// A register to list: one of the table's, so that it may stand there twice, one that is near, any, the largest number or the smallest.
fn another(table: &[u64], random: &mut Random) -> u64 {
    match random.below(6) {
        0 => u64::MAX,
        1 => random.next(),
        2 => register(table, random) ^ 1 << random.below(64),
        3 => 0,
        _ => register(table, random),
    }
}

/// One of the three questions, and sometimes another number.
fn question(random: &mut Random) -> u64 {
    match random.below(20) {
        0 => [0, 4, random.next()][random.below(3) as usize],
        _ => 1 + random.below(3),
    }
}

/// Small, huge, what LBT needs, or one less.
fn allowance(table: &[u64], register: u64, random: &mut Random) -> u64 {
    match random.below(6) {
        0 => random.below(4),
        1 => calls::answer(table, register, 2, u64::MAX).trials,
        2 => calls::answer(table, register, 2, u64::MAX).trials.saturating_sub(1),
        3 => ALLOWANCE,
        _ => [random.next(), u64::MAX][random.below(2) as usize],
    }
}

fn k(random: &mut Random) -> u64 {
    match random.below(10) {
        0 => [0, random.next(), u64::MAX][random.below(3) as usize],
        1 => random.below(20),
        _ => 1 + random.below(3),
    }
}

/// A row's number, or another.
fn number(table: &[u64], random: &mut Random) -> u64 {
    match random.below(4) {
        0 => random.next(),
        _ => random.below((table.len() / COLUMNS) as u64 + 2),
    }
}

/// An order that some question finds, or else the register's rows in sequence; often changed.
fn order(table: &[u64], register: u64, random: &mut Random) -> Box<[u64]> {
    let mut list = vec![0; MOST_ROWS];
    let answer = calls::mark(table, register, 1 + random.below(3), u64::MAX, &mut list);
    if answer.code == FRESH {
        list.truncate(answer.rows as usize);
    } else {
        list = (0..).zip(table.chunks(COLUMNS)).filter(|(_, cells)| cells[0] == register).map(|(number, _)| number).collect();
    }
    for _ in 0..[0, 1, 1, 2][random.below(4) as usize] {
        change(&mut list, table, random);
    }
    list.into_boxed_slice()
}

/// One change to an order: neighbours swapped, a row moved, left out, repeated or foreign, the list longer, or all in another sequence.
fn change(list: &mut Vec<u64>, table: &[u64], random: &mut Random) {
    if list.is_empty() {
        return list.push(number(table, random));
    }
    let last = list.len() - 1;
    let [at, other] = [0; 2].map(|_| random.below(list.len() as u64) as usize);
    match random.below(10) {
        0..=2 => list.swap(at, last.min(at + 1)),
        3 => list.swap(at, other),
        4..=5 => {
            let row = list.remove(at);
            list.insert(other, row);
        }
        6 => {
            list.remove(at);
        }
        7 => list[at] = list[other],
        8 => list[at] = number(table, random),
        _ => match random.below(3) {
            0 => list.push(number(table, random)),
            1 => list.extend_from_within(at..),
            _ => random.shuffle(list),
        },
    }
}

/// A table alone.
pub fn of_table(random: &mut Random) -> Given {
    Given { table: table(random).into_boxed_slice(), ..Given::default() }
}

/// A table, a register and a question.
pub fn of_register(random: &mut Random) -> Given {
    let given = of_table(random);
    let register = register(&given.table, random);
    Given { register, question: question(random), allowance: allowance(&given.table, register, random), ..given }
}

/// A table, a list of registers and a question; the allowance is by one of the registers.
pub fn of_registers(random: &mut Random) -> Given {
    let table = if random.one_in(2) { table(random) } else { road(random) }.into_boxed_slice();
    let registers = listed(&table, random);
    let register = registers.first().copied().unwrap_or_default();
    Given { registers, question: question(random), allowance: allowance(&table, register, random), table, ..Given::default() }
}

/// A table, a register and an order.
pub fn of_order(random: &mut Random) -> Given {
    let given = of_table(random);
    let register = register(&given.table, random);
    Given { register, k: k(random), list: order(&given.table, register, random), ..given }
}

/// A file; one in four is damaged.
pub fn of_file(random: &mut Random) -> Given {
    let mut bytes = histories::file(&shapes::rows(random));
    if random.one_in(4) {
        damage(&mut bytes, random);
    }
    Given { bytes: bytes.into_boxed_slice(), ..Given::default() }
}

/// A file, half of them of many registers, a question and an allowance.
pub fn of_file_question(random: &mut Random) -> Given {
    let given = of_file(random);
    let bytes = if random.one_in(2) { given.bytes } else { histories::file(&shapes::road(random)).into_boxed_slice() };
    let table = table_of(&bytes).unwrap_or_default();
    let register = register(&table, random);
    Given { bytes, question: question(random), allowance: allowance(&table, register, random), ..Given::default() }
}

/// A log with named columns; one in three has faults.
pub fn of_log(random: &mut Random) -> Given {
    Given { bytes: logs::log(random).into_boxed_slice(), ..Given::default() }
}

/// A file and a register.
pub fn of_file_register(random: &mut Random) -> Given {
    let given = of_file(random);
    let table = table_of(&given.bytes).unwrap_or_default();
    let register = register(&table, random);
    Given { register, allowance: allowance(&table, register, random), ..given }
}

/// A file, a register and an order.
pub fn of_file_order(random: &mut Random) -> Given {
    let given = of_file(random);
    let table = table_of(&given.bytes).unwrap_or_default();
    let register = register(&table, random);
    Given { register, k: k(random), list: order(&table, register, random), ..given }
}

/// An answer, of small numbers and of large ones.
pub fn of_answer(random: &mut Random) -> Given {
    let [code, row, rows, trials] = [0; 4].map(|_| random.next() >> random.below(64));
    Given { answer: Answer { code, row, rows, trials }, ..Given::default() }
}

/// Decimal text: a number, near the largest, too long, or with a byte that is no digit.
fn decimal(random: &mut Random) -> Vec<u8> {
    let mut text = match random.below(8) {
        0 => (u128::from(u64::MAX - 2) + u128::from(random.below(5))).to_string(),
        1 => format!("{:0>1$}", random.below(1000), random.below(23) as usize),
        2 => (u128::from(random.next()) * 30).to_string(),
        _ => (random.next() >> random.below(64)).to_string(),
    }
    .into_bytes();
    if random.one_in(16) {
        let at = random.below(text.len() as u64 + 1) as usize;
        text.insert(at, [b' ', b'+', b'-', b'/', b':', b'\r', 0, random.next() as u8][random.below(8) as usize]);
    }
    if random.one_in(32) {
        text.clear();
    }
    text
}

pub fn of_number(random: &mut Random) -> Given {
    Given { bytes: decimal(random).into_boxed_slice(), ..Given::default() }
}

/// A few lines of decimal text; the last may lack its line feed.
pub fn of_lines(random: &mut Random) -> Given {
    let mut text = Vec::new();
    for _ in 0..random.below(8) {
        text.extend(decimal(random));
        text.push(b'\n');
    }
    if random.one_in(3) {
        text.pop();
    }
    Given { bytes: text.into_boxed_slice(), ..Given::default() }
}

pub fn of_stamp(random: &mut Random) -> Given {
    Given { stamp: clocks::stamp(random), ..Given::default() }
}

/// A text; about half of them are clock times.
pub fn of_clock(random: &mut Random) -> Given {
    Given { bytes: clocks::text(random).into_boxed_slice(), ..Given::default() }
}
