//! The library's calls on tables, lists and buffers, in plain Rust, each by the name that it has in `differ`.

use crate::answer::{put, Answer, FIELDS};
use crate::clock;
use crate::codes::{BAD_SPAN, FRESH, SHORT_LIST, SPENT, STALE};
use crate::file::{push_record, table_of, MOST_ROWS, RECORD};
use crate::log;
use crate::register::{bad_span, Register, LAST_STAMP};
use crate::screening::screened;
use crate::table::{self, row, whole, COLUMNS};
use crate::text;
use crate::{is_question, order, search, zones, Found};

/// An answer, whichever way it comes.
fn either(answer: Result<Answer, Answer>) -> Answer {
    answer.unwrap_or_else(|refusal| refusal)
}

pub fn mark(table: &[u64], register: u64, question: u64, allowance: u64, list: &mut [u64]) -> Answer {
    either(marked(table, register, question, allowance, list))
}

fn marked(table: &[u64], register: u64, question: u64, allowance: u64, list: &mut [u64]) -> Result<Answer, Answer> {
    let rows = table::rows_of(table, register, is_question(question))?;
    let register = screened(&rows)?;
    if list.len() < rows.len() {
        return Err(Answer::refused(SHORT_LIST, 0));
    }
    let (found, answer) = decided(&register, question, allowance);
    if let Found::Order(order) = found {
        for (place, at) in list.iter_mut().zip(order) {
            *place = u64::from(register.ops[at as usize].row);
        }
    }
    Ok(answer)
}

/// What is found in a screened register, and the answer that says so.
fn decided(register: &Register, question: u64, allowance: u64) -> (Found, Answer) {
    let (found, trials) = search(register, question, allowance);
    let rows = register.ops.len() as u64;
    let answer = match found {
        Found::Order(_) => Answer { code: FRESH, row: 0, rows, trials },
        Found::Nothing => Answer { code: STALE, row: 0, rows, trials },
        Found::Spent => Answer { code: SPENT, trials: allowance, ..Answer::default() },
    };
    (found, answer)
}

/// The marking call with a list inside.
pub fn answer(table: &[u64], register: u64, question: u64, allowance: u64) -> Answer {
    mark(table, register, question, allowance, &mut [0; MOST_ROWS])
}

/// Four numbers a listed register: those of the marking call's answer, with the whole allowance and a list that is long enough.
pub fn answers(table: &[u64], registers: &[u64], question: u64, allowance: u64, list: &mut [u64]) -> Answer {
    either(listed(table, registers, question, allowance, list))
}

fn listed(table: &[u64], registers: &[u64], question: u64, allowance: u64, list: &mut [u64]) -> Result<Answer, Answer> {
    table::tested(table, is_question(question))?;
    if list.len() < FIELDS * registers.len() {
        return Err(Answer::refused(SHORT_LIST, 0));
    }
    let by_register = table::by_register(table);
    for (numbers, &register) in list.chunks_exact_mut(FIELDS).zip(registers) {
        let rows = table::rows_among(table, &by_register, register);
        let answer = rows.and_then(|rows| screened(&rows).map(|register| decided(&register, question, allowance).1));
        numbers.copy_from_slice(&either(answer).numbers());
    }
    Ok(Answer::default())
}

pub fn check(table: &[u64], register: u64, k: u64, list: &[u64]) -> Answer {
    either(checked_order(table, register, k, list))
}

fn checked_order(table: &[u64], register: u64, k: u64, list: &[u64]) -> Result<Answer, Answer> {
    let rows = table::rows_of(table, register, k > 0)?;
    screened(&rows)?;
    match order::fault(&rows, list, k) {
        Some((code, at)) => Err(Answer::refused(code, at as u64)),
        None => Ok(Answer::passed(rows.len() as u64)),
    }
}

pub fn screen(table: &[u64], register: u64) -> Answer {
    let rows = table::rows_of(table, register, true);
    either(rows.and_then(|rows| screened(&rows).map(|_| Answer::passed(rows.len() as u64))))
}

/// Four numbers a write of the register, by low end: its zone in recorded stamps.
pub fn zone_list(table: &[u64], register: u64, list: &mut [u64]) -> Answer {
    either(zones::listed(table, register).and_then(|(zones, rows)| put(zones.as_flattened(), list, rows)))
}

pub fn read(bytes: &[u8], table: &mut [u64]) -> Answer {
    either(table_of(bytes).and_then(|rows| put(&rows, table, rows.len() / COLUMNS)))
}

/// The rows of a log with named columns.
pub fn load(log: &[u8], table: &mut [u64]) -> Answer {
    either(log::table_of(log).and_then(|rows| put(&rows, table, rows.len() / COLUMNS)))
}

/// The rows of one register of a file.
pub fn select(bytes: &[u8], register: u64, table: &mut [u64]) -> Answer {
    either(table_of(bytes).and_then(|all| {
        let rows: Vec<u64> = all.chunks(COLUMNS).filter(|cells| cells[0] == register).flatten().copied().collect();
        put(&rows, table, rows.len() / COLUMNS)
    }))
}

pub fn write(table: &[u64], bytes: &mut [u8]) -> Answer {
    either(written(table).and_then(|file| put(&file, bytes, table.len() / COLUMNS)))
}

/// The file of a table. A span is judged where the record has no place for it.
pub fn written(table: &[u64]) -> Result<Vec<u8>, Answer> {
    whole(table)?;
    let rows = (0..).zip(table.chunks(COLUMNS)).map(|(number, cells)| row(number, cells)).collect::<Result<Vec<_>, _>>()?;
    if let Some(row) = rows.iter().find(|row| row.opening() && bad_span(row)) {
        return Err(Answer::refused(BAD_SPAN, u64::from(row.number)));
    }
    let mut file = Vec::with_capacity(rows.len() * RECORD);
    for (cells, row) in table.chunks(COLUMNS).zip(&rows) {
        push_record(&mut file, cells[0], row);
    }
    Ok(file)
}

/// Five numbers a register; the answer has the count of registers.
pub fn summary(table: &[u64], list: &mut [u64]) -> Answer {
    either(whole(table).and_then(|()| {
        let numbers = text::summary_of(table);
        put(&numbers, list, numbers.len() / COLUMNS)
    }))
}

/// A text at the front of a buffer; the answer has its length.
fn print(text: &str, out: &mut [u8]) -> Answer {
    either(put(text.as_bytes(), out, text.len()))
}

pub fn report(table: &[u64], out: &mut [u8]) -> Answer {
    either(whole(table).map(|()| print(&text::report_of(table), out)))
}

pub fn road(bytes: &[u8], out: &mut [u8]) -> Answer {
    print(&text::road_of(bytes), out)
}

pub fn answer_road(bytes: &[u8], question: u64, allowance: u64, out: &mut [u8]) -> Answer {
    print(&text::answers_of(bytes, question, allowance), out)
}

pub fn zones(bytes: &[u8], register: u64, out: &mut [u8]) -> Answer {
    print(&text::zones_of(bytes, register), out)
}

pub fn log(bytes: &[u8], out: &mut [u8]) -> Answer {
    print(&text::log_of(bytes), out)
}

pub fn sheet(table: &[u64], register: u64, allowance: u64, out: &mut [u8]) -> Answer {
    print(&text::sheet_of(table, register, allowance), out)
}

pub fn checked(table: &[u64], register: u64, k: u64, list: &[u64], out: &mut [u8]) -> Answer {
    print(&text::checked_of(table, register, k, list), out)
}

pub fn bench(bytes: &[u8], register: u64, allowance: u64, out: &mut [u8]) -> Answer {
    print(&text::bench_of(bytes, register, allowance), out)
}

pub fn exam(bytes: &[u8], register: u64, k: u64, list: &[u64], out: &mut [u8]) -> Answer {
    print(&text::exam_of(bytes, register, k, list), out)
}

pub fn refusal(answer: Answer, out: &mut [u8]) -> Answer {
    print(&text::refused_of(answer), out)
}

/// The answer's four numbers at the front of a list.
pub fn put_answer(answer: Answer, list: &mut [u64]) -> Answer {
    either(put(&answer.numbers(), list, 0))
}

/// What a text says: code 0 and the number as the count; where it says none, code 1.
fn said(number: Option<u64>) -> Answer {
    number.map_or(Answer::refused(1, 0), Answer::passed)
}

/// A text that is a number.
pub fn number(text: &[u8]) -> Answer {
    said(text::number_in(text))
}

/// Numbers, one a line, until the text ends or the list is full: code 0 and their count; where a line is none, code 1.
pub fn numbers(text: &[u8], list: &mut [u64]) -> Answer {
    match text::numbers_in(text, list.len()) {
        Some(numbers) => either(put(&numbers, list, numbers.len())),
        None => Answer::refused(1, 0),
    }
}

/// A stamp as clock time.
pub fn clock_write(stamp: u64, text: &mut [u8]) -> Answer {
    if stamp > LAST_STAMP {
        return Answer::refused(BAD_SPAN, 0);
    }
    print(&clock::text_of(stamp), text)
}

/// A text that is a clock time.
pub fn clock_read(text: &[u8]) -> Answer {
    said(clock::stamp_in(text))
}
