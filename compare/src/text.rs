//! What the programs print, and the numbers that they read out of text.

use crate::answer::Answer;
use crate::calls::{answer, check, mark};
use crate::codes::{FRESH, NO_SUCH_QUESTION};
use crate::file::{table_of, MOST_ROWS};
use crate::log;
use crate::table::{registers, COLUMNS};
use crate::{is_question, zones, ALLOWANCE};

/// Numbers in decimal with commas between them, and a line feed.
fn line(numbers: &[u64]) -> String {
    let numbers: Vec<String> = numbers.iter().map(u64::to_string).collect();
    numbers.join(",") + "\n"
}

/// The five numbers of each register, ascending: its number, its rows, the codes of questions 1 and 3, the row field of question 3.
pub fn summary_of(table: &[u64]) -> Vec<u64> {
    let mut numbers = Vec::new();
    for register in registers(table) {
        let count = table.chunks(COLUMNS).filter(|cells| cells[0] == register).count() as u64;
        let [one, two] = [1, 3].map(|question| answer(table, register, question, 0));
        numbers.extend([register, count, one.code, two.code, two.row]);
    }
    numbers
}

/// The header and a line for each register.
pub fn report_of(table: &[u64]) -> String {
    let lines = summary_of(table).chunks(COLUMNS).map(line).collect::<String>();
    format!("register,rows,one,two,row\n{lines}")
}

/// The line of a refused file.
pub fn refused_of(refusal: Answer) -> String {
    format!("refused,{}", line(&[refusal.code, refusal.row]))
}

/// A text of a table that was read, or the line of the refusal.
fn text_of(table: Result<Vec<u64>, Answer>, text: impl FnOnce(&[u64]) -> String) -> String {
    table.map_or_else(refused_of, |table| text(&table))
}

pub fn road_of(bytes: &[u8]) -> String {
    text_of(table_of(bytes), report_of)
}

/// The header and a line for each register, with the fields of its answer; or the line of the refused question.
fn answers_text(table: &[u64], question: u64, allowance: u64) -> String {
    if !is_question(question) {
        return refused_of(Answer::refused(NO_SUCH_QUESTION, 0));
    }
    let fields = |register: u64| line(&[&[register][..], &answer(table, register, question, allowance).numbers()[..]].concat());
    format!("register,code,row,rows,trials\n{}", registers(table).into_iter().map(fields).collect::<String>())
}

pub fn answers_of(bytes: &[u8], question: u64, allowance: u64) -> String {
    text_of(table_of(bytes), |table| answers_text(table, question, allowance))
}

/// The header and a line for each zone of the register; or the line of the refusal, which is the file's or the screening's.
pub fn zones_of(bytes: &[u8], register: u64) -> String {
    let zones = table_of(bytes).and_then(|table| zones::listed(&table, register));
    zones.map_or_else(refused_of, |(zones, _)| format!("row,direction,low,high\n{}", zones.iter().map(|zone| line(zone)).collect::<String>()))
}

pub fn log_of(bytes: &[u8]) -> String {
    text_of(log::table_of(bytes), report_of)
}

/// The answers to the three questions, and then the order of each that is fresh.
pub fn sheet_of(table: &[u64], register: u64, allowance: u64) -> String {
    let mut answers = String::from("question,code,row,rows,trials\n");
    let mut orders = String::new();
    for question in 1..=3 {
        let mut list = [0; MOST_ROWS];
        let answer = mark(table, register, question, allowance, &mut list);
        answers += &line(&[&[question][..], &answer.numbers()[..]].concat());
        if answer.code == FRESH {
            orders += &format!("order,{}", line(&[&[question][..], &list[..answer.rows as usize]].concat()));
        }
    }
    answers + &orders
}

/// The sheet, and the check of an order.
pub fn checked_of(table: &[u64], register: u64, k: u64, list: &[u64]) -> String {
    let answer = check(table, register, k, list);
    sheet_of(table, register, ALLOWANCE) + &format!("check,{}", line(&[answer.code, answer.row]))
}

pub fn bench_of(bytes: &[u8], register: u64, allowance: u64) -> String {
    text_of(table_of(bytes), |table| sheet_of(table, register, allowance))
}

pub fn exam_of(bytes: &[u8], register: u64, k: u64, list: &[u64]) -> String {
    text_of(table_of(bytes), |table| checked_of(table, register, k, list))
}

/// The number that a text of one to twenty digits is, where 64 bits hold it.
pub fn number_in(text: &[u8]) -> Option<u64> {
    if text.len() > 20 || !text.iter().all(u8::is_ascii_digit) {
        return None;
    }
    std::str::from_utf8(text).ok()?.parse().ok()
}

/// The numbers of the first `most` lines, where each of these is a number.
pub fn numbers_in(text: &[u8], most: usize) -> Option<Vec<u64>> {
    let lines = text.split_inclusive(|&byte| byte == b'\n').take(most);
    lines.map(|line| number_in(line.strip_suffix(b"\n").unwrap_or(line))).collect()
}
