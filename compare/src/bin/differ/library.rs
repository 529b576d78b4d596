//! The proved library's calls, exported by crates/calls, under the names of the plain ones. A slice crosses as a pointer and a length, and the
//! answer's four numbers come back in a slice of their own.
//!
//! SAFETY of every call: each pointer comes with the length of its slice, and the library reads and writes no place outside.

use compare::answer::Answer;
use compare::library::answered;
pub use compare::library::{answer, answers, load, mark_table as mark, zone_list};

#[link(name = "calls", kind = "static")]
extern "C" {
    fn calls_check(table: *const u64, cells: usize, register: u64, k: u64, list: *const u64, places: usize, said: *mut u64, four: usize);
    fn calls_screen(table: *const u64, cells: usize, register: u64, said: *mut u64, four: usize);
    fn calls_read(bytes: *const u8, length: usize, table: *mut u64, cells: usize, said: *mut u64, four: usize);
    fn calls_select(bytes: *const u8, length: usize, register: u64, table: *mut u64, cells: usize, said: *mut u64, four: usize);
    fn calls_write(table: *const u64, cells: usize, bytes: *mut u8, length: usize, said: *mut u64, four: usize);
    fn calls_summary(table: *const u64, cells: usize, list: *mut u64, places: usize, said: *mut u64, four: usize);
    fn calls_report(table: *const u64, cells: usize, out: *mut u8, room: usize, said: *mut u64, four: usize);
    fn calls_answer_road(bytes: *const u8, length: usize, question: u64, allowance: u64, out: *mut u8, room: usize, said: *mut u64, four: usize);
    fn calls_road(bytes: *const u8, length: usize, out: *mut u8, room: usize, said: *mut u64, four: usize);
    fn calls_zones(bytes: *const u8, length: usize, register: u64, out: *mut u8, room: usize, said: *mut u64, four: usize);
    fn calls_log(bytes: *const u8, length: usize, out: *mut u8, room: usize, said: *mut u64, four: usize);
    fn calls_sheet(table: *const u64, cells: usize, register: u64, allowance: u64, out: *mut u8, room: usize, said: *mut u64, four: usize);
    fn calls_checked(
        table: *const u64,
        cells: usize,
        register: u64,
        k: u64,
        list: *const u64,
        places: usize,
        out: *mut u8,
        room: usize,
        said: *mut u64,
        four: usize,
    );
    fn calls_bench(bytes: *const u8, length: usize, register: u64, allowance: u64, out: *mut u8, room: usize, said: *mut u64, four: usize);
    fn calls_exam(
        bytes: *const u8,
        length: usize,
        register: u64,
        k: u64,
        list: *const u64,
        places: usize,
        out: *mut u8,
        room: usize,
        said: *mut u64,
        four: usize,
    );
    fn calls_refusal(code: u64, row: u64, rows: u64, trials: u64, out: *mut u8, room: usize, said: *mut u64, four: usize);
    fn calls_put_answer(code: u64, row: u64, rows: u64, trials: u64, list: *mut u64, places: usize, said: *mut u64, four: usize);
    fn calls_number(text: *const u8, length: usize, said: *mut u64, four: usize);
    fn calls_numbers(text: *const u8, length: usize, list: *mut u64, places: usize, said: *mut u64, four: usize);
    fn calls_clock_write(stamp: u64, text: *mut u8, length: usize, said: *mut u64, four: usize);
    fn calls_clock_read(text: *const u8, length: usize, said: *mut u64, four: usize);
}

pub fn check(table: &[u64], register: u64, k: u64, list: &[u64]) -> Answer {
    answered(|said, four| unsafe { calls_check(table.as_ptr(), table.len(), register, k, list.as_ptr(), list.len(), said, four) })
}

pub fn screen(table: &[u64], register: u64) -> Answer {
    answered(|said, four| unsafe { calls_screen(table.as_ptr(), table.len(), register, said, four) })
}

pub fn read(bytes: &[u8], table: &mut [u64]) -> Answer {
    answered(|said, four| unsafe { calls_read(bytes.as_ptr(), bytes.len(), table.as_mut_ptr(), table.len(), said, four) })
}

pub fn select(bytes: &[u8], register: u64, table: &mut [u64]) -> Answer {
    answered(|said, four| unsafe { calls_select(bytes.as_ptr(), bytes.len(), register, table.as_mut_ptr(), table.len(), said, four) })
}

pub fn write(table: &[u64], bytes: &mut [u8]) -> Answer {
    answered(|said, four| unsafe { calls_write(table.as_ptr(), table.len(), bytes.as_mut_ptr(), bytes.len(), said, four) })
}

pub fn summary(table: &[u64], list: &mut [u64]) -> Answer {
    answered(|said, four| unsafe { calls_summary(table.as_ptr(), table.len(), list.as_mut_ptr(), list.len(), said, four) })
}

pub fn report(table: &[u64], out: &mut [u8]) -> Answer {
    answered(|said, four| unsafe { calls_report(table.as_ptr(), table.len(), out.as_mut_ptr(), out.len(), said, four) })
}

pub fn answer_road(bytes: &[u8], question: u64, allowance: u64, out: &mut [u8]) -> Answer {
    let (text, room) = (out.as_mut_ptr(), out.len());
    answered(|said, four| unsafe { calls_answer_road(bytes.as_ptr(), bytes.len(), question, allowance, text, room, said, four) })
}

pub fn road(bytes: &[u8], out: &mut [u8]) -> Answer {
    answered(|said, four| unsafe { calls_road(bytes.as_ptr(), bytes.len(), out.as_mut_ptr(), out.len(), said, four) })
}

pub fn zones(bytes: &[u8], register: u64, out: &mut [u8]) -> Answer {
    answered(|said, four| unsafe { calls_zones(bytes.as_ptr(), bytes.len(), register, out.as_mut_ptr(), out.len(), said, four) })
}

pub fn log(bytes: &[u8], out: &mut [u8]) -> Answer {
    answered(|said, four| unsafe { calls_log(bytes.as_ptr(), bytes.len(), out.as_mut_ptr(), out.len(), said, four) })
}

pub fn sheet(table: &[u64], register: u64, allowance: u64, out: &mut [u8]) -> Answer {
    answered(|said, four| unsafe { calls_sheet(table.as_ptr(), table.len(), register, allowance, out.as_mut_ptr(), out.len(), said, four) })
}

pub fn checked(table: &[u64], register: u64, k: u64, list: &[u64], out: &mut [u8]) -> Answer {
    answered(|said, four| unsafe {
        calls_checked(table.as_ptr(), table.len(), register, k, list.as_ptr(), list.len(), out.as_mut_ptr(), out.len(), said, four)
    })
}

pub fn bench(bytes: &[u8], register: u64, allowance: u64, out: &mut [u8]) -> Answer {
    answered(|said, four| unsafe { calls_bench(bytes.as_ptr(), bytes.len(), register, allowance, out.as_mut_ptr(), out.len(), said, four) })
}

pub fn exam(bytes: &[u8], register: u64, k: u64, list: &[u64], out: &mut [u8]) -> Answer {
    answered(|said, four| unsafe {
        calls_exam(bytes.as_ptr(), bytes.len(), register, k, list.as_ptr(), list.len(), out.as_mut_ptr(), out.len(), said, four)
    })
}

pub fn refusal(answer: Answer, out: &mut [u8]) -> Answer {
    answered(|said, four| unsafe { calls_refusal(answer.code, answer.row, answer.rows, answer.trials, out.as_mut_ptr(), out.len(), said, four) })
}

pub fn put_answer(answer: Answer, list: &mut [u64]) -> Answer {
    answered(|said, four| unsafe { calls_put_answer(answer.code, answer.row, answer.rows, answer.trials, list.as_mut_ptr(), list.len(), said, four) })
}

pub fn number(text: &[u8]) -> Answer {
    answered(|said, four| unsafe { calls_number(text.as_ptr(), text.len(), said, four) })
}

pub fn numbers(text: &[u8], list: &mut [u64]) -> Answer {
    answered(|said, four| unsafe { calls_numbers(text.as_ptr(), text.len(), list.as_mut_ptr(), list.len(), said, four) })
}

pub fn clock_write(stamp: u64, text: &mut [u8]) -> Answer {
    answered(|said, four| unsafe { calls_clock_write(stamp, text.as_mut_ptr(), text.len(), said, four) })
}

pub fn clock_read(text: &[u8]) -> Answer {
    answered(|said, four| unsafe { calls_clock_read(text.as_ptr(), text.len(), said, four) })
}
