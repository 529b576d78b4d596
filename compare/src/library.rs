//! The proved library: the entry for a C host, and the calls of crates/calls that both programs make: the marking call, with a list and without one,
//! the answers of many registers, the zone list, and the loading of logs.

use std::cell::RefCell;

use crate::answer::{Answer, FIELDS};

extern "C" {
    fn valgrist_mark(bytes: *const u8, length: usize, register: u64, question: u64) -> u64;
}

#[cfg(feature = "before")]
#[link(name = "before_host", kind = "static")]
extern "C" {
    fn before_valgrist_mark(bytes: *const u8, length: usize, register: u64, question: u64) -> u64;
}

#[cfg(feature = "before")]
#[link(name = "before_calls", kind = "static")]
extern "C" {
    fn before_calls_mark(
        table: *const u64,
        cells: usize,
        register: u64,
        question: u64,
        allowance: u64,
        list: *mut u64,
        places: usize,
        said: *mut u64,
        four: usize,
    );
    fn before_calls_load(bytes: *const u8, length: usize, table: *mut u64, cells: usize, said: *mut u64, four: usize);
}

#[link(name = "calls", kind = "static")]
extern "C" {
    fn calls_mark(
        table: *const u64,
        cells: usize,
        register: u64,
        question: u64,
        allowance: u64,
        list: *mut u64,
        places: usize,
        said: *mut u64,
        four: usize,
    );
    fn calls_answer(table: *const u64, cells: usize, register: u64, question: u64, allowance: u64, said: *mut u64, four: usize);
    fn calls_answers(
        table: *const u64,
        cells: usize,
        registers: *const u64,
        count: usize,
        question: u64,
        allowance: u64,
        list: *mut u64,
        places: usize,
        said: *mut u64,
        four: usize,
    );
    fn calls_zone_list(table: *const u64, cells: usize, register: u64, list: *mut u64, places: usize, said: *mut u64, four: usize);
    fn calls_load(bytes: *const u8, length: usize, table: *mut u64, cells: usize, said: *mut u64, four: usize);
}

/// The code that the proved library gives.
pub fn mark(bytes: &[u8], register: u64, question: u64) -> u64 {
    // SAFETY: the pointer is not null and `length` bytes can be read behind it; the library reads no others and writes none.
    unsafe { valgrist_mark(bytes.as_ptr(), bytes.len(), register, question) }
}

/// The code that an earlier build of it gives.
#[cfg(feature = "before")]
pub fn mark_before(bytes: &[u8], register: u64, question: u64) -> u64 {
    // SAFETY: as above.
    unsafe { before_valgrist_mark(bytes.as_ptr(), bytes.len(), register, question) }
}

thread_local! {
    /// What calls write their answers to: a block of its exact size, so that a memory checker sees a write outside, and made once, so that no
    /// timed call makes one.
    static SAID: RefCell<Box<[u64]>> = RefCell::new(Box::new([u64::MAX; FIELDS]));
}

/// The answer that a call writes.
pub fn answered(call: impl FnOnce(*mut u64, usize)) -> Answer {
    SAID.with_borrow_mut(|said| {
        said.fill(u64::MAX);
        call(said.as_mut_ptr(), said.len());
        Answer { code: said[0], row: said[1], rows: said[2], trials: said[3] }
    })
}

/// The mark of a table's register.
pub fn mark_table(table: &[u64], register: u64, question: u64, allowance: u64, list: &mut [u64]) -> Answer {
    // SAFETY: each pointer comes with the length of its slice, and the library reads and writes no place outside.
    answered(|said, four| unsafe {
        calls_mark(table.as_ptr(), table.len(), register, question, allowance, list.as_mut_ptr(), list.len(), said, four)
    })
}

/// The same by an earlier build.
#[cfg(feature = "before")]
pub fn mark_table_before(table: &[u64], register: u64, question: u64, allowance: u64, list: &mut [u64]) -> Answer {
    // SAFETY: as above.
    answered(|said, four| unsafe {
        before_calls_mark(table.as_ptr(), table.len(), register, question, allowance, list.as_mut_ptr(), list.len(), said, four)
    })
}

/// The mark without a list.
pub fn answer(table: &[u64], register: u64, question: u64, allowance: u64) -> Answer {
    // SAFETY: as above.
    answered(|said, four| unsafe { calls_answer(table.as_ptr(), table.len(), register, question, allowance, said, four) })
}

/// The answers of the listed registers.
pub fn answers(table: &[u64], registers: &[u64], question: u64, allowance: u64, list: &mut [u64]) -> Answer {
    let (cells, count, places) = (table.len(), registers.len(), list.len());
    // SAFETY: as above.
    answered(|said, four| unsafe {
        calls_answers(table.as_ptr(), cells, registers.as_ptr(), count, question, allowance, list.as_mut_ptr(), places, said, four)
    })
}

/// The zones of a table's register.
pub fn zone_list(table: &[u64], register: u64, list: &mut [u64]) -> Answer {
    // SAFETY: as above.
    answered(|said, four| unsafe { calls_zone_list(table.as_ptr(), table.len(), register, list.as_mut_ptr(), list.len(), said, four) })
}

/// The rows of a log with named columns.
pub fn load(log: &[u8], table: &mut [u64]) -> Answer {
    // SAFETY: as above.
    answered(|said, four| unsafe { calls_load(log.as_ptr(), log.len(), table.as_mut_ptr(), table.len(), said, four) })
}

/// The same by an earlier build.
#[cfg(feature = "before")]
pub fn load_before(log: &[u8], table: &mut [u64]) -> Answer {
    // SAFETY: as above.
    answered(|said, four| unsafe { before_calls_load(log.as_ptr(), log.len(), table.as_mut_ptr(), table.len(), said, four) })
}
