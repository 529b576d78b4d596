//! The marking of register histories in plain Rust, to compare the proved library with: `differ` compares the calls, on random and on damaged
//! input, `speed` the times. Written from the scope document, the requests and the paper, and where these leave something free (what the programs
//! print beside the report, the numbers in text, one register of a file) from the pages of the repository.

pub mod answer;
pub mod calls;
pub mod clock;
pub mod clocks;
pub mod codes;
pub mod damage;
pub mod file;
mod fzf;
pub mod histories;
mod lbt;
pub mod library;
pub mod log;
pub mod logs;
pub mod order;
pub mod random;
pub mod register;
mod screening;
pub mod shapes;
pub mod table;
pub mod tables;
pub mod text;
pub mod zones;

use codes::{FRESH, NO_SUCH_QUESTION, SPENT, STALE};
use register::Register;

/// The trials of LBT that the C host's call allows.
pub const ALLOWANCE: u64 = 524_800;

/// What a method finds: an order of the operations (by position in the register), none, or that LBT may not go on.
pub enum Found {
    Order(Vec<u32>),
    Nothing,
    Spent,
}

fn is_question(question: u64) -> bool {
    (1..=3).contains(&question)
}

/// What the question's method finds in a register, and LBT's trials.
fn search(register: &Register, question: u64, allowance: u64) -> (Found, u64) {
    match question {
        1 => (zones::search(register), 0),
        2 => lbt::search(register, allowance),
        _ => (fzf::search(register), 0),
    }
}

/// The mark of a register: the code, and where it is fresh the order, as row numbers of the file.
pub struct Marking {
    pub code: u64,
    pub order: Vec<u32>,
}

/// The code of the file's refusal, else of the marking of the register by the question.
pub fn mark(bytes: &[u8], register: u64, question: u64) -> u64 {
    marking(bytes, register, question).code
}

/// The same with the order.
pub fn marking(bytes: &[u8], register: u64, question: u64) -> Marking {
    match decide(bytes, register, question) {
        Ok(order) => Marking { code: FRESH, order },
        Err(code) => Marking { code, order: Vec::new() },
    }
}

fn decide(bytes: &[u8], register: u64, question: u64) -> Result<Vec<u32>, u64> {
    let rows = file::rows_of(bytes, register).map_err(|refusal| refusal.code)?;
    if !is_question(question) {
        return Err(NO_SUCH_QUESTION);
    }
    let register = Register::screened(&rows)?;
    match search(&register, question, ALLOWANCE).0 {
        Found::Order(mut order) => {
            for place in &mut order {
                *place = register.ops[*place as usize].row;
            }
            Ok(order)
        }
        Found::Nothing => Err(STALE),
        Found::Spent => Err(SPENT),
    }
}
