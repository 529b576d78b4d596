//! The answer of a call, and a result at the front of what is lent to it.

use crate::codes::{FRESH, SHORT_LIST};

/// The numbers of an answer.
pub const FIELDS: usize = 4;

#[derive(Clone, Copy, Debug, Default, PartialEq)]
pub struct Answer {
    pub code: u64,
    pub row: u64,
    pub rows: u64,
    pub trials: u64,
}

impl Answer {
    /// An answer with a code and a row field alone.
    pub fn refused(code: u64, row: u64) -> Answer {
        Answer { code, row, ..Answer::default() }
    }

    /// Code 0, with a count.
    pub fn passed(rows: u64) -> Answer {
        Answer { code: FRESH, rows, ..Answer::default() }
    }

    pub fn numbers(self) -> [u64; FIELDS] {
        [self.code, self.row, self.rows, self.trials]
    }
}

/// A result at the front of a lent slice, and a count for the answer; or 10 and the slice as it was.
pub fn put<T: Copy>(result: &[T], lent: &mut [T], rows: usize) -> Result<Answer, Answer> {
    match lent.get_mut(..result.len()) {
        Some(front) => {
            front.copy_from_slice(result);
            Ok(Answer::passed(rows as u64))
        }
        None => Err(Answer::refused(SHORT_LIST, 0)),
    }
}
