//! The codes of the scope document and of the requests.

pub const FRESH: u64 = 0;
pub const RAGGED: u64 = 1;
pub const OVERFULL: u64 = 2;
pub const NO_SUCH_QUESTION: u64 = 3;
pub const BAD_KIND: u64 = 4;
pub const BAD_SPAN: u64 = 5;
pub const TWIN_WRITE: u64 = 7;
pub const ORPHAN_READ: u64 = 8;
pub const EARLY_READ: u64 = 9;
pub const SHORT_LIST: u64 = 10;
pub const SPENT: u64 = 11;
pub const STALE: u64 = 12;
pub const MISFIT_LIST: u64 = 13;
pub const OUT_OF_TIME: u64 = 14;
pub const TOO_FAR_BEHIND: u64 = 15;
pub const CUT_RECORD: u64 = 16;
pub const STRANGE_RECORD: u64 = 17;
pub const HEADER_FAULT: u64 = 18;
pub const UNREADABLE_CELL: u64 = 19;
pub const SECOND_OPENING: u64 = 20;

/// All codes lie below.
pub const END: usize = 21;
