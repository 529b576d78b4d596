//! The kinds of calls: what each is given, what its result needs, the codes that it can give and list, and the call on both sides.

use compare::answer::{Answer, FIELDS};
use compare::file::{rows_of, table_of, OPENING, RECORD};
use compare::random::Random;
use compare::table::{registers, COLUMNS};
use compare::{calls, clock, text, zones};

use crate::given::{self, Given};
use crate::lent::{Lent, Needed};
use crate::library;

pub type Call = fn(&Given, &mut Lent) -> Answer;

pub struct Kind {
    pub name: &'static str,
    pub codes: &'static [u64],
    /// the codes that the answers in its list can have, where it lists answers
    pub listed: &'static [u64],
    /// what a call that passes must be given to be counted, where not every call is: a file with records of both lengths, or its table
    pub counted: &'static [fn(&Given) -> bool],
    pub given: fn(&mut Random) -> Given,
    pub needed: fn(&Given) -> Needed,
    pub library: Call,
    pub plain: Call,
}

/// A kind whose call has one name, and one list of arguments, on both sides.
macro_rules! kind {
    (
        $name:literal gives $codes:expr, $(lists [$($listed:literal),*],)? $(counts $counted:expr,)? from $given:expr, needs $needed:expr;
        |$g:ident, $lent:ident| $call:ident($($argument:expr),*)
    ) => {
        Kind {
            name: $name,
            codes: $codes,
            listed: &[$($($listed),*)?],
            counted: &[$($counted)?],
            given: $given,
            needed: $needed,
            library: |$g, $lent| library::$call($($argument),*),
            plain: |$g, $lent| calls::$call($($argument),*),
        }
    };
}

const OF_FILES: &[u64] = &[0, 2, 10, 16, 17];
const OF_TABLES: &[u64] = &[0, 1, 2, 10];
/// There is room, or there is not.
const OF_ROOM: &[u64] = &[0, 10];
/// A text is a number, a list of them, or a clock time, or it is none.
const OF_NUMBERS: &[u64] = &[0, 1];

fn nothing(_: &Given) -> Needed {
    Needed::Nothing
}

fn printed(text: String) -> Needed {
    Needed::Bytes(text.len())
}

pub const KINDS: [Kind; 26] = [
    kind!(
        "marker::mark" gives &[0, 1, 2, 3, 4, 5, 7, 8, 9, 10, 11, 12, 20], from given::of_register, needs |g| Needed::Numbers(g.rows());
        |g, lent| mark(&g.table, g.register, g.question, g.allowance, &mut lent.numbers)
    ),
    kind!(
        "marks::answer" gives &[0, 1, 2, 3, 4, 5, 7, 8, 9, 11, 12, 20], from given::of_register, needs nothing;
        |g, _lent| answer(&g.table, g.register, g.question, g.allowance)
    ),
    kind!(
        "orders::check" gives &[0, 1, 2, 3, 4, 5, 7, 8, 9, 13, 14, 15, 20], from given::of_order, needs nothing;
        |g, _lent| check(&g.table, g.register, g.k, &g.list)
    ),
    kind!(
        "screening::screen" gives &[0, 1, 2, 4, 5, 7, 8, 9, 20], from given::of_register, needs nothing;
        |g, _lent| screen(&g.table, g.register)
    ),
    kind!(
        "files::read" gives OF_FILES, counts |g| both_lengths(&g.bytes), from given::of_file, needs |g| Needed::Numbers(read(&g.bytes));
        |g, lent| read(&g.bytes, &mut lent.numbers)
    ),
    kind!(
        "selection::read" gives OF_FILES, from given::of_file_register, needs |g| Needed::Numbers(selected(g));
        |g, lent| select(&g.bytes, g.register, &mut lent.numbers)
    ),
    kind!(
        "logs::load" gives &[0, 2, 10, 18, 19], from given::of_log, needs |g| Needed::Numbers(data_lines(&g.bytes) * COLUMNS);
        |g, lent| load(&g.bytes, &mut lent.numbers)
    ),
    kind!(
        "files::write" gives &[0, 1, 2, 4, 5, 10], counts |g| both_lengths(&file(&g.table)), from given::of_table,
        needs |g| Needed::Bytes(file(&g.table).len());
        |g, lent| write(&g.table, &mut lent.bytes)
    ),
    kind!(
        "summary::summary" gives OF_TABLES, from given::of_table, needs |g| Needed::Numbers(registers(&g.table).len() * COLUMNS);
        |g, lent| summary(&g.table, &mut lent.numbers)
    ),
    kind!(
        "report::report" gives OF_TABLES, from given::of_table, needs |g| printed(text::report_of(&g.table));
        |g, lent| report(&g.table, &mut lent.bytes)
    ),
    kind!(
        "report::road" gives OF_ROOM, from given::of_file, needs |g| printed(text::road_of(&g.bytes));
        |g, lent| road(&g.bytes, &mut lent.bytes)
    ),
    kind!(
        "log_report::log" gives OF_ROOM, from given::of_log, needs |g| printed(text::log_of(&g.bytes));
        |g, lent| log(&g.bytes, &mut lent.bytes)
    ),
    kind!(
        "sheet::sheet" gives OF_ROOM, from given::of_register, needs |g| printed(text::sheet_of(&g.table, g.register, g.allowance));
        |g, lent| sheet(&g.table, g.register, g.allowance, &mut lent.bytes)
    ),
    kind!(
        "sheet::checked" gives OF_ROOM, from given::of_order, needs |g| printed(text::checked_of(&g.table, g.register, g.k, &g.list));
        |g, lent| checked(&g.table, g.register, g.k, &g.list, &mut lent.bytes)
    ),
    kind!(
        "file_sheets::bench" gives OF_ROOM, from given::of_file_register, needs |g| printed(text::bench_of(&g.bytes, g.register, g.allowance));
        |g, lent| bench(&g.bytes, g.register, g.allowance, &mut lent.bytes)
    ),
    kind!(
        "file_sheets::exam" gives OF_ROOM, from given::of_file_order, needs |g| printed(text::exam_of(&g.bytes, g.register, g.k, &g.list));
        |g, lent| exam(&g.bytes, g.register, g.k, &g.list, &mut lent.bytes)
    ),
    kind!(
        "printing::refusal" gives OF_ROOM, from given::of_answer, needs |g| printed(text::refused_of(g.answer));
        |g, lent| refusal(g.answer, &mut lent.bytes)
    ),
    kind!(
        "Answer::write" gives OF_ROOM, from given::of_answer, needs |_| Needed::Numbers(4);
        |g, lent| put_answer(g.answer, &mut lent.numbers)
    ),
    kind!(
        "parsing::number_in" gives OF_NUMBERS, from given::of_number, needs nothing;
        |g, _lent| number(&g.bytes)
    ),
    kind!(
        "parsing::list" gives OF_NUMBERS, from given::of_lines, needs |_| Needed::Numbers(8);
        |g, lent| numbers(&g.bytes, &mut lent.numbers)
    ),
    kind!(
        "roads::answers" gives &[0, 1, 2, 3, 10], lists [0, 4, 5, 7, 8, 9, 11, 12, 20], from given::of_registers,
        needs |g| Needed::Numbers(g.registers.len() * FIELDS);
        |g, lent| answers(&g.table, &g.registers, g.question, g.allowance, &mut lent.numbers)
    ),
    kind!(
        "answer_report::road" gives OF_ROOM, from given::of_file_question, needs |g| printed(text::answers_of(&g.bytes, g.question, g.allowance));
        |g, lent| answer_road(&g.bytes, g.question, g.allowance, &mut lent.bytes)
    ),
    kind!(
        "clock::write" gives &[0, 5, 10], from given::of_stamp, needs |g| printed(clock::text_of(g.stamp));
        |g, lent| clock_write(g.stamp, &mut lent.bytes)
    ),
    kind!(
        "clock::read" gives OF_NUMBERS, from given::of_clock, needs nothing;
        |g, _lent| clock_read(&g.bytes)
    ),
    kind!(
        "zone_list::write" gives &[0, 1, 2, 4, 5, 7, 8, 9, 10, 20], from given::of_register, needs |g| Needed::Numbers(g.writes() * zones::NUMBERS);
        |g, lent| zone_list(&g.table, g.register, &mut lent.numbers)
    ),
    kind!(
        "zone_report::zones" gives OF_ROOM, from given::of_file_register, needs |g| printed(text::zones_of(&g.bytes, g.register));
        |g, lent| zones(&g.bytes, g.register, &mut lent.bytes)
    ),
];

/// The numbers of a file's rows; of one that is refused about as many.
fn read(bytes: &[u8]) -> usize {
    table_of(bytes).map_or(bytes.len() / RECORD * COLUMNS, |table| table.len())
}

/// The file of a table; of one that is refused so many bytes as its rows can take.
fn file(table: &[u64]) -> Vec<u8> {
    calls::written(table).unwrap_or_else(|_| vec![0; table.len() / COLUMNS * RECORD])
}

/// Whether a file is sound and has openings and other rows.
fn both_lengths(bytes: &[u8]) -> bool {
    let table = table_of(bytes).unwrap_or_default();
    let openings = table.chunks(COLUMNS).filter(|cells| cells[1] == u64::from(OPENING)).count();
    (1..table.len() / COLUMNS).contains(&openings)
}

/// The numbers of the register's rows in a file.
fn selected(given: &Given) -> usize {
    rows_of(&given.bytes, given.register).map_or(0, |rows| rows.len() * COLUMNS)
}

/// The lines of a log behind its header, also of one that is refused, so that its table has rows.
fn data_lines(log: &[u8]) -> usize {
    log.iter().filter(|&&byte| byte == b'\n').count().saturating_sub(1)
}
