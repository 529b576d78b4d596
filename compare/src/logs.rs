//! Random logs: histories of all shapes and sizes, with the columns in any sequence and others among them, and stamps in either form; damaged ones.

use crate::clock::text_of;
use crate::clocks;
use crate::damage::damage_text;
use crate::file::{MOST_ROWS, WRITE};
use crate::log::{FINISH, KIND, NAMES, START};
use crate::random::Random;
use crate::register::LAST_STAMP;
use crate::shapes;
use crate::table::COLUMNS;

/// The cells of the lines, the header's first.
type Grid = Vec<Vec<Vec<u8>>>;

fn one_of<'a>(texts: &[&'a [u8]], random: &mut Random) -> &'a [u8] {
    texts[random.below(texts.len() as u64) as usize]
}

/// A name that is not needed.
fn other_name(random: &mut Random) -> Vec<u8> {
    one_of(&[b"", b"x", b"note", b"Register", b" kind", b"value ", b"\"start\"", b"finish\r", b"registers", b"\xff\0"], random).to_vec()
}

/// Any bytes but a comma and a line feed.
fn other_cell(random: &mut Random) -> Vec<u8> {
    let some = |random: &mut Random| b"\0\r\"' ;\t7w+\xff"[random.below(11) as usize];
    (0..random.below(7)).map(|_| some(random)).collect()
}

/// A number in decimal, sometimes with zeros before it.
fn decimal(number: u64, random: &mut Random) -> Vec<u8> {
    let zeros = if random.one_in(8) { random.below(31) as usize } else { 0 };
    ["0".repeat(zeros), number.to_string()].concat().into_bytes()
}

/// A stamp as clock time where it is not too large, or in decimal.
fn either_form(stamp: u64, random: &mut Random) -> Vec<u8> {
    if stamp <= LAST_STAMP && random.one_in(2) {
        return text_of(stamp).into_bytes();
    }
    decimal(stamp, random)
}

/// A cell of a needed column that mostly cannot be read; a right clock text can, as a stamp.
fn bad_cell(random: &mut Random) -> Vec<u8> {
    match random.below(5) {
        0 => (u128::from(u64::MAX - 1) + u128::from(random.below(4))).to_string().into_bytes(),
        1 => (u128::from(random.next()) * 11).to_string().into_bytes(),
        2 => clocks::text(random),
        _ => one_of(&[b"", b"W", b"R", b"O", b"w ", b"ow", b"wr", b"1", b"-1", b"+1", b" 1", b"1 ", b"1.0", b"0x1", b"1\r", b"/", b":"], random)
            .to_vec(),
    }
}

/// The cells of a random history in random columns; one in three has stamps in either form.
fn grid(random: &mut Random) -> Grid {
    let mut columns: Vec<Option<usize>> = (0..COLUMNS).map(Some).collect();
    columns.resize(COLUMNS + random.below(4) as usize, None);
    if !random.one_in(4) {
        random.shuffle(&mut columns);
    }
    let header = columns.iter().map(|column| column.map_or_else(|| other_name(random), |number| NAMES[number].to_vec())).collect();
    let mut grid: Grid = vec![header];
    let clock = random.one_in(3);
    for (register, row) in shapes::rows(random) {
        let numbers = [register, 0, row.value, row.start, row.finish];
        let mut cell = |column: &Option<usize>| match *column {
            None => other_cell(random),
            Some(KIND) => vec![b"wro"[usize::from(row.kind - WRITE)]],
            Some(stamp @ (START | FINISH)) if clock => either_form(numbers[stamp], random),
            Some(number) => decimal(numbers[number], random),
        };
        grid.push(columns.iter().map(&mut cell).collect());
    }
    grid
}

/// One change to the cells: one of them, how many a line has, a needed name, or how many lines there are.
fn change(grid: &mut Grid, random: &mut Random) {
    let line = random.below(grid.len() as u64) as usize;
    let cell = random.below(grid[line].len().max(1) as u64) as usize;
    match random.below(10) {
        0 if cell < grid[line].len() => drop(grid[line].remove(cell)),
        1 => grid[line].insert(cell, other_cell(random)),
        2 => grid[0].push(NAMES[random.below(COLUMNS as u64) as usize].to_vec()),
        3 => grid.iter_mut().for_each(|line| line.push(NAMES[random.below(COLUMNS as u64) as usize].to_vec())),
        4 => pad(grid, random),
        5 => grid[line].clear(),
        _ if cell < grid[line].len() => grid[line][cell] = bad_cell(random),
        _ => {}
    }
}

/// Lines until there are about as many as can be, of which the last may have a fault. One in six times, since such logs take long.
fn pad(grid: &mut Grid, random: &mut Random) {
    let count = MOST_ROWS + random.below(4) as usize;
    if random.one_in(6) && grid.len() > 1 && grid.len() < count {
        let last = grid[grid.len() - 1].clone();
        grid.resize(count, last);
        let fault = random.one_in(2).then(|| bad_cell(random));
        if let (Some(fault), Some(cell)) = (fault, grid[count - 1].first_mut()) {
            *cell = fault;
        }
    }
}

/// A log: of the cells as they are, or with some of them changed, or some bytes.
pub fn log(random: &mut Random) -> Vec<u8> {
    let mut grid = grid(random);
    let faults = random.below(6);
    if faults == 0 {
        (0..1 + random.below(3)).for_each(|_| change(&mut grid, random));
    }
    let mut text: Vec<u8> = grid.iter().flat_map(|line| [&line.join(&b',')[..], b"\n"].concat()).collect();
    if faults == 1 {
        (0..1 + random.below(3)).for_each(|_| damage_text(&mut text, random));
    }
    text
}
