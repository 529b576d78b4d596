//! Random damage to the bytes of a file, and to those of a text.

use crate::file::{push_record, Row, LENGTH, MOST_ROWS, OPENING_LENGTH, RECORD, WRITE};
use crate::random::Random;
use crate::register::LAST_STAMP;

/// Where the record at a place ends by its own length, whatever that is.
fn end(bytes: &[u8], at: usize) -> usize {
    let length = bytes[at..].first_chunk().map_or(0, |&length| u16::from_le_bytes(length));
    (at + 2 + usize::from(length)).min(bytes.len())
}

/// Where the records begin.
fn records(bytes: &[u8]) -> Vec<usize> {
    let mut records = Vec::with_capacity(bytes.len() / RECORD);
    let mut at = 0;
    while at < bytes.len() {
        records.push(at);
        at = end(bytes, at);
    }
    records
}

/// Where some record begins; 0 where there is none.
fn some_record(bytes: &[u8], random: &mut Random) -> usize {
    let records = records(bytes);
    records.get(random.below(records.len().max(1) as u64) as usize).copied().unwrap_or_default()
}

fn some_row(random: &mut Random) -> Row {
    let start = random.below(1000);
    let kind = WRITE + random.below(3) as u16;
    Row { number: 0, kind, value: random.below(10), start, finish: start + 1 + random.below(1000) }
}

fn set(bytes: &mut [u8], at: usize, new: &[u8]) {
    if at + new.len() <= bytes.len() {
        bytes[at..at + new.len()].copy_from_slice(new);
    }
}

/// Up to three changes to a file.
pub fn damage(bytes: &mut Vec<u8>, random: &mut Random) {
    for _ in 0..1 + random.below(3) {
        change(bytes, random);
    }
}

/// One change: to the end, a byte, a length, a kind, the records' sequence or count, or a number.
fn change(bytes: &mut Vec<u8>, random: &mut Random) {
    let at = some_record(bytes, random);
    match random.below(12) {
        0 => bytes.truncate(random.below(bytes.len() as u64 + 1) as usize),
        1 => flip(bytes, random),
        2 => {
            let length = [0, 17, 19, 20, 33, 35, 36, 34 << 8, 18 << 8, random.next() as u16][random.below(10) as usize];
            set(bytes, at, &length.to_le_bytes());
        }
        3 => {
            let kind = [0, 1, 2, 3, 4, 1 << 8, 2 << 8, 3 << 8, 257, random.next() as u16][random.below(10) as usize];
            set(bytes, at + 2, &kind.to_le_bytes());
        }
        4 => bytes.extend_from_within(at..end(bytes, at)),
        5 => {
            let record: Vec<u8> = bytes.drain(at..end(bytes, at)).collect();
            let other = some_record(bytes, random);
            bytes.splice(other..other, record);
        }
        6 => {
            let mut record = Vec::with_capacity(RECORD);
            push_record(&mut record, random.below(10), &some_row(random));
            bytes.splice(at..at, record);
        }
        7 => pad(bytes, random),
        8 => bytes.extend((0..1 + random.below(40)).map(|_| random.next() as u8)),
        9 => swap_length(bytes, at, random),
        10 => bytes.truncate(at + random.below(RECORD as u64) as usize),
        _ => {
            let word = [0, 1, LAST_STAMP, LAST_STAMP + 1, u64::MAX, random.next()][random.below(6) as usize];
            set(bytes, at + 4 + 8 * random.below(4) as usize, &word.to_le_bytes());
        }
    }
}

/// Changes a byte.
fn flip(bytes: &mut [u8], random: &mut Random) {
    let at = random.below(bytes.len().max(1) as u64) as usize;
    if let Some(byte) = bytes.get_mut(at) {
        *byte ^= (1 + random.below(255)) as u8;
    }
}

/// Gives a record the length of the other kinds; half the time with so many bytes as that length says.
fn swap_length(bytes: &mut Vec<u8>, at: usize, random: &mut Random) {
    let end = end(bytes, at);
    let length = if end - at < RECORD { LENGTH } else { OPENING_LENGTH };
    set(bytes, at, &length.to_le_bytes());
    if random.one_in(2) {
        let mut record = bytes[at..end].to_vec();
        record.resize(2 + usize::from(length), 0);
        bytes.splice(at..end, record);
    }
}

/// Records until there are about as many as can be. One in eight times, since such files take long.
fn pad(bytes: &mut Vec<u8>, random: &mut Random) {
    if !random.one_in(8) {
        return;
    }
    let count = MOST_ROWS - 1 + random.below(3) as usize;
    let register = random.next();
    for _ in records(bytes).len()..count {
        push_record(bytes, register, &some_row(random));
    }
}

/// One change to a text: a byte left out, put in or another, the end cut off, or the last byte.
pub fn damage_text(text: &mut Vec<u8>, random: &mut Random) {
    let at = random.below(text.len().max(1) as u64) as usize;
    let byte = [b',', b'\n', b'\r', b' ', b'0', b'w', b'o', b':', b'.', b'/', random.next() as u8][random.below(11) as usize];
    match random.below(5) {
        0 => text.truncate(at),
        1 => text.insert(at, byte),
        2 => drop(text.pop()),
        3 if at < text.len() => drop(text.remove(at)),
        _ if at < text.len() => text[at] = byte,
        _ => {}
    }
}
