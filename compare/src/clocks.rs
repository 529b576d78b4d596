//! Random stamps and clock texts: right ones of all sizes, and wrong ones.

use std::ops::Range;

use crate::clock::{text_of, DAY, HOUR, MINUTE, SECOND};
use crate::damage::damage_text;
use crate::random::Random;
use crate::register::LAST_STAMP;

/// The parts of a clock text: days, hours, minutes, seconds, thousandths.
const PARTS: u64 = 5;
const DAYS: usize = 0;

/// A stamp of any size, near a multiple of a unit, or where a range ends; sometimes it is too large.
pub fn stamp(random: &mut Random) -> u64 {
    let any = random.next() >> random.below(64);
    let unit = [SECOND, MINUTE, HOUR, DAY][random.below(4) as usize];
    match random.below(8) {
        0 => [0, SECOND - 1, SECOND, DAY - 1, DAY, LAST_STAMP, LAST_STAMP + 1, LAST_STAMP + 2, u64::MAX][random.below(9) as usize],
        1..=3 => (any / unit * unit).saturating_sub(1) + random.below(3),
        _ => any,
    }
}

/// The clock text of a stamp; half of them are changed.
pub fn text(random: &mut Random) -> Vec<u8> {
    let mut text = text_of(stamp(random)).into_bytes();
    if random.one_in(2) {
        change(&mut text, random);
    }
    text
}

/// One change to a clock text: empty, a decimal number, other days, another separator, a byte, or a part.
fn change(text: &mut Vec<u8>, random: &mut Random) {
    match random.below(16) {
        0 => text.clear(),
        1 => *text = stamp(random).to_string().into_bytes(),
        2..=3 => put(DAYS, digits(random), text),
        4..=5 => separate(text, random),
        6..=8 => damage_text(text, random),
        _ => change_part(text, random),
    }
}

/// Where a part of a clock text stands.
fn place(part: usize, text: &[u8]) -> Range<usize> {
    let end = text.len();
    end - [end, 12, 9, 6, 3][part]..end - [13, 10, 7, 4, 0][part]
}

/// Puts other bytes in the place of a part.
fn put(part: usize, new: Vec<u8>, text: &mut Vec<u8>) {
    text.splice(place(part, text), new);
}

/// Up to 40 digits.
fn digits(random: &mut Random) -> Vec<u8> {
    (0..1 + random.below(40)).map(|_| b'0' + random.below(10) as u8).collect()
}

/// Another separator behind the days, the hours, the minutes or the seconds.
fn separate(text: &mut [u8], random: &mut Random) {
    let at = place(random.below(PARTS - 1) as usize, text).end;
    text[at] = b".:;, -/0"[random.below(8) as usize];
}

/// A part past its range, cut short or empty, with a zero before it or a digit behind it, with a sign or a space, twice, or of up to 40 digits.
fn change_part(text: &mut Vec<u8>, random: &mut Random) {
    let part = random.below(PARTS) as usize;
    let old = &text[place(part, text)];
    let new = match random.below(8) {
        0..=1 => [&b"00"[..], b"24", b"60", b"60", b"1000"][part].to_vec(),
        2 => old[..random.below(old.len() as u64) as usize].to_vec(),
        3 => [b"0", old].concat(),
        4 => [old, &[b'0' + random.below(10) as u8]].concat(),
        5 => [&[b"+- "[random.below(3) as usize]], old].concat(),
        6 => [old, &[b":."[random.below(2) as usize]], old].concat(),
        _ => digits(random),
    };
    put(part, new, text);
}
