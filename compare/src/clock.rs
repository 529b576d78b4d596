//! Stamps as clock time (document 02, W-205): days:hh:mm:ss.mmm, where the stamp is the count of thousandths.

use crate::register::LAST_STAMP;

pub const SECOND: u64 = 1000;
pub const MINUTE: u64 = 60 * SECOND;
pub const HOUR: u64 = 60 * MINUTE;
pub const DAY: u64 = 24 * HOUR;

/// The clock text of a stamp.
pub fn text_of(stamp: u64) -> String {
    let [hours, minutes, seconds] = [stamp / HOUR % 24, stamp / MINUTE % 60, stamp / SECOND % 60];
    format!("{}:{hours:02}:{minutes:02}:{seconds:02}.{:03}", stamp / DAY, stamp % SECOND)
}

/// The number of one or more digits, however many, where it is below the bound.
fn below(bound: u64, digits: &[u8]) -> Option<u64> {
    let mut number = 0;
    for digit in digits {
        if !digit.is_ascii_digit() {
            return None;
        }
        number = 10 * number + u64::from(digit - b'0');
        if number >= bound {
            return None;
        }
    }
    (!digits.is_empty()).then_some(number)
}

/// The days of a stamp, without zeros before them.
fn days_in(digits: &[u8]) -> Option<u64> {
    match digits {
        [b'0', _, ..] => None,
        _ => below(LAST_STAMP / DAY + 1, digits),
    }
}

/// The stamp that a clock text says.
pub fn stamp_in(text: &[u8]) -> Option<u64> {
    let (days, time @ [b':', _, _, b':', _, _, b':', _, _, b'.', _, _, _]) = text.split_last_chunk()? else {
        return None;
    };
    let hours = below(24, &time[1..3])?;
    let minutes = below(60, &time[4..6])?;
    let seconds = below(60, &time[7..9])?;
    let stamp = days_in(days)? * DAY + hours * HOUR + minutes * MINUTE + seconds * SECOND + below(SECOND, &time[10..])?;
    (stamp <= LAST_STAMP).then_some(stamp)
}
