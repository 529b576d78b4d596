//! The order check, and a trial of all orders, both in the plainest way.

use crate::codes::{MISFIT_LIST, OUT_OF_TIME, TOO_FAR_BEHIND};
use crate::file::Row;

/// The code and the list position of the first of tests 13 to 15 whose condition is met. The rows' numbers rise.
pub fn fault(rows: &[Row], list: &[u64], k: u64) -> Option<(u64, usize)> {
    let listed = match listed(rows, list) {
        Ok(listed) => listed,
        Err(at) => return Some((MISFIT_LIST, at)),
    };
    let late = late(&listed).map(|at| (OUT_OF_TIME, at));
    late.or_else(|| far(&listed, k).map(|at| (TOO_FAR_BEHIND, at)))
}

/// Whether the list has each row once, keeps precedence, and has each read follow its write within k.
pub fn accepted(rows: &[Row], list: &[u64], k: u64) -> bool {
    fault(rows, list, k).is_none()
}

/// The rows by the list; or the position that holds none of them or repeats one, or the list's length where rows are missing.
fn listed<'a>(rows: &'a [Row], list: &[u64]) -> Result<Vec<&'a Row>, usize> {
    let mut seen = vec![false; rows.len()];
    let mut listed = Vec::with_capacity(rows.len());
    for (at, &number) in list.iter().enumerate() {
        match rows.binary_search_by_key(&number, |row| u64::from(row.number)) {
            Ok(place) if !seen[place] => {
                seen[place] = true;
                listed.push(&rows[place]);
            }
            _ => return Err(at),
        }
    }
    if listed.len() < rows.len() {
        return Err(list.len());
    }
    Ok(listed)
}

/// The first that precedes one listed earlier; an opening precedes every other.
fn late(listed: &[&Row]) -> Option<usize> {
    let mut latest = 0;
    (0..listed.len()).position(|at| {
        let row = listed[at];
        latest = latest.max(row.start);
        row.finish < latest || row.opening() && at > 0
    })
}

/// The first read that does not follow its dictating write with at most k - 1 other writes between.
fn far(listed: &[&Row], k: u64) -> Option<usize> {
    (0..listed.len()).position(|at| {
        let mut behind = listed[..at].iter().rev().filter(|row| row.write()).take(k as usize);
        !listed[at].write() && behind.all(|row| row.value != listed[at].value)
    })
}

/// Whether some order of the rows is accepted.
pub fn some_order(rows: &[Row], k: u64) -> bool {
    let mut order: Vec<u64> = rows.iter().map(|row| u64::from(row.number)).collect();
    let size = order.len();
    permute(rows, &mut order, size, k)
}

fn permute(rows: &[Row], order: &mut [u64], open: usize, k: u64) -> bool {
    if open <= 1 {
        return accepted(rows, order, k);
    }
    for at in 0..open {
        order.swap(at, open - 1);
        let found = permute(rows, order, open - 1, k);
        order.swap(at, open - 1);
        if found {
            return true;
        }
    }
    false
}
