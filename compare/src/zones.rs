//! The list of a register's zones, and the zone method: 1-atomic when no two forward zones overlap and no backward zone lies inside a forward one.

use crate::answer::Answer;
use crate::register::{Cluster, Register};
use crate::screening::screened;
use crate::table::{self, COLUMNS};
use crate::Found;

/// The numbers of a listed zone: the write's row, the direction, the low stamp and the high one.
pub const NUMBERS: usize = 4;
const FORWARD: u64 = 1;
const BACKWARD: u64 = 2;

/// The zones of a table's register by low end, and the count of its rows; or the first test of the screening whose condition is met.
pub fn listed(table: &[u64], register: u64) -> Result<(Vec<[u64; NUMBERS]>, usize), Answer> {
    let rows = table::rows_of(table, register, true)?;
    let register = screened(&rows)?;
    let zones = register.by_low().into_iter().map(|(zone, cluster)| {
        let (finish, start) = recorded(&register, cluster, table);
        let row = u64::from(register.ops[cluster.write as usize].row);
        if zone.forward {
            [row, FORWARD, finish, start]
        } else {
            [row, BACKWARD, start, finish]
        }
    });
    Ok((zones.collect(), rows.len()))
}

/// The smallest finish and the largest start that the table has for a write and its reads.
fn recorded(register: &Register, cluster: Cluster, table: &[u64]) -> (u64, u64) {
    let (mut finish, mut start) = (u64::MAX, 0);
    for &op in [cluster.write].iter().chain(register.reads(cluster)) {
        let cells = &table[register.ops[op as usize].row as usize * COLUMNS..][..COLUMNS];
        start = start.max(cells[3]);
        finish = finish.min(cells[4]);
    }
    (finish, start)
}

/// An order that is 1-atomic, by low end.
pub fn search(register: &Register) -> Found {
    let zones = register.by_low();
    let mut reached = 0;
    for (zone, _) in &zones {
        let ends = if zone.forward { zone.low } else { zone.high };
        if ends < reached {
            return Found::Nothing;
        }
        if zone.forward {
            reached = zone.high;
        }
    }
    let mut order = Vec::with_capacity(register.ops.len());
    for &(_, cluster) in &zones {
        register.push_cluster(cluster, &mut order);
    }
    Found::Order(order)
}
