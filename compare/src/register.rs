//! The screening of a register's rows, and its operations by start, with doubled ranks for stamps and shortened writes, in clusters.

use crate::codes::{BAD_SPAN, EARLY_READ, ORPHAN_READ, SECOND_OPENING, TWIN_WRITE};
use crate::file::Row;

/// The largest stamp.
pub const LAST_STAMP: u64 = (1 << 62) - 1;

/// An operation: stamps are doubled ranks, and a write ends before its reads do. A write is its own cluster's `write`.
#[derive(Clone, Copy)]
pub struct Op {
    pub start: u64,
    pub finish: u64,
    pub cluster: u32,
    pub row: u32,
    pub write: bool,
}

/// A write, and where its reads lie in `Register::reads`.
#[derive(Clone, Copy)]
pub struct Cluster {
    pub write: u32,
    first: u32,
    end: u32,
}

/// A screened register: operations by start, clusters in no sequence of meaning, each cluster's reads by start.
pub struct Register {
    pub ops: Vec<Op>,
    pub clusters: Vec<Cluster>,
    reads: Vec<u32>,
}

/// A cluster's zone.
#[derive(Clone, Copy)]
pub struct Zone {
    pub low: u64,
    pub high: u64,
    pub forward: bool,
}

impl Register {
    /// The register of these rows, or the code of the first of tests 5, 20 and 7 to 9 whose condition is met.
    pub fn screened(rows: &[Row]) -> Result<Register, u64> {
        tested(rows)?;
        let by_start = sorted(rows.iter().map(|row| lifted(row.start, row)));
        let by_finish = sorted(rows.iter().map(|row| lifted(row.finish, row)));
        let mut ends = vec![0; rows.len()];
        let mut ahead = 0;
        for (&(finish, at), place) in by_finish.iter().zip(0u64..) {
            while ahead < by_start.len() && by_start[ahead].0 <= finish {
                ahead += 1;
            }
            ends[at as usize] = place + ahead as u64;
        }
        let mut ops = Vec::with_capacity(rows.len());
        let mut by_value = Vec::with_capacity(rows.len());
        let mut below = 0;
        for (&(start, at), place) in by_start.iter().zip(0u32..) {
            while below < by_finish.len() && by_finish[below].0 < start {
                below += 1;
            }
            let row = &rows[at as usize];
            let rank = u64::from(place) + below as u64;
            ops.push(Op { start: 2 * rank, finish: 2 * ends[at as usize], cluster: 0, row: row.number, write: row.write() });
            by_value.push((row.value, u32::from(!row.write()) << 31 | place));
        }
        by_value.sort_unstable_by_key(|&(value, key)| u128::from(value) << 64 | u128::from(key));
        let mut register = Register { ops, clusters: Vec::with_capacity(rows.len()), reads: Vec::with_capacity(rows.len()) };
        register.gather(&by_value)?;
        Ok(register)
    }

    /// Fills the clusters from the operations by value, writes before reads, reads by start, and shortens the writes.
    fn gather(&mut self, by_value: &[(u64, u32)]) -> Result<(), u64> {
        let (mut orphan, mut early) = (false, false);
        let mut at = 0;
        while at < by_value.len() {
            let (value, key) = by_value[at];
            at += 1;
            if key >> 31 == 1 {
                orphan = true;
                continue;
            }
            let write = key;
            let cluster = self.clusters.len() as u32;
            let first = self.reads.len() as u32;
            self.ops[write as usize].cluster = cluster;
            let mut finish = self.ops[write as usize].finish;
            while at < by_value.len() && by_value[at].0 == value {
                let key = by_value[at].1;
                if key >> 31 == 0 {
                    return Err(TWIN_WRITE);
                }
                let read = key & !(1 << 31);
                let op = &mut self.ops[read as usize];
                op.cluster = cluster;
                finish = finish.min(op.finish - 1);
                self.reads.push(read);
                at += 1;
            }
            // a read that ends before its write starts has left the write no time
            early |= finish < self.ops[write as usize].start;
            self.ops[write as usize].finish = finish;
            self.clusters.push(Cluster { write, first, end: self.reads.len() as u32 });
        }
        if orphan {
            return Err(ORPHAN_READ);
        }
        if early {
            return Err(EARLY_READ);
        }
        Ok(())
    }

    /// The reads of a cluster, by start.
    pub fn reads(&self, cluster: Cluster) -> &[u32] {
        &self.reads[cluster.first as usize..cluster.end as usize]
    }

    /// The zone of a cluster: the write has its smallest finish, the last read or the write its largest start.
    pub fn zone(&self, cluster: Cluster) -> Zone {
        let write = &self.ops[cluster.write as usize];
        let last = self.reads(cluster).last().map_or(write.start, |&read| self.ops[read as usize].start.max(write.start));
        let forward = write.finish < last;
        Zone { low: write.finish.min(last), high: write.finish.max(last), forward }
    }

    /// The clusters with their zones, by low end.
    pub fn by_low(&self) -> Vec<(Zone, Cluster)> {
        let mut zones: Vec<(Zone, Cluster)> = self.clusters.iter().map(|&cluster| (self.zone(cluster), cluster)).collect();
        zones.sort_unstable_by_key(|(zone, _)| zone.low);
        zones
    }

    /// A write and its reads at the end of an order.
    pub fn push_cluster(&self, cluster: Cluster, order: &mut Vec<u32>) {
        order.push(cluster.write);
        order.extend_from_slice(self.reads(cluster));
    }
}

/// Tests 5 and 20.
fn tested(rows: &[Row]) -> Result<(), u64> {
    let mut openings = 0;
    for row in rows {
        if bad_span(row) {
            return Err(BAD_SPAN);
        }
        openings += u32::from(row.opening());
    }
    if openings > 1 {
        return Err(SECOND_OPENING);
    }
    Ok(())
}

/// Whether a row's start is above its finish, or its finish is too large; an opening has 0 for both.
pub fn bad_span(row: &Row) -> bool {
    row.start > row.finish || row.finish > if row.opening() { 0 } else { LAST_STAMP }
}

/// A row's stamp, one later where the row is no opening, so that the opening lies below rows that start at 0 too.
fn lifted(stamp: u64, row: &Row) -> u64 {
    stamp + u64::from(!row.opening())
}

/// Stamps with their places, rising; equal ones by place.
fn sorted(stamps: impl Iterator<Item = u64>) -> Vec<(u64, u32)> {
    let mut list: Vec<(u64, u32)> = stamps.zip(0..).collect();
    list.sort_by_key(|&(stamp, _)| stamp);
    list
}
