//! FZF (figure 4 of the paper): chunks of forward zones with the backward zones inside, each with the first of the listed orders that is viable.

use crate::register::{Cluster, Register, Zone};
use crate::Found;

const NONE: u32 = u32::MAX;

/// A run of overlapping forward zones: how far it reaches, and its operations, `from..to` of a list of all chunks' operations.
#[derive(Clone, Copy)]
struct Run {
    reach: u64,
    from: u32,
    to: u32,
}

/// The runs, and for each cluster by low end the run that it belongs to, or none where it dangles.
fn runs(zones: &[(Zone, Cluster)]) -> (Vec<Run>, Vec<u32>) {
    let mut runs: Vec<Run> = Vec::new();
    let mut of = Vec::with_capacity(zones.len());
    for (zone, _) in zones {
        if zone.forward {
            match runs.last_mut() {
                Some(run) if zone.low < run.reach => run.reach = run.reach.max(zone.high),
                _ => runs.push(Run { reach: zone.high, from: 0, to: 0 }),
            }
        }
        of.push((runs.len() as u32).wrapping_sub(1));
    }
    for ((zone, _), run) in zones.iter().zip(&mut of) {
        if !zone.forward && *run != NONE && runs[*run as usize].reach < zone.high {
            *run = NONE;
        }
    }
    (runs, of)
}

/// The operations of the runs' chunks, run by run, each by start.
fn operations(register: &Register, zones: &[(Zone, Cluster)], runs: &mut [Run], of: &[u32]) -> Vec<u32> {
    let mut run_of = vec![NONE; register.clusters.len()];
    for ((_, cluster), &run) in zones.iter().zip(of) {
        run_of[register.ops[cluster.write as usize].cluster as usize] = run;
        if run != NONE {
            runs[run as usize].to += 1 + register.reads(*cluster).len() as u32;
        }
    }
    let mut total = 0;
    for run in runs.iter_mut() {
        let size = run.to;
        (run.from, run.to) = (total, total);
        total += size;
    }
    let mut list = vec![0; total as usize];
    for (op, place) in register.ops.iter().zip(0u32..) {
        let run = run_of[op.cluster as usize];
        if run != NONE {
            let run = &mut runs[run as usize];
            list[run.to as usize] = place;
            run.to += 1;
        }
    }
    list
}

/// The search in a chunk; its buffers serve all chunks.
struct Chunk<'a> {
    register: &'a Register,
    /// the writes of forward and of backward zones, by low end
    forward: Vec<u32>,
    backward: Vec<u32>,
    writes: Vec<u32>,
    taken: Vec<bool>,
    /// the order found, from its end
    placed: Vec<u32>,
}

impl Chunk<'_> {
    /// The listed orders, in sequence: whether the writes swap first, which backward write goes in front, which behind.
    fn listed(&self) -> &'static [(bool, usize, usize)] {
        const NO: usize = usize::MAX;
        match self.backward.len() {
            0 => &[(false, NO, NO), (true, NO, NO)],
            1 => &[(false, 0, NO), (false, NO, 0), (true, 0, NO), (true, NO, 0)],
            2 => &[(false, 0, 1), (false, 1, 0), (true, 0, 1), (true, 1, 0)],
            _ => &[],
        }
    }

    /// Whether a listed order is viable; the chunk's order is then in `placed`.
    fn search(&mut self, operations: &[u32]) -> bool {
        for &(swap, front, behind) in self.listed() {
            self.writes.clear();
            self.writes.extend(self.backward.get(front));
            let first = self.writes.len();
            self.writes.extend_from_slice(&self.forward);
            if swap && self.forward.len() > 1 {
                self.writes.swap(first, first + 1);
            }
            self.writes.extend(self.backward.get(behind));
            if self.viable(operations) {
                return true;
            }
        }
        false
    }

    fn viable(&mut self, operations: &[u32]) -> bool {
        let register = self.register;
        self.placed.clear();
        for &op in operations {
            self.taken[op as usize] = false;
        }
        let mut left = operations.len();
        for at in (0..self.writes.len()).rev() {
            let write = self.writes[at];
            let before = if at == 0 { write } else { self.writes[at - 1] };
            let finish = register.ops[write as usize].finish;
            while left > 0 {
                let last = operations[left - 1];
                if !self.taken[last as usize] {
                    let op = &register.ops[last as usize];
                    if op.start <= finish {
                        break;
                    }
                    let wrote = register.clusters[op.cluster as usize].write;
                    if op.write || wrote != write && wrote != before {
                        return false;
                    }
                    self.take(last);
                }
                left -= 1;
            }
            for &read in register.reads(register.clusters[register.ops[write as usize].cluster as usize]).iter().rev() {
                if !self.taken[read as usize] {
                    self.take(read);
                }
            }
            self.take(write);
        }
        true
    }

    fn take(&mut self, op: u32) {
        self.taken[op as usize] = true;
        self.placed.push(op);
    }
}

/// A 2-atomic order by FZF.
pub fn search(register: &Register) -> Found {
    let zones = register.by_low();
    let (mut runs, of) = runs(&zones);
    let operations = operations(register, &zones, &mut runs, &of);
    let mut chunk = Chunk {
        register,
        forward: Vec::with_capacity(zones.len()),
        backward: Vec::with_capacity(zones.len()),
        writes: Vec::with_capacity(zones.len()),
        taken: vec![false; register.ops.len()],
        placed: Vec::with_capacity(operations.len()),
    };
    let mut order = Vec::with_capacity(register.ops.len());
    // chunks begin with their forward zone of lowest low end; a cluster that dangles may lie between the zones of a chunk
    let mut waiting: Vec<Cluster> = Vec::with_capacity(zones.len());
    let mut at = 0;
    while at < zones.len() {
        let run = of[at];
        if run == NONE {
            register.push_cluster(zones[at].1, &mut order);
            at += 1;
            continue;
        }
        chunk.forward.clear();
        chunk.backward.clear();
        waiting.clear();
        while at < zones.len() && (of[at] == run || of[at] == NONE) {
            let (zone, cluster) = zones[at];
            match (of[at] == run, zone.forward) {
                (true, true) => chunk.forward.push(cluster.write),
                (true, false) => chunk.backward.push(cluster.write),
                (false, _) => waiting.push(cluster),
            }
            at += 1;
        }
        let run = runs[run as usize];
        if !chunk.search(&operations[run.from as usize..run.to as usize]) {
            return Found::Nothing;
        }
        order.extend(chunk.placed.iter().rev());
        for &cluster in &waiting {
            register.push_cluster(cluster, &mut order);
        }
    }
    Found::Order(order)
}
