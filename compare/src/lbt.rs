//! LBT (figure 2 of the paper): epochs from the back, candidates by falling finish, trials counted.

use crate::register::Register;
use crate::Found;

const NONE: u32 = u32::MAX;

/// A doubly linked list over positions; the last entry is the ring's head.
struct Ring {
    next: Vec<u32>,
    prev: Vec<u32>,
}

impl Ring {
    fn new(size: usize, members: impl Iterator<Item = u32>) -> Ring {
        let head = size as u32;
        let mut ring = Ring { next: vec![head; size + 1], prev: vec![head; size + 1] };
        let mut last = head;
        for member in members {
            ring.next[last as usize] = member;
            ring.prev[member as usize] = last;
            last = member;
        }
        ring.next[last as usize] = head;
        ring.prev[head as usize] = last;
        ring
    }

    fn head(&self) -> u32 {
        (self.next.len() - 1) as u32
    }

    fn remove(&mut self, at: u32) {
        let (prev, next) = (self.prev[at as usize], self.next[at as usize]);
        self.next[prev as usize] = next;
        self.prev[next as usize] = prev;
    }

    /// Undoes the latest removal that is not undone.
    fn restore(&mut self, at: u32) {
        let (prev, next) = (self.prev[at as usize], self.next[at as usize]);
        self.next[prev as usize] = at;
        self.prev[next as usize] = at;
    }
}

/// What is left of the history, by start; its writes by falling finish; and what is placed, the latest first.
struct Walk<'a> {
    register: &'a Register,
    history: Ring,
    writes: Ring,
    taken: Vec<bool>,
    placed: Vec<u32>,
}

impl Walk<'_> {
    fn new(register: &Register) -> Walk<'_> {
        let ops = &register.ops;
        let mut writes: Vec<(u64, u32)> = register.clusters.iter().map(|cluster| (ops[cluster.write as usize].finish, cluster.write)).collect();
        writes.sort_unstable();
        Walk {
            register,
            history: Ring::new(ops.len(), 0..ops.len() as u32),
            writes: Ring::new(ops.len(), writes.iter().rev().map(|&(_, write)| write)),
            taken: vec![false; ops.len()],
            placed: Vec::with_capacity(ops.len()),
        }
    }

    fn take(&mut self, at: u32) {
        self.history.remove(at);
        if self.register.ops[at as usize].write {
            self.writes.remove(at);
        }
        self.taken[at as usize] = true;
        self.placed.push(at);
    }

    /// Back to when `count` operations were placed.
    fn revert(&mut self, count: usize) {
        while self.placed.len() > count {
            let at = self.placed.pop().expect("more than count are placed");
            self.history.restore(at);
            if self.register.ops[at as usize].write {
                self.writes.restore(at);
            }
            self.taken[at as usize] = false;
        }
    }

    /// Places a write behind which the later operations go, and tells whether that can be, and the write that must be before it or none.
    fn place(&mut self, write: u32) -> Result<u32, ()> {
        let register = self.register;
        let finish = register.ops[write as usize].finish;
        let head = self.history.head();
        let mut before = NONE;
        loop {
            let last = self.history.prev[head as usize];
            if last == head || register.ops[last as usize].start <= finish {
                break;
            }
            let op = register.ops[last as usize];
            if op.write {
                return Err(());
            }
            let wrote = register.clusters[op.cluster as usize].write;
            if wrote != write && wrote != before {
                if before != NONE {
                    return Err(());
                }
                before = wrote;
            }
            self.take(last);
        }
        let cluster = register.clusters[register.ops[write as usize].cluster as usize];
        for &read in register.reads(cluster).iter().rev() {
            if !self.taken[read as usize] {
                self.take(read);
            }
        }
        self.take(write);
        Ok(before)
    }

    /// The epoch of a candidate: whether it ends well. If not, nothing is changed.
    fn epoch(&mut self, candidate: u32) -> bool {
        let count = self.placed.len();
        let mut write = candidate;
        loop {
            match self.place(write) {
                Err(()) => {
                    self.revert(count);
                    return false;
                }
                Ok(NONE) => return true,
                Ok(before) => write = before,
            }
        }
    }
}

/// A 2-atomic order by LBT, with so many trials allowed, and the count of the trials made.
pub fn search(register: &Register, allowance: u64) -> (Found, u64) {
    let mut walk = Walk::new(register);
    let mut trials = 0;
    // the remaining write that starts last is at or below this position
    let mut latest = register.ops.len();
    while walk.placed.len() < register.ops.len() {
        while walk.taken[latest - 1] || !register.ops[latest - 1].write {
            latest -= 1;
        }
        let starts = register.ops[latest - 1].start;
        let head = walk.writes.head();
        let mut candidate = walk.writes.next[head as usize];
        loop {
            if candidate == head || register.ops[candidate as usize].finish < starts {
                return (Found::Nothing, trials);
            }
            if trials == allowance {
                return (Found::Spent, trials);
            }
            trials += 1;
            if walk.epoch(candidate) {
                break;
            }
            candidate = walk.writes.next[candidate as usize];
        }
    }
    walk.placed.reverse();
    (Found::Order(walk.placed), trials)
}
