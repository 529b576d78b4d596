//! What is lent to a call: a list or a buffer of its exact size, filled at random, so that what the call leaves alone is seen.

use compare::random::Random;

#[derive(Clone, Debug, Default, PartialEq)]
pub struct Lent {
    pub numbers: Box<[u64]>,
    pub bytes: Box<[u8]>,
}

/// So much as the result takes, in numbers or in bytes; some calls lend nothing.
pub enum Needed {
    Nothing,
    Numbers(usize),
    Bytes(usize),
}

/// Exactly enough, one too few, fewer, or more; now and then far more.
fn room(needed: usize, random: &mut Random) -> usize {
    match random.below(80) {
        0..=29 => needed,
        30..=39 => needed.saturating_sub(1),
        40..=49 => random.below(needed as u64 + 1) as usize,
        50 => needed + random.below(5000) as usize,
        _ => needed + random.below(20) as usize,
    }
}

impl Lent {
    pub fn new(needed: Needed, random: &mut Random) -> Lent {
        match needed {
            Needed::Nothing => Lent::default(),
            Needed::Numbers(needed) => Lent { numbers: (0..room(needed, random)).map(|_| random.next()).collect(), ..Lent::default() },
            Needed::Bytes(needed) => Lent { bytes: (0..room(needed, random)).map(|_| random.next() as u8).collect(), ..Lent::default() },
        }
    }
}
