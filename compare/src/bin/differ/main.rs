//! Compares the proved library's calls with the plain implementation's, on random input with fixed seeds: sound and malformed tables, sound and
//! damaged files and logs, right and wrong orders and clock texts, room enough and too little.
//! `differ [CALLS]`: so many calls of the entry for C, and a fifth of that of every other call; of the reading and of the writing of files a fifth
//! that pass on files with records of both lengths. An answer has four fields; the lent lists and buffers are compared whole, of refused calls too.
//! Ends with status 1 where something differs, an order is not accepted, or a code that a call can give or list has not come.

mod entry;
mod given;
mod kinds;
mod lent;
mod library;
mod tally;

use std::process::exit;
use std::thread;

use compare::answer::FIELDS;
use compare::codes::FRESH;
use compare::random::Random;

use kinds::{Kind, KINDS};
use lent::Lent;
use tally::Tally;

const CALLS: u64 = 1_000_000;

/// One call on both sides.
fn compare_once(kind: &Kind, random: &mut Random, tally: &mut Tally) {
    let given = (kind.given)(random);
    let lent = Lent::new((kind.needed)(&given), random);
    let (mut ours, mut theirs) = (lent.clone(), lent.clone());
    let said = (kind.library)(&given, &mut ours);
    let expected = (kind.plain)(&given, &mut theirs);
    if expected.code == FRESH {
        tally.list(&theirs.numbers[..given.registers.len() * FIELDS]);
    }
    tally.counted += u64::from(kind.counted.iter().all(|counts| expected.code == FRESH && counts(&given)));
    tally.add(expected.code, said == expected && ours == theirs, || {
        format!("{} differs: {given:?}\nlent {lent:?}\nlibrary {said:?} {ours:?}\nplain   {expected:?} {theirs:?}", kind.name)
    });
}

/// Calls of a kind until so many are counted.
fn compare(kind: &Kind, calls: u64, seed: u64) -> Tally {
    let mut random = Random::new(seed);
    let mut tally = Tally::default();
    while tally.counted < calls {
        compare_once(kind, &mut random, &mut tally);
    }
    tally
}

fn main() {
    let calls = std::env::args().nth(1).map_or(CALLS, |text| text.parse().expect("a number of calls"));
    let (entry, tallies) = thread::scope(|scope| {
        let running: Vec<_> = KINDS.iter().zip(2..).map(|(kind, seed)| scope.spawn(move || compare(kind, calls / 5, seed))).collect();
        let entry = entry::compare(calls);
        (entry, running.into_iter().map(|one| one.join().expect("a kind of calls ends")).collect::<Vec<_>>())
    });
    println!("{:<20} {:>9} {:>9} {:>12}", "call", "calls", "refused", "differences");
    let mut sound = entry.sound();
    for (kind, tally) in KINDS.iter().zip(&tallies) {
        sound &= tally.sound(kind.name, kind.codes);
    }
    entry.print();
    for (kind, tally) in KINDS.iter().zip(&tallies).filter(|(kind, _)| !kind.counted.is_empty()) {
        println!("{}: passed on files with records of both lengths {}", kind.name, tally.counted);
    }
    for (kind, tally) in KINDS.iter().zip(&tallies) {
        sound &= tally.varied(kind.name, kind.listed);
    }
    if !sound {
        exit(1);
    }
}
