//! The counts of one kind of calls.

use compare::answer::FIELDS;
use compare::codes::{END, FRESH, SPENT, STALE};

#[derive(Default)]
pub struct Tally {
    pub calls: u64,
    /// those that its kind counts
    pub counted: u64,
    codes: [u64; END],
    /// the codes of the answers in lists
    listed: [u64; END],
    differences: u64,
}

impl Tally {
    /// One call more, by the plain side's code; the first difference is shown.
    pub fn add(&mut self, code: u64, same: bool, shown: impl FnOnce() -> String) {
        self.calls += 1;
        self.codes[code as usize] += 1;
        if !same {
            if self.differences == 0 {
                println!("{}", shown());
            }
            self.differences += 1;
        }
    }

    /// The codes of the answers that a call has listed, by the plain side's list.
    pub fn list(&mut self, answers: &[u64]) {
        for numbers in answers.chunks(FIELDS) {
            self.listed[numbers[0] as usize] += 1;
        }
    }

    /// How often the code came.
    pub fn came(&self, code: u64) -> u64 {
        self.codes[code as usize]
    }

    /// Prints the line of a call; whether nothing differs and each of the codes has come.
    pub fn sound(&self, name: &str, codes: &[u64]) -> bool {
        let decided: u64 = [FRESH, SPENT, STALE].iter().map(|&code| self.came(code)).sum();
        println!("{name:<20} {:>9} {:>9} {:>12}", self.calls, self.calls - decided, self.differences);
        let missing: Vec<u64> = codes.iter().copied().filter(|&code| self.came(code) == 0).collect();
        if !missing.is_empty() {
            println!("{name}: codes that never came: {missing:?}");
        }
        self.differences == 0 && missing.is_empty()
    }

    /// Prints how often each of the codes came in lists, where there are some; whether each has come.
    pub fn varied(&self, name: &str, codes: &[u64]) -> bool {
        let counts: Vec<String> = codes.iter().map(|&code| format!("{code}: {}", self.listed[code as usize])).collect();
        if !codes.is_empty() {
            println!("{name}: answers listed by code: {}", counts.join(", "));
        }
        codes.iter().all(|&code| self.listed[code as usize] > 0)
    }
}
