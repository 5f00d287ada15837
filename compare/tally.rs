//! Counts per class, the first disagreements, and panics of the crate as results.
use std::cell::Cell;
use std::collections::BTreeMap;
use std::panic::{catch_unwind, AssertUnwindSafe};

const SHOWN: u64 = 20;

pub struct Tally {
    pub counts: BTreeMap<String, u64>,
    pub disagreements: u64,
    pub notes: Vec<String>,
}

impl Tally {
    pub fn new() -> Self {
        Tally { counts: BTreeMap::new(), disagreements: 0, notes: Vec::new() }
    }

    pub fn count(&mut self, class: &str) {
        self.add(class, 1);
    }

    pub fn add(&mut self, class: &str, n: u64) {
        match self.counts.get_mut(class) {
            Some(count) => *count += n,
            None => {
                self.counts.insert(class.to_string(), n);
            }
        }
    }

    pub fn disagree(&mut self, what: impl FnOnce() -> String) {
        self.disagreements += 1;
        if self.disagreements <= SHOWN {
            println!("DISAGREEMENT {}: {}", self.disagreements, what());
        }
    }

    pub fn report(&self) {
        for (class, count) in &self.counts {
            println!("{count:>12}  {class}");
        }
        for note in &self.notes {
            println!("{note}");
        }
        println!("{} disagreements", self.disagreements);
    }
}

thread_local! {
    static CAUGHT: Cell<bool> = const { Cell::new(false) };
}

/// Whether a panic now would be the crate's.
pub fn caught() -> bool {
    CAUGHT.with(|flag| flag.get())
}

/// The crate's result, or None if it panics.
pub fn of_crate<T>(call: impl FnOnce() -> T) -> Option<T> {
    CAUGHT.with(|flag| flag.set(true));
    let answer = catch_unwind(AssertUnwindSafe(call)).ok();
    CAUGHT.with(|flag| flag.set(false));
    answer
}

/// Writes a progress line that overwrites itself, a hundred times in a run.
pub fn progress(what: &str, done: u64, all: u64) {
    if done % (all / 100).max(1) == 0 {
        eprint!("\r{what}: {done} of {all} ");
    }
    if done + 1 == all {
        eprintln!("\r{what}: {all} of {all} ");
    }
}
