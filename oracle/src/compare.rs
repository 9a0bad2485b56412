//! Runs both sides on the same inputs, counts, and makes a failing input small.

use std::fmt::Display;
use std::time::Instant;

/// What both sides are called with.
pub trait Input: Clone + Display {
    /// Inputs that are simpler than this one, so that no chain of them goes on for ever.
    fn simpler(&self) -> Vec<Self>;
}

/// The count of groups whose answers were all equal, and of those with a difference.
pub struct Report {
    passed: u32,
    failed: u32,
    calls: u64,
    began: Instant,
}

impl Report {
    pub fn new() -> Report {
        Report { passed: 0, failed: 0, calls: 0, began: Instant::now() }
    }

    /// Compares what both sides answer on each input, up to the first difference, which is made small and printed.
    /// Returns the number of calls made.
    pub fn group<I: Input, A: PartialEq + Display>(
        &mut self,
        name: &str,
        inputs: impl Iterator<Item = I>,
        ours: impl Fn(&I) -> A,
        theirs: impl Fn(&I) -> A,
    ) -> u64 {
        let mut calls = 0;
        for input in inputs {
            calls += 1;
            if ours(&input) != theirs(&input) {
                let small = smallest(input, |other| ours(other) != theirs(other));
                println!("  DIFFERENT in {name}: {small}");
                println!("    ours {}, the Rust {}", ours(&small), theirs(&small));
                self.count(calls, false);
                return calls;
            }
        }
        self.count(calls, true);
        calls
    }

    /// Counts a group that was compared elsewhere.
    pub fn count(&mut self, calls: u64, equal: bool) {
        self.calls += calls;
        if equal {
            self.passed += 1;
        } else {
            self.failed += 1;
        }
    }

    /// Seconds since the start.
    pub fn seconds(&self) -> f64 {
        self.began.elapsed().as_secs_f64()
    }

    /// Prints the tally as the last line. True where every group passed and there was one.
    pub fn finish(self) -> bool {
        println!("{} calls in {:.1} s", self.calls, self.seconds());
        println!("{} passed, {} failed", self.passed, self.failed);
        self.failed == 0 && self.passed > 0
    }
}

// follows simpler inputs for as long as they fail too
fn smallest<I: Input>(input: I, fails: impl Fn(&I) -> bool) -> I {
    let mut small = input;
    while let Some(next) = small.simpler().into_iter().find(|other| fails(other)) {
        small = next;
    }
    small
}
