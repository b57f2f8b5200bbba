//! Counts comparisons, and prints those that differ.

use std::collections::BTreeMap;
use std::fmt::Debug;

/// More differences than these are counted and not printed.
const PRINTED: u64 = 20;

#[derive(Default)]
pub struct Findings {
    /// For each thing compared: how often the reference answered with something (or yes), how often with nothing (or no).
    counts: BTreeMap<&'static str, [u64; 2]>,
    differ: u64,
}

impl Findings {
    /// One comparison where there may be no answer: of what, the reference's and the port's answer, and the input to
    /// print where they differ.
    pub fn compare<T: PartialEq + Debug>(
        &mut self,
        what: &'static str,
        rust: Option<T>,
        port: Option<T>,
        input: impl FnOnce() -> String,
    ) {
        self.note(what, rust.is_some(), &rust, &port, input);
    }

    /// The same of a test.
    pub fn compare_test(&mut self, what: &'static str, rust: bool, port: bool, input: impl FnOnce() -> String) {
        self.note(what, rust, &rust, &port, input);
    }

    fn note<T: PartialEq + Debug>(
        &mut self,
        what: &'static str,
        something: bool,
        rust: &T,
        port: &T,
        input: impl FnOnce() -> String,
    ) {
        self.counts.entry(what).or_default()[usize::from(!something)] += 1;
        if rust == port {
            return;
        }
        self.differ += 1;
        if self.differ <= PRINTED {
            println!("differs: {what} of {}\n  the Rust: {rust:?}\n  the port: {port:?}", input());
        }
    }

    pub fn print(&self) {
        println!("{:<24}{:>12}{:>12}", "the Rust has", "something", "nothing");
        for (what, [some, none]) in &self.counts {
            println!("{what:<24}{some:>12}{none:>12}");
        }
        let total: u64 = self.counts.values().flatten().sum();
        println!("{total} comparisons, {} differ", self.differ);
    }

    pub fn status(&self) -> i32 {
        i32::from(self.differ > 0)
    }
}

/// Bytes in hex, for a printed input.
pub fn hex(bytes: &[u8]) -> String {
    bytes.iter().map(|b| format!("{b:02X}")).collect::<Vec<_>>().join(" ")
}
