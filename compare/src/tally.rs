//! What was compared, how often, and what differed.
use std::collections::BTreeMap;

#[derive(Default)]
pub struct Tally {
    counts: BTreeMap<(u32, &'static str), u64>,
    refusals: BTreeMap<u64, u64>,
    pub differences: u64,
    /// What of the answers must fail at the next comparison: to see that a difference is seen.
    spoil: Vec<&'static str>,
}

/// The answers of a list, by the first words of what is said of them: a difference can be put into each.
const ANSWERS: [&str; 24] = [
    "install", "hours", "days", "clock", "day of", "record", "short scratch", "closed index", "change", "finish", "blocks", "find", "visited", "touching", "next block", "last block", "cells", "occupation", "file",
    "opened kinds", "kind not opened", "part of", "loaded kind", MIXED,
];

/// A kind mixed up: one find is asked of another kind, and the comparison must see it.
const MIXED: &str = "mixed kinds";

/// How many differences are printed in full.
const SHOWN: u64 = 10;

impl Tally {
    /// Puts a difference into the next comparison of each answer: as many must be seen.
    pub fn spoil(&mut self) -> u64 {
        self.spoil = ANSWERS.to_vec();
        ANSWERS.len() as u64
    }

    /// Whether a kind is to be mixed up now: once, where it makes a difference.
    pub fn mixes(&mut self, differs: impl Fn() -> bool) -> bool {
        let place = self.spoil.iter().position(|&answer| answer == MIXED).filter(|_| differs());
        place.map(|place| self.spoil.remove(place)).is_some()
    }

    /// Whether a comparison is one that must fail.
    fn spoils(&mut self, of: impl Fn() -> String) -> bool {
        if self.spoil.is_empty() {
            return false;
        }
        let text = of();
        let place = self.spoil.iter().position(|answer| text.starts_with(answer));
        place.map(|place| self.spoil.remove(place)).is_some()
    }

    /// Counts something under a line of the table.
    pub fn count(&mut self, line: u32, what: &'static str, by: u64) {
        *self.counts.entry((line, what)).or_default() += by;
    }

    pub fn refused(&mut self, number: u64) {
        *self.refusals.entry(number).or_default() += 1;
    }

    /// The two must be the same: `of` says what they are.
    pub fn same<T: PartialEq + std::fmt::Debug>(&mut self, of: impl Fn() -> String, got: &T, want: &T) {
        if self.spoils(&of) || got != want {
            self.differs(format!("{}\n    port    {got:?}\n    expected {want:?}", of()));
        }
    }

    pub fn differs(&mut self, text: String) {
        self.differences += 1;
        if self.differences <= SHOWN {
            println!("DIFFERENCE {text}");
        }
    }

    pub fn print(&self) {
        for ((_, what), count) in &self.counts {
            println!("{count:>10}  {what}");
        }
        let refusals: Vec<String> = self.refusals.iter().map(|(number, count)| format!("{number}: {count}")).collect();
        println!("            refusals by number: {}", refusals.join(", "));
        println!("{:>10}  differences", self.differences);
    }
}
