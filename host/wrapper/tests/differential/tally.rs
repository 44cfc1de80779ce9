//! How often each answer was given: a test that reaches few of them compares little.
use shrunvaki_testkit::vhdx::{Extent, Lookup};
use std::ops::RangeInclusive;

#[derive(Default)]
pub struct Tally {
    pub files: u64,
    /// By the refusal's number; 0 is none.
    answers: [u64; 24],
    found: Found,
}

/// What lookups and parent keys found.
#[derive(Debug, Default, PartialEq)]
struct Found {
    file: u64,
    zero: u64,
    parent: u64,
    value: u64,
}

impl Tally {
    /// An answer of attach, close or a step.
    pub fn add(&mut self, refusal: u64) {
        self.answers[refusal as usize] += 1;
    }

    pub fn add_place(&mut self, answer: Lookup) {
        let found = match answer {
            Lookup::Refused(number) => return self.add(number),
            Lookup::File(_) => &mut self.found.file,
            Lookup::Zero => &mut self.found.zero,
            Lookup::Parent => &mut self.found.parent,
        };
        *found += 1;
        self.add(0);
    }

    pub fn add_value(&mut self, value: Extent) {
        self.found.value += u64::from(value.length != 0);
    }

    /// Prints the distribution of the answers.
    pub fn print(&self, name: &str) {
        let sum: u64 = self.answers.iter().sum();
        let reached: Vec<String> = (0..)
            .zip(self.answers)
            .filter(|(_, times)| *times != 0)
            .map(|(number, times)| format!("{number}: {times}"))
            .collect();
        println!("{name}: {} files, {sum} answers", self.files);
        println!("  {}", reached.join(", "));
        if self.found != Found::default() {
            println!("  {:?}", self.found);
        }
    }

    /// That each of these numbers was answered so many times.
    #[track_caller]
    pub fn assert_reached(&self, numbers: RangeInclusive<usize>, times: u64) {
        for number in numbers {
            let reached = self.answers[number];
            assert!(reached >= times, "{number}: {reached} times, not {times}");
        }
    }

    /// That sectors in the file, zero and of the parent, and values of keys, were each found so many times.
    #[track_caller]
    pub fn assert_found(&self, times: u64) {
        let Found {
            file,
            zero,
            parent,
            value,
        } = self.found;
        let least = file.min(zero).min(parent).min(value);
        assert!(least >= times, "{:?}, not {times}", self.found);
    }
}
