//! Log sequences, and which of them is active: every list that could be one is tried.
use crate::log::{Entry, Log};
use std::num::NonZeroU64;

/// A log sequence: its first entry's place, its head's number, and how many entries it has.
#[derive(Clone, Copy)]
struct Sequence {
    first: usize,
    head_number: NonZeroU64,
    entries: usize,
}

/// The entries of the active sequence, from the first to the head. "The greatest head number; of equals, the lowest first offset."
pub fn active(log: &Log) -> Option<Vec<Entry>> {
    let valid: Vec<Option<Entry>> = (0..log.sectors()).map(|at| log.entry(at)).collect();
    let mut best: Option<Sequence> = None;
    for first in 0..log.sectors() {
        // a sequence from here with a greater number stands behind those with a lower one
        if let Some(found) = longest(log, &valid, first) {
            if best.is_none_or(|b| found.head_number > b.head_number) {
                best = Some(found);
            }
        }
    }
    best.map(|sequence| {
        chain(log, &valid, sequence.first)
            .take(sequence.entries)
            .collect()
    })
}

/// Of the sequences that start at a place the one with the most entries, and so with the greatest head number: "the first at the
/// last one's Tail".
fn longest(log: &Log, valid: &[Option<Entry>], first: usize) -> Option<Sequence> {
    let mut found = None;
    for (i, last) in chain(log, valid, first).enumerate() {
        if last.tail() == first {
            found = Some(Sequence {
                first,
                head_number: last.number,
                entries: i + 1,
            });
        }
    }
    found
}

/// Valid entries from a place on, "each starting where the one before ended, numbers rising by one without wrap, total length at
/// most the log's".
fn chain<'a>(
    log: &'a Log,
    valid: &'a [Option<Entry>],
    first: usize,
) -> impl Iterator<Item = Entry> + 'a {
    let mut total = 0;
    let mut next = valid[first];
    std::iter::from_fn(move || {
        let entry = next?;
        total += entry.sectors();
        if total > log.sectors() {
            return None;
        }
        next = valid[log.advance(entry.start(), entry.sectors())]
            .filter(|e| entry.number.checked_add(1) == Some(e.number));
        Some(entry)
    })
}
