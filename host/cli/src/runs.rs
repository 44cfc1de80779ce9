//! The disk's sectors, run by run.
use crate::json::Object;
use crate::refused;
use crate::source::Disk;
use shrunvaki::vhdx::{Lookup, Refusal};

/// The sectors that the user asks for; all from the first on where no count is given.
#[derive(Debug, PartialEq, Eq, Clone, Copy)]
pub struct Range {
    pub first: u64,
    pub count: Option<u64>,
}

impl Range {
    /// How many there are to answer for. Past the disk's end it is one without a count, which is refused as a lookup of it is. None
    /// has a number above 2^64 - 1.
    fn length(self, sectors: u64) -> u64 {
        let count = self
            .count
            .unwrap_or(sectors.saturating_sub(self.first).max(1));
        match self.first {
            0 => count,
            first => count.min(u64::MAX - first + 1),
        }
    }
}

/// Sectors with one answer: in the file one behind the other, or all zero, or all in the parent, or all refused.
#[derive(Debug, PartialEq, Eq, Clone, Copy)]
pub struct Run {
    pub first: u64,
    pub count: u64,
    pub answer: Result<Lookup, Refusal>,
}

impl Run {
    /// The fields that say where it is.
    pub fn describe(&self, object: Object) -> Object {
        match self.answer {
            Ok(Lookup::File(offset)) => object.text("where", "file").number("offset", offset),
            Ok(Lookup::Zero) => object.text("where", "zero"),
            Ok(Lookup::Parent) => object.text("where", "parent"),
            Err(refusal) => object
                .text("where", "refused")
                .object("refusal", refused::object(refusal)),
        }
    }
}

/// Asks the library where the sectors are: without a parent once a block, whose sectors then lie one behind the other; with one
/// for every sector.
pub struct Runs<'a> {
    disk: &'a Disk<'a>,
    next: u64,
    left: u64,
}

impl<'a> Runs<'a> {
    pub fn new(disk: &'a Disk<'a>, range: Range) -> Runs<'a> {
        Runs {
            disk,
            next: range.first,
            left: range.length(disk.facts.sectors()),
        }
    }

    /// How many sectors are asked for in all.
    pub fn remaining(&self) -> u64 {
        self.left
    }

    /// So many sectors from the next on have its answer, or lie behind it.
    fn alike(&self) -> u64 {
        let facts = &self.disk.facts;
        match facts.sectors().checked_sub(self.next) {
            // none of these is on the disk
            None | Some(0) => self.left,
            Some(_) if facts.has_parent => 1,
            Some(on_disk) => {
                let block = facts.block_size / facts.logical_sector_size;
                (block - self.next % block).min(on_disk).min(self.left)
            }
        }
    }
}

impl Iterator for Runs<'_> {
    type Item = Run;

    fn next(&mut self) -> Option<Run> {
        if self.left == 0 {
            return None;
        }
        let first = self.next;
        let count = self.alike();
        self.left -= count;
        // the last sector that has a number has none behind it
        self.next = first.wrapping_add(count);
        Some(Run {
            first,
            count,
            answer: self.disk.image.lookup(&self.disk.facts, first),
        })
    }
}

/// Joins runs that continue each other.
pub struct Joined<R> {
    runs: R,
    sector_size: u64,
    held: Option<Run>,
}

impl<R: Iterator<Item = Run>> Joined<R> {
    pub fn new(runs: R, sector_size: u64) -> Joined<R> {
        Joined {
            runs,
            sector_size,
            held: None,
        }
    }
}

/// The second run goes on where the first ends.
fn continues(before: &Run, run: &Run, sector_size: u64) -> bool {
    match (before.answer, run.answer) {
        (Ok(Lookup::File(a)), Ok(Lookup::File(b))) => a + before.count * sector_size == b,
        (a, b) => a == b,
    }
}

impl<R: Iterator<Item = Run>> Iterator for Joined<R> {
    type Item = Run;

    fn next(&mut self) -> Option<Run> {
        let mut run = self.held.take().or_else(|| self.runs.next())?;
        for next in self.runs.by_ref() {
            if !continues(&run, &next, self.sector_size) {
                self.held = Some(next);
                break;
            }
            run.count += next.count;
        }
        Some(run)
    }
}
