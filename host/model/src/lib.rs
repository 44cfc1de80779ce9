//! VHDX attach, step, close, the log's work in pieces, lookup and parent key in ordinary Rust, written from documents 01 and 02
//! alone: what tests hold the proved library to, and what benchmarks measure it against. It follows the documents' definitions and
//! shares nothing with the library. No input makes it panic.
mod bytes;
mod close;
mod crc;
mod extent;
mod file;
mod geometry;
mod header;
mod identifier;
mod locator;
mod log;
mod lookup;
mod metadata;
mod pieces;
mod regions;
mod sequence;
mod tables;
mod work;

#[cfg(test)]
mod numbers;
#[cfg(test)]
mod testing;

pub use close::{close, close_step, Closed};
pub use crc::crc32c;
pub use extent::Extent;
pub use file::File;
pub use lookup::{lookup, parent_key};
pub use pieces::{listing, End, Pieces, Request};
pub use work::{current_log, plan, plan_of, Plan, Sector};

/// What the tables say of a disk.
#[derive(Debug, PartialEq, Eq, Clone, Copy, Default)]
pub struct Facts {
    pub logical_sector_size: u64,
    pub physical_sector_size: u64,
    pub block_size: u64,
    pub disk_size: u64,
    pub has_parent: bool,
    /// As stored.
    pub disk_id: [u8; 16],
    pub bat: Extent,
    pub metadata: Extent,
    /// 0 and 0 without a parent.
    pub locator: Extent,
}

/// What attach answers: the refusal's number or 0, the length after it, the count of sectors written, and the facts.
#[derive(Debug, PartialEq, Eq, Clone, Copy, Default)]
pub struct Attachment {
    pub refusal: u64,
    pub length: u64,
    pub count: u64,
    pub facts: Facts,
}

/// What a step answers: the refusal's number or 0, and the length after it.
#[derive(Debug, PartialEq, Eq, Clone, Copy, Default)]
pub struct Stepped {
    pub refusal: u64,
    pub length: u64,
}

/// Where a sector of the disk is: in the file at an offset, nowhere since it is zero, or in the parent.
#[derive(Debug, PartialEq, Eq, Clone, Copy)]
pub enum Lookup {
    Refused(u64),
    File(u64),
    Zero,
    Parent,
}

/// Applies the log of the image that is the first `length` bytes of the buffer, then reads its tables.
pub fn attach(buffer: &mut [u8], length: u64) -> Attachment {
    let plan = match plan(buffer, length) {
        Ok(plan) => plan,
        Err(refusal) => {
            return Attachment {
                refusal,
                length,
                ..Attachment::default()
            }
        }
    };
    plan.apply(buffer, length);
    let image = &buffer[..plan.length as usize];
    // "on a refusal every fact is zero"
    let (refusal, facts) = match tables::read(image, plan.log) {
        Ok(facts) => (0, facts),
        Err(refusal) => (refusal, Facts::default()),
    };
    Attachment {
        refusal,
        length: plan.length,
        count: plan.count,
        facts,
    }
}

/// Does step k of the log's work alone: step 0 grows the image, step k from 1 on writes sector k.
pub fn step(buffer: &mut [u8], length: u64, k: u64) -> Stepped {
    match plan(buffer, length) {
        Ok(plan) => plan.step(buffer, length, k),
        Err(refusal) => Stepped { refusal, length },
    }
}
