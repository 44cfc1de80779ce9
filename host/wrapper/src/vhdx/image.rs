//! An image in a buffer, and the calls on it.
use super::{raw, Facts, Refusal};
use crate::mapping::{open_regular, Mapping, MappingMut};
use std::fs::{File, OpenOptions};
use std::io;
use std::path::Path;

/// The first bytes of a buffer, taken for a VHDX file. They may be anything.
///
/// The buffer is a slice, a vector or a [`crate::mapping`], lent or owned. Attach, close and their steps need one that can be
/// written.
#[derive(Debug)]
pub struct Image<B> {
    buffer: B,
    length: u64,
}

/// What attach answers.
#[derive(Debug, PartialEq, Eq, Clone, Copy)]
pub struct Attachment {
    /// Of the image after the call.
    pub length: u64,
    /// How many sectors the log wrote; one that it names twice counts twice.
    pub count: u64,
    /// Refusals 1 to 8 change nothing. After 9 to 15 the log is applied, and length and count say so.
    pub facts: Result<Facts, Refusal>,
}

/// What attach would do.
#[derive(Debug, PartialEq, Eq, Clone, Copy)]
pub struct Plan {
    /// Of the image afterwards: attach grows it to this length first.
    pub length: u64,
    /// How many sectors attach would write; one that the log names twice counts twice.
    pub count: u64,
}

/// What closing the log answers.
#[derive(Debug, PartialEq, Eq, Clone, Copy)]
pub struct Closed {
    /// Of the image after the call.
    pub length: u64,
    /// How many sectors the log wrote; one that it names twice counts twice, the header not at all.
    pub count: u64,
}

/// Where the bytes of a sector are.
#[derive(Debug, PartialEq, Eq, Clone, Copy)]
pub enum Lookup {
    /// In the file, from this offset on.
    File(u64),
    /// Nowhere: they are zero.
    Zero,
    /// In the parent disk.
    Parent,
}

/// An answer that the library's contracts exclude.
pub(super) const NO_ANSWER: &str = "the library's answer is none that its contract allows";

impl<B: AsRef<[u8]>> Image<B> {
    /// The buffer's first `length` bytes. Any length may be given; one above the buffer's is refused by every call.
    pub fn new(buffer: B, length: u64) -> Image<B> {
        Image { buffer, length }
    }

    /// In bytes. Attach, close and step 0 may raise it.
    pub fn length(&self) -> u64 {
        self.length
    }

    /// The buffer's length: what the log may grow the image to.
    pub fn capacity(&self) -> u64 {
        self.buffer.as_ref().len() as u64
    }

    /// The image's bytes, as far as the buffer has them.
    pub fn bytes(&self) -> &[u8] {
        let buffer = self.buffer.as_ref();
        let end = usize::try_from(self.length).unwrap_or(usize::MAX);
        &buffer[..end.min(buffer.len())]
    }

    /// The buffer.
    pub fn buffer(&self) -> &B {
        &self.buffer
    }

    /// The buffer again.
    pub fn into_buffer(self) -> B {
        self.buffer
    }

    /// What attach would do, or which of refusals 1 to 8 it would answer. Takes time for the log as it is, not for what it asks
    /// for: a short log may name more sectors than anybody wants written.
    pub fn plan(&self) -> Result<Plan, Refusal> {
        let (refusal, [_, length, count, _]) = raw::plan(self.buffer.as_ref(), self.length);
        match refusal {
            0 => Ok(Plan { length, count }),
            number => Err(Refusal::new(number).expect(NO_ANSWER)),
        }
    }

    /// Where a sector of the disk is.
    pub fn lookup(&self, facts: &Facts, sector: u64) -> Result<Lookup, Refusal> {
        let (_, answer) = raw::lookup(&facts.slots(), self.buffer.as_ref(), self.length, sector);
        match answer {
            [1, offset] => Ok(Lookup::File(offset)),
            [2, _] => Ok(Lookup::Zero),
            [3, _] => Ok(Lookup::Parent),
            [_, number] => Err(Refusal::new(number).expect(NO_ANSWER)),
        }
    }

    /// The value under a key of the parent locator, both UCS-2, little-endian ([`super::to_ucs2`]). Empty where the facts do not
    /// fit the image, there is no parent, the locator breaks its rule, or no entry has the key.
    pub fn parent_key(&self, facts: &Facts, key: &[u8]) -> &[u8] {
        let buffer = self.buffer.as_ref();
        let [offset, length] = raw::parent_key(&facts.slots(), buffer, self.length, key);
        &buffer[offset as usize..][..length as usize]
    }
}

impl<B: AsRef<[u8]> + AsMut<[u8]>> Image<B> {
    /// Applies the log, then reads the tables.
    ///
    /// The log stays in the image: attaching again does the same work and gives the same. After calls that were interrupted
    /// anywhere, or ended by a power failure, one attach makes the image what an undisturbed one would have made it: at the length
    /// that the file then has, in any buffer that holds the answered length.
    pub fn attach(&mut self) -> Attachment {
        let (refusal, slots) = raw::attach(self.buffer.as_mut(), self.length);
        self.length = slots[1];
        Attachment {
            length: slots[1],
            count: slots[2],
            facts: match refusal {
                0 => Ok(Facts::from_slots(&slots)),
                number => Err(Refusal::new(number).expect(NO_ANSWER)),
            },
        }
    }

    /// Does one step of the log's work alone: 0 grows the image, k writes the log's k-th sector. Answers the length after it.
    pub fn step(&mut self, k: u64) -> Result<u64, Refusal> {
        let (refusal, [_, length]) = raw::step(self.buffer.as_mut(), self.length, k);
        self.stepped(refusal, length)
    }

    /// Closes the log for good: applies it as attach does, then rewrites the header that is not current, so that no log is pending
    /// any more. The new header has this file-write identifier, any 16 bytes. Changes nothing where no log is pending, and where
    /// the call refuses, by 1 to 8 or 23.
    ///
    /// After calls that were interrupted anywhere, one close with the same identifier makes the image what an undisturbed one would
    /// have made it. With another identifier the first stays where its header was written already.
    ///
    /// The header must not reach the disk before the sectors, or a power failure may lose the log. So where the buffer is written
    /// through to a file, as [`MappingMut::shared`] is, do the steps and flush before the last.
    pub fn close(&mut self, identifier: &[u8; 16]) -> Result<Closed, Refusal> {
        let (refusal, [_, length, count]) =
            raw::close(self.buffer.as_mut(), self.length, identifier);
        self.length = length;
        match refusal {
            0 => Ok(Closed { length, count }),
            number => Err(Refusal::new(number).expect(NO_ANSWER)),
        }
    }

    /// Does one step of closing alone: those of the log's work, then the header's, which is step `count` + 1. Answers the length
    /// after it. They are to be done in order, from 0 again after an interruption or a power failure: a header before its sectors
    /// loses the log.
    pub fn close_step(&mut self, identifier: &[u8; 16], k: u64) -> Result<u64, Refusal> {
        let (refusal, [_, length]) =
            raw::close_step(self.buffer.as_mut(), self.length, identifier, k);
        self.stepped(refusal, length)
    }

    fn stepped(&mut self, refusal: u64, length: u64) -> Result<u64, Refusal> {
        self.length = length;
        match refusal {
            0 => Ok(length),
            number => Err(Refusal::new(number).expect(NO_ANSWER)),
        }
    }
}

impl Image<Mapping> {
    /// A file, to be read: it can be planned, not attached. `growth`: so many bytes more than the file has the buffer.
    ///
    /// # Safety
    ///
    /// While the image lives, nobody writes to the file or makes it shorter ([`crate::mapping`] says why).
    pub unsafe fn open_read_only(path: impl AsRef<Path>, growth: u64) -> io::Result<Self> {
        let (file, length) = opened(path)?;
        let buffer = Mapping::read_only(&file, length, length.saturating_add(growth))?;
        Ok(Image { buffer, length })
    }
}

impl Image<MappingMut> {
    /// A file, changed in memory alone. `growth`: so many bytes its log may add.
    ///
    /// # Safety
    ///
    /// While the image lives, nobody writes to the file or makes it shorter ([`crate::mapping`] says why).
    pub unsafe fn open(path: impl AsRef<Path>, growth: u64) -> io::Result<Self> {
        let (file, length) = opened(path)?;
        let buffer = MappingMut::private(&file, length, length.saturating_add(growth))?;
        Ok(Image { buffer, length })
    }
}

fn opened(path: impl AsRef<Path>) -> io::Result<(File, u64)> {
    let file = open_regular(path, OpenOptions::new().read(true))?;
    let length = file.metadata()?.len();
    Ok((file, length))
}
