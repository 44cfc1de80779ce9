//! The bytes of a source that were read last. The machine asks for one sector, and mostly for the next one then: a long stretch is
//! read ahead, in few calls.
use super::pieces::LONGEST_PIECE;
use std::io::{self, ErrorKind, Read, Seek, SeekFrom};

/// The first `count` bytes are the source's from `offset` on.
pub struct Window {
    /// Of the source. Nothing behind it is read.
    length: u64,
    offset: u64,
    count: usize,
    bytes: Box<[u8; LONGEST_PIECE]>,
}

impl Window {
    pub fn new(length: u64) -> Window {
        Window {
            length,
            offset: 0,
            count: 0,
            bytes: Box::new([0; LONGEST_PIECE]),
        }
    }

    /// Fills a piece with the source's bytes from an offset on, none of them past its length. Reads where they are not all here.
    pub fn fill(
        &mut self,
        piece: &mut [u8],
        source: &mut (impl Read + Seek),
        offset: u64,
    ) -> io::Result<()> {
        if offset < self.offset || self.end() < offset + piece.len() as u64 {
            self.move_to(source, offset, piece.len())?;
        }
        let start = (offset - self.offset) as usize;
        piece.copy_from_slice(&self.bytes[start..][..piece.len()]);
        Ok(())
    }

    fn end(&self) -> u64 {
        self.offset + self.count as u64
    }

    /// Reads at least so many bytes from an offset on. That fewer are there to be read ahead is no error.
    fn move_to(
        &mut self,
        source: &mut (impl Read + Seek),
        offset: u64,
        least: usize,
    ) -> io::Result<()> {
        let most = self.ahead(offset, least);
        (self.offset, self.count) = (offset, 0);
        source.seek(SeekFrom::Start(offset))?;
        while self.count < least {
            match source.read(&mut self.bytes[self.count..most]) {
                Ok(0) => return Err(ErrorKind::UnexpectedEof.into()),
                Ok(read) => self.count += read,
                Err(error) if error.kind() == ErrorKind::Interrupted => {}
                Err(error) => return Err(error),
            }
        }
        Ok(())
    }

    /// How many bytes to read, at least so many: where they follow the window directly, twice as many as it has. Where the machine
    /// jumps, little is then read in vain.
    fn ahead(&self, offset: u64, least: usize) -> usize {
        if offset != self.end() {
            return least;
        }
        let most = (2 * self.count).min(LONGEST_PIECE) as u64;
        least.max(most.min(self.length - offset) as usize)
    }
}
