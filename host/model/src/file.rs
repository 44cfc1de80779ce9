//! A file's bytes, of which not all have to be in memory.
use crate::Extent;
use std::borrow::Cow;

/// A file: these bytes, and behind them zeros up to a length, which may be far more than memory has.
#[derive(Debug, Clone, Copy)]
pub struct File<'a> {
    bytes: &'a [u8],
    length: u64,
}

impl<'a> File<'a> {
    /// These bytes and no others.
    pub fn new(bytes: &'a [u8]) -> File<'a> {
        File::with_length(bytes, bytes.len() as u64)
    }

    /// These bytes, zeros behind them. With a length below theirs it is as many of them.
    pub fn with_length(bytes: &'a [u8], length: u64) -> File<'a> {
        let inside = length.min(bytes.len() as u64) as usize;
        File {
            bytes: &bytes[..inside],
            length,
        }
    }

    pub fn length(&self) -> u64 {
        self.length
    }

    /// A part of the file, which callers know to lie in it and to fit memory.
    pub(crate) fn part(&self, extent: Extent) -> Cow<'a, [u8]> {
        let here = self.bytes.len() as u64;
        let start = extent.offset.min(here) as usize;
        let end = (extent.offset + extent.length).min(here) as usize;
        let known = &self.bytes[start..end];
        if known.len() as u64 == extent.length {
            return Cow::Borrowed(known);
        }
        let mut bytes = known.to_vec();
        bytes.resize(extent.length as usize, 0);
        Cow::Owned(bytes)
    }
}

#[cfg(test)]
mod tests {
    use super::*;

    #[test]
    fn zeros_behind_the_bytes() {
        let part = |length, offset, size| {
            let file = File::with_length(&[1, 2, 3, 4], length);
            let extent = Extent {
                offset,
                length: size,
            };
            file.part(extent).into_owned()
        };
        assert_eq!(part(4, 1, 3), [2, 3, 4]);
        assert_eq!(part(4, 4, 0), []);
        assert_eq!(part(9, 2, 4), [3, 4, 0, 0]);
        assert_eq!(part(u64::MAX, 1 << 60, 2), [0, 0]);
        assert_eq!(part(3, 0, 3), [1, 2, 3]);
        assert_eq!(File::new(&[7; 5]).length(), 5);
        assert_eq!(File::with_length(&[7; 5], 1 << 50).length(), 1 << 50);
    }
}
