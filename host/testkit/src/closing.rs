//! Closing a log, by what a test knows of the file: the descriptors that it laid into the log, and which header it made the
//! current one.
use crate::image::{crc32c, put64, seal, Image, GUID, HEADERS, SECTOR};
use crate::pending::{assert_same, pattern, Pending, Replay};
use crate::random::Random;
use crate::vhdx::{self, Closed, Stepped};
use std::ops::Range;

/// The file-write identifier that closing is given, unless a test says otherwise.
pub const WRITER: [u8; 16] = *b"the next writer.";

/// What is at the place of the header that is not current.
#[derive(Debug, Clone, Copy, PartialEq, Eq)]
pub enum Other {
    NeverWritten,
    Garbage,
    /// Valid, with the sequence number before the current one's.
    Older,
    /// The same with a log identifier of zero.
    OlderWithoutALog,
    /// Its sequence number is the greatest, but its checksum does not agree.
    Torn,
}

/// All of them.
pub const OTHERS: [Other; 5] = [
    Other::NeverWritten,
    Other::Garbage,
    Other::Older,
    Other::OlderWithoutALog,
    Other::Torn,
];

/// Where one of the two headers is.
pub fn place(header: usize) -> Range<usize> {
    HEADERS[header]..HEADERS[header] + SECTOR
}

/// Writes a header whose bytes differ from place to place where no rule of attach reads.
pub fn full_header(image: &mut Image, header: usize, number: u64, guid: [u8; 16]) {
    image.header(HEADERS[header], number, guid);
    let bytes = &mut image.buffer[place(header)];
    for part in [16..48, 80..SECTOR] {
        bytes[part.clone()].copy_from_slice(&pattern(number as u8)[part]);
    }
    seal(bytes);
}

/// Makes one of the two headers the current one.
pub fn set_headers(image: &mut Image, current: usize, number: u64, guid: [u8; 16], other: Other) {
    full_header(image, current, number, guid);
    let at = 1 - current;
    match other {
        Other::NeverWritten => image.buffer[place(at)].fill(0),
        Other::Garbage => Random::new(5).fill(&mut image.buffer[place(at)]),
        Other::Older => full_header(image, at, number - 1, guid),
        Other::OlderWithoutALog => full_header(image, at, number - 1, [0; 16]),
        Other::Torn => {
            full_header(image, at, u64::MAX, guid);
            image.buffer[HEADERS[at] + 4] ^= 1;
        }
    }
}

/// "Valid if it begins "head" and its CRC-32C over 4,096 bytes, checksum field taken as zero, agrees."
pub fn is_valid(header: &[u8]) -> bool {
    let sum = crc32c(&[&header[..4], &[0; 4], &header[8..]]);
    header.starts_with(b"head") && header[4..8] == sum.to_le_bytes()
}

/// The header that closing makes of the current one, whose number is known: "sequence number plus one, log identifier zero and a
/// file-write identifier that the caller lends, all else copied. The checksum is made anew."
pub fn closed_header(current: &[u8], number: u64, identifier: &[u8; 16]) -> Vec<u8> {
    let mut header = current.to_vec();
    put64(&mut header, 8, number + 1);
    header[16..32].copy_from_slice(identifier);
    header[48..64].fill(0);
    seal(&mut header);
    header
}

/// A file that none of refusals 1 to 8 applies to, and what closing it does.
#[derive(Clone)]
pub struct Closing {
    pub pending: Pending,
    pub identifier: [u8; 16],
    /// 23, or 0.
    pub refusal: u64,
    /// Closing's steps: the log's, and behind the last the header as one sector more, unless there is no log.
    pub steps: Replay,
    /// Where the header is that is not current.
    pub slot: Range<usize>,
}

impl Closing {
    /// Of a file with the usual log's identifier, after one of its headers was made the current one.
    pub fn new(mut pending: Pending, current: usize, number: u64, other: Other) -> Closing {
        set_headers(&mut pending.image, current, number, GUID, other);
        Closing::with(pending, current, number, WRITER)
    }

    /// Of a file that has its headers already.
    pub fn with(pending: Pending, current: usize, number: u64, identifier: [u8; 16]) -> Closing {
        let slot = place(1 - current);
        let mut steps = pending.replay.clone();
        let refusal = if number == u64::MAX {
            23
        } else {
            let bytes = &pending.image.buffer[place(current)];
            let header = closed_header(bytes, number, &identifier);
            steps.sectors.push((slot.start, header));
            0
        };
        Closing {
            pending,
            identifier,
            refusal,
            steps,
            slot,
        }
    }

    /// Of a file whose log identifier is zero.
    pub fn without_a_log(pending: Pending, current: usize) -> Closing {
        assert_eq!(pending.replay.count(), 0);
        Closing {
            steps: pending.replay.clone(),
            pending,
            identifier: WRITER,
            refusal: 0,
            slot: place(1 - current),
        }
    }

    /// What closing answers: "as attach does in length and count, the header not counted".
    pub fn answer(&self) -> Closed {
        let length = self.pending.image.length;
        match self.refusal {
            0 => Closed {
                refusal: 0,
                length: self.steps.grown(length),
                count: self.pending.replay.count(),
            },
            refusal => Closed {
                refusal,
                length,
                count: 0,
            },
        }
    }

    /// What step k answers, of a file that is not closed yet.
    pub fn step_answer(&self, length: u64, k: u64) -> Stepped {
        match self.refusal {
            0 => self.steps.answer(length, k),
            refusal => Stepped { refusal, length },
        }
    }

    /// Does step k, and says what it answers.
    pub fn step(&self, buffer: &mut [u8], length: u64, k: u64) -> Stepped {
        match self.refusal {
            0 => self.steps.step(buffer, length, k),
            refusal => Stepped { refusal, length },
        }
    }

    /// The buffer and the length that closing leaves.
    pub fn closed(&self) -> (Vec<u8>, u64) {
        let mut buffer = self.pending.image.buffer.clone();
        let length = match self.refusal {
            0 => self.steps.all(&mut buffer, self.pending.image.length),
            _ => self.pending.image.length,
        };
        (buffer, length)
    }

    /// Closes a copy and compares the answer and every byte of the buffer, which it returns.
    #[track_caller]
    pub fn close(&self, name: &str) -> Vec<u8> {
        let mut buffer = self.pending.image.buffer.clone();
        let answer = vhdx::close(&mut buffer, self.pending.image.length, &self.identifier);
        assert_eq!(answer, self.answer(), "{name}");
        assert_same(&buffer, &self.closed().0, name);
        buffer
    }

    /// Step k of a copy with a length, whose answer and bytes are compared; returns the answer.
    #[track_caller]
    pub fn step_alone(&self, length: u64, k: u64) -> Stepped {
        let mut buffer = self.pending.image.buffer.clone();
        let mut expected = buffer.clone();
        let answer = vhdx::close_step(&mut buffer, length, &self.identifier, k);
        assert_eq!(answer, self.step(&mut expected, length, k), "step {k}");
        assert_same(&buffer, &expected, &format!("step {k} at {length}"));
        answer
    }

    /// That a buffer differs from the original only in sectors that the log names, past the old end, and where the header is
    /// that was not current.
    #[track_caller]
    pub fn assert_only_named(&self, buffer: &[u8]) {
        self.pending
            .assert_only_named_and(buffer, self.slot.clone());
    }
}
