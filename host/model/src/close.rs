//! Closing the log (document 02, Q-6): its work, and after the last sector the header that is not current, rewritten so that it
//! becomes current and says that no log is pending.
use crate::bytes::SECTOR;
use crate::crc;
use crate::header::Header;
use crate::work::{plan, Plan};
use crate::Stepped;

/// What closing answers: the refusal's number or 0, the length after it, and the count of sectors written, "the header not
/// counted".
#[derive(Debug, PartialEq, Eq, Clone, Copy, Default)]
pub struct Closed {
    pub refusal: u64,
    pub length: u64,
    pub count: u64,
}

/// Applies the log of the image that is the first `length` bytes of the buffer, and ends it. "Reads no tables."
pub fn close(buffer: &mut [u8], length: u64, identifier: &[u8; 16]) -> Closed {
    let work = match Work::new(buffer, length, identifier) {
        Ok(work) => work,
        Err(refusal) => {
            return Closed {
                refusal,
                length,
                count: 0,
            }
        }
    };
    work.plan.apply(buffer, length);
    if let Some(header) = &work.header {
        header.write(buffer);
    }
    Closed {
        refusal: 0,
        length: work.plan.length,
        count: work.plan.count,
    }
}

/// Does step k of closing alone: attach's steps, and behind the last sector's the header. It is a step whether or not those
/// before it were done.
pub fn close_step(buffer: &mut [u8], length: u64, identifier: &[u8; 16], k: u64) -> Stepped {
    let work = match Work::new(buffer, length, identifier) {
        Ok(work) => work,
        Err(refusal) => return Stepped { refusal, length },
    };
    match work.header {
        // "counted as one more sector for 21"; it ends below 1 MiB, so that 22 never applies
        Some(header) if k.checked_sub(work.plan.count) == Some(1) => {
            header.write(buffer);
            Stepped { refusal: 0, length }
        }
        _ => work.plan.step(buffer, length, k),
    }
}

/// What closing does: attach's plan, and the header, which there is none of where the log identifier is zero already.
struct Work {
    plan: Plan,
    header: Option<NewHeader>,
}

impl Work {
    /// Or refusals 1 to 8, and 23.
    fn new(buffer: &[u8], length: u64, identifier: &[u8; 16]) -> Result<Work, u64> {
        let plan = plan(buffer, length)?;
        let current = Header::current(&buffer[..length as usize]).ok_or(3u64)?;
        let header = if current.has_log() {
            Some(NewHeader::new(buffer, &current, identifier)?)
        } else {
            None
        };
        Ok(Work { plan, header })
    }
}

/// A header to write, and where. The log's sectors never lie in the first MiB, so that it can be made before they are written.
struct NewHeader {
    offset: usize,
    bytes: [u8; SECTOR],
}

impl NewHeader {
    /// The current header "with sequence number plus one, log identifier zero and a file-write identifier that the caller lends,
    /// all else copied", or refusal 23: no number is greater.
    fn new(buffer: &[u8], current: &Header, identifier: &[u8; 16]) -> Result<NewHeader, u64> {
        let number = current.number.checked_add(1).ok_or(23u64)?;
        let mut bytes = [0; SECTOR];
        bytes.copy_from_slice(&buffer[current.offset..current.offset + SECTOR]);
        bytes[8..16].copy_from_slice(&number.to_le_bytes());
        bytes[16..32].copy_from_slice(identifier);
        bytes[48..64].fill(0);
        crc::seal(&mut bytes);
        Ok(NewHeader {
            offset: current.other_offset(),
            bytes,
        })
    }

    fn write(&self, buffer: &mut [u8]) {
        buffer[self.offset..self.offset + SECTOR].copy_from_slice(&self.bytes);
    }
}

#[cfg(test)]
mod tests {
    use super::*;
    use crate::attach;
    use crate::bytes::MIB;
    use crate::testing::{buffer, log_entry, put, LOG_ID};

    const FIRST: usize = 65536;
    const SECOND: usize = 131072;
    const IDENTIFIER: [u8; 16] = *b"the new writer's";

    fn closed(refusal: u64, length: u64, count: u64) -> Closed {
        Closed {
            refusal,
            length,
            count,
        }
    }

    fn stepped(refusal: u64, length: u64) -> Stepped {
        Stepped { refusal, length }
    }

    /// Document 01's R1, in an image of 3 MiB, with a sequence number and bytes in what is reserved.
    fn r1(log_id: [u8; 16], number: u64) -> Vec<u8> {
        let mut image = buffer(4 * MIB, log_id);
        put(&mut image, MIB, &log_entry(0, 4 * MIB, &[(3 * MIB, 8192)]));
        image[3 << 20..].fill(9);
        let header = &mut image[FIRST..FIRST + SECTOR];
        put(header, 8, &number.to_le_bytes());
        header[16..48].fill(0xab);
        header[80..].fill(0xcd);
        crc::seal(header);
        image
    }

    /// The header that closing R1 writes, from what document 02 says of each part.
    fn expected_header(number: u64) -> Vec<u8> {
        let mut header = [
            b"head\0\0\0\0".as_slice(),
            &number.to_le_bytes(),
            &IDENTIFIER,
            &[0xab; 16],
            &[0; 16],
            &[0, 0, 1, 0],
            &(MIB as u32).to_le_bytes(),
            &MIB.to_le_bytes(),
            &[0xcd; 4016],
        ]
        .concat();
        let sum = crc::crc32c(&header);
        put(&mut header, 4, &sum.to_le_bytes());
        header
    }

    #[test]
    fn r1_closed_at_once_and_by_steps() {
        for number in [0, 5, u64::MAX - 1] {
            let mut image = r1(LOG_ID, number);
            let mut expected = image.clone();
            expected[3 << 20..].fill(0);
            let mut stepwise = image.clone();
            let step = |image: &mut [u8], k| close_step(image, 4 * MIB, &IDENTIFIER, k);
            let first = close_step(&mut stepwise, 3 * MIB, &IDENTIFIER, 0);
            assert_eq!(first, stepped(0, 4 * MIB));
            for k in [1, 2] {
                assert_eq!(step(&mut stepwise, k), stepped(0, 4 * MIB));
                assert!(stepwise == expected, "step {k}");
            }
            assert_eq!(step(&mut stepwise, 4), stepped(21, 4 * MIB));
            assert_eq!(step(&mut stepwise, u64::MAX), stepped(21, 4 * MIB));
            assert!(stepwise == expected, "refused");
            put(&mut expected, SECOND as u64, &expected_header(number + 1));
            assert_eq!(step(&mut stepwise, 3), stepped(0, 4 * MIB));
            assert!(stepwise == expected, "the header");
            let answer = close(&mut image, 3 * MIB, &IDENTIFIER);
            assert_eq!(answer, closed(0, 4 * MIB, 2));
            assert!(image == expected, "at once");
            // there is nothing left to do
            assert_eq!(close(&mut image, 4 * MIB, &[1; 16]), closed(0, 4 * MIB, 0));
            assert_eq!(attach(&mut image, 4 * MIB).count, 0);
            assert_eq!(step(&mut image, 1), stepped(21, 4 * MIB));
            assert!(image == expected, "a second time");
        }
    }

    #[test]
    fn the_current_header_may_be_the_second() {
        let mut image = r1(LOG_ID, 7);
        image.copy_within(FIRST..FIRST + SECTOR, SECOND);
        let first = &mut image[FIRST..FIRST + SECTOR];
        put(first, 8, &6u64.to_le_bytes());
        crc::seal(first);
        let second = image[SECOND..SECOND + SECTOR].to_vec();
        assert_eq!(close(&mut image, 3 * MIB, &IDENTIFIER).refusal, 0);
        assert!(image[FIRST..FIRST + SECTOR] == expected_header(8));
        assert!(image[SECOND..SECOND + SECTOR] == second);
    }

    #[test]
    fn numbers_that_have_no_successor() {
        let mut image = r1(LOG_ID, u64::MAX);
        let before = image.clone();
        assert_eq!(
            close(&mut image, 3 * MIB, &IDENTIFIER),
            closed(23, 3 * MIB, 0)
        );
        for k in [0, 1, 3, 4, u64::MAX] {
            let answer = close_step(&mut image, 3 * MIB, &IDENTIFIER, k);
            assert_eq!(answer, stepped(23, 3 * MIB), "step {k}");
        }
        // 8 comes before it
        let short = 4 * MIB as usize - 1;
        let answer = close(&mut image[..short], 3 * MIB, &IDENTIFIER);
        assert_eq!(answer, closed(8, 3 * MIB, 0));
        assert!(image == before);
    }

    #[test]
    fn without_a_log() {
        for number in [0, u64::MAX] {
            let mut image = r1([0; 16], number);
            let before = image.clone();
            let answer = close(&mut image, 3 * MIB, &IDENTIFIER);
            assert_eq!(answer, closed(0, 3 * MIB, 0));
            for (k, refusal) in [(0, 0), (1, 21), (2, 21), (u64::MAX, 21)] {
                let answer = close_step(&mut image, 3 * MIB, &IDENTIFIER, k);
                assert_eq!(answer, stepped(refusal, 3 * MIB), "step {k}");
            }
            assert!(image == before);
        }
    }

    #[test]
    fn steps_whose_forerunners_were_not_done() {
        let mut image = r1(LOG_ID, 1);
        let mut expected = image.clone();
        let step = |image: &mut [u8], k| close_step(image, 3 * MIB, &IDENTIFIER, k);
        assert_eq!(step(&mut image, 1), stepped(22, 3 * MIB));
        assert!(image == expected);
        // the header needs no growth; the log is lost by it
        assert_eq!(step(&mut image, 3), stepped(0, 3 * MIB));
        put(&mut expected, SECOND as u64, &expected_header(2));
        assert!(image == expected);
        assert_eq!(close(&mut image, 3 * MIB, &IDENTIFIER).length, 3 * MIB);
        assert!(image == expected);
    }
}
