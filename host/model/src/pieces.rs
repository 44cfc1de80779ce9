//! The log's work on a file that is larger than memory (document 02, Q-13): what is asked of whoever has the file, but for reads,
//! which the documents leave free.
use crate::work::{plan_of, LONGEST_IMAGE};
use crate::{File, Plan, Sector};
use std::fmt::Write;

/// The requests of one file's work.
#[derive(Debug, Clone)]
pub struct Pieces<'a> {
    file: File<'a>,
    length: u64,
    plan: Result<Plan, u64>,
}

/// What is asked.
#[derive(Debug, PartialEq, Eq, Clone)]
pub enum Request {
    /// To make the file that long, with zeros.
    Grow(u64),
    /// To write a sector, of a data descriptor or of a zero descriptor.
    Write {
        offset: u64,
        bytes: Vec<u8>,
        data: bool,
    },
}

/// How it ends.
#[derive(Debug, PartialEq, Eq, Clone, Copy)]
pub enum End {
    /// The final length, and the count of sectors written.
    Done { length: u64, count: u64 },
    /// By a number from 1 to 8, and before anything else was asked.
    Refused(u64),
}

impl<'a> Pieces<'a> {
    /// Of a file that may grow to a capacity.
    pub fn new(file: File<'a>, capacity: u64) -> Pieces<'a> {
        Pieces {
            file,
            length: file.length(),
            plan: plan_of(file, capacity),
        }
    }

    /// "Growth is one request for the final length, before any write, only where that is greater." Then each sector's, in the
    /// order of the steps, one that is named twice twice. A short log may ask for 2^35 of them.
    pub fn requests(&self) -> impl Iterator<Item = Request> + '_ {
        let plan = self.plan.iter();
        plan.flat_map(|plan| {
            let grow = (plan.length > self.length).then_some(Request::Grow(plan.length));
            let log = self.file.part(plan.log);
            let write = move |sector: Sector| Request::Write {
                offset: sector.extent().offset,
                bytes: sector.bytes(&log).to_vec(),
                data: matches!(sector, Sector::Data { .. }),
            };
            grow.into_iter().chain(plan.sectors().map(write))
        })
    }

    pub fn end(&self) -> End {
        match &self.plan {
            Ok(plan) => End::Done {
                length: plan.length,
                count: plan.count,
            },
            Err(number) => End::Refused(*number),
        }
    }
}

/// What the small program prints of a file that it can read: a line for each write, with its offset and D or Z by the kind of its
/// descriptor, or the one line of a refusal. "It takes 128 TiB" as the capacity.
pub fn listing(file: File) -> String {
    let pieces = Pieces::new(file, LONGEST_IMAGE);
    let mut text = String::new();
    for request in pieces.requests() {
        if let Request::Write { offset, data, .. } = request {
            let kind = if data { 'D' } else { 'Z' };
            writeln!(text, "{offset} {kind}").expect("memory");
        }
    }
    if let End::Refused(number) = pieces.end() {
        writeln!(text, "refused {number}").expect("memory");
    }
    text
}

#[cfg(test)]
mod tests {
    use super::*;
    use crate::bytes::{MIB, SECTOR, TIB};
    use crate::crc::seal;
    use crate::testing::{buffer, log_entry, put, LOG_ID};

    /// An image of 3 MiB with document 01's R in its log: LastFileOffset 4 MiB, one zero descriptor.
    fn r(flushed: u64, offset: u64, length: u64) -> Vec<u8> {
        let mut image = buffer(3 * MIB, LOG_ID);
        let entry = log_entry(flushed, 4 * MIB, &[(offset, length)]);
        put(&mut image, MIB, &entry);
        image
    }

    fn r1() -> Vec<u8> {
        r(3 * MIB, 3_145_728, 8_192)
    }

    /// An image of 3 MiB whose log has a data descriptor between two zero descriptors. What it writes is zeros but for the bytes
    /// given, at places that a descriptor's and a data sector's bytes go to.
    fn mixed(offset: u64, places: &[(usize, u8)]) -> Vec<u8> {
        let mut bytes = [0; SECTOR];
        for &(at, byte) in places {
            bytes[at] = byte;
        }
        let zeros = [(2 * MIB, 4096), (offset, 0), (2 * MIB, 8192)];
        let mut entry = log_entry(0, 0, &zeros);
        put(&mut entry, 96, b"desc");
        put(&mut entry, 100, &bytes[4092..]);
        put(&mut entry, 104, &bytes[..8]);
        let mut sector = vec![0; SECTOR];
        put(&mut sector, 0, b"data");
        put(&mut sector, 8, &bytes[8..4092]);
        put(&mut sector, 4092, &1u32.to_le_bytes());
        entry.extend(sector);
        let length = entry.len() as u32;
        put(&mut entry, 8, &length.to_le_bytes());
        seal(&mut entry);
        let mut image = buffer(3 * MIB, LOG_ID);
        put(&mut image, MIB, &entry);
        image
    }

    fn zeros(offset: u64) -> Request {
        Request::Write {
            offset,
            bytes: vec![0; SECTOR],
            data: false,
        }
    }

    fn requests(file: File, capacity: u64) -> (Vec<Request>, End) {
        let pieces = Pieces::new(file, capacity);
        (pieces.requests().collect(), pieces.end())
    }

    fn refused(file: File, capacity: u64) -> u64 {
        match requests(file, capacity) {
            (requests, End::Refused(number)) => {
                assert_eq!(requests, []);
                number
            }
            ended => panic!("{ended:?}"),
        }
    }

    #[test]
    fn r1_grows_first() {
        let image = r1();
        let expected = vec![
            Request::Grow(4 * MIB),
            zeros(3_145_728),
            zeros(3_145_728 + 4096),
        ];
        let done = End::Done {
            length: 4 * MIB,
            count: 2,
        };
        for capacity in [4 * MIB, 128 * TIB, u64::MAX] {
            let file = File::new(&image);
            assert_eq!(requests(file, capacity), (expected.clone(), done));
        }
        assert_eq!(listing(File::new(&image)), "3145728 Z\n3149824 Z\n");
        // nothing to grow by
        let file = File::with_length(&image, 4 * MIB);
        assert_eq!(requests(file, 4 * MIB), (expected[1..].to_vec(), done));
    }

    #[test]
    fn r2_to_r6() {
        let at = 3_145_728;
        assert_eq!(refused(File::new(&r1()), 4 * MIB - 1), 8, "R2");
        for (name, image, number) in [
            ("R3", r(at + 1, at, 8_192), 6),
            ("R4", r(3 * MIB, 1_044_480, 4_096), 7),
            ("R5", r(3 * MIB, 1_048_576, 4_096), 7),
        ] {
            assert_eq!(refused(File::new(&image), 4 * MIB), number, "{name}");
            assert_eq!(listing(File::new(&image)), format!("refused {number}\n"));
        }
        let image = r(3 * MIB, 1_048_576, 0);
        let done = End::Done {
            length: 4 * MIB,
            count: 0,
        };
        let grown = vec![Request::Grow(4 * MIB)];
        assert_eq!(requests(File::new(&image), 4 * MIB), (grown, done), "R6");
        assert_eq!(listing(File::new(&image)), "", "growth is not printed");
    }

    #[test]
    fn capacities_in_place_of_the_buffer() {
        let image = r1();
        for (capacity, number) in [(3 * MIB - 1, 1), (0, 1), (3 * MIB, 8)] {
            assert_eq!(refused(File::new(&image), capacity), number);
        }
        let short = File::new(&image[..MIB as usize - 1]);
        assert_eq!(refused(short, u64::MAX), 1);
        assert_eq!(listing(short), "refused 1\n");
        assert_eq!(listing(File::new(&[])), "refused 1\n");
        // the length has no limit of its own, the final length has
        let longest = |length| File::with_length(&image, length);
        let (_, end) = requests(longest(128 * TIB), u64::MAX);
        let done = End::Done {
            length: 128 * TIB,
            count: 2,
        };
        assert_eq!(end, done);
        assert_eq!(refused(longest(128 * TIB + 1), u64::MAX), 8);
        assert_eq!(refused(longest(u64::MAX), u64::MAX), 8);
        assert_eq!(refused(longest(u64::MAX), u64::MAX - 1), 1);
        assert_eq!(listing(longest(128 * TIB)), "3145728 Z\n3149824 Z\n");
        assert_eq!(listing(longest(128 * TIB + 1)), "refused 1\n");
    }

    #[test]
    fn kinds_are_the_descriptors() {
        let places = [(0, 1), (7, 2), (8, 3), (4091, 4), (4092, 5), (4095, 6)];
        for places in [&places[..], &[]] {
            let mut bytes = vec![0; SECTOR];
            for &(at, byte) in places {
                bytes[at] = byte;
            }
            let image = mixed(2 * MIB + 4096, places);
            let data = Request::Write {
                offset: 2 * MIB + 4096,
                bytes,
                data: true,
            };
            let first = zeros(2 * MIB);
            let expected = vec![first.clone(), data, first, zeros(2 * MIB + 4096)];
            assert_eq!(requests(File::new(&image), 3 * MIB).0, expected);
            let text = "2097152 Z\n2101248 D\n2097152 Z\n2101248 Z\n";
            assert_eq!(listing(File::new(&image)), text);
        }
    }

    #[test]
    fn logs_past_the_bytes_are_zeros() {
        let mut image = r1();
        let header = &mut image[65536..65536 + SECTOR];
        put(header, 72, &(100 * TIB).to_le_bytes());
        seal(header);
        let far = File::with_length(&image, 100 * TIB + MIB);
        assert_eq!(refused(far, 128 * TIB), 5);
        let outside = File::with_length(&image, 100 * TIB + MIB - 1);
        assert_eq!(refused(outside, 128 * TIB), 4);
    }

    #[test]
    fn work_that_no_memory_holds() {
        let image = r(0, 2 * MIB, 100 * TIB);
        let pieces = Pieces::new(File::new(&image), 128 * TIB);
        let grown = 100 * TIB + 2 * MIB;
        let done = End::Done {
            length: grown,
            count: 100 * TIB / 4096,
        };
        assert_eq!(pieces.end(), done);
        let first: Vec<Request> = pieces.requests().take(2).collect();
        assert_eq!(first, [Request::Grow(grown), zeros(2 * MIB)]);
    }
}
