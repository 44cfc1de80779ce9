//! The log's work in pieces as C programs see it: every answer held to its form, and every request to what holds of each,
//! whatever the file does meanwhile.
use crate::image::{MIB, SECTOR};
use crate::model::{self, Extent, File};
use crate::sample::M;
use shrunvaki::vhdx::raw;

pub use crate::model::{End, Request};

pub const LONGEST: usize = 65536;

/// What a call answers.
#[derive(Debug, PartialEq, Eq, Clone)]
pub enum Answer {
    Read {
        offset: u64,
        length: usize,
    },
    /// To be done to the file.
    Work(Request),
    End(End),
    NoMachine,
}

/// A machine, and the piece that it is given.
#[derive(Clone)]
pub struct Machine {
    pub numbers: raw::Machine,
    piece: Box<[u8; LONGEST]>,
    /// Fills what of a piece does not count.
    garbage: u8,
}

impl Machine {
    pub fn start(length: u64, capacity: u64) -> (Machine, Answer) {
        let (refusal, numbers, answer) = raw::pieces_start(length, capacity);
        let machine = Machine::with(numbers);
        let answer = machine.decode(refusal, answer);
        assert_ne!(answer, Answer::NoMachine, "of a start");
        (machine, answer)
    }

    /// With any numbers.
    pub fn with(numbers: raw::Machine) -> Machine {
        Machine {
            numbers,
            piece: Box::new([0; LONGEST]),
            garbage: 1,
        }
    }

    /// Goes on with the file's bytes after a read, with none after anything else. Behind them stands garbage.
    pub fn next(&mut self, bytes: &[u8]) -> Answer {
        self.garbage = self.garbage.wrapping_mul(5).wrapping_add(3);
        self.piece[..bytes.len()].copy_from_slice(bytes);
        self.piece[bytes.len()..].fill(self.garbage);
        let (refusal, answer) = raw::pieces_next(&mut self.numbers, &mut self.piece);
        self.decode(refusal, answer)
    }

    /// Takes an answer apart. After the end the machine is zeros, which no machine has: it is asked once more.
    fn decode(&self, refusal: u64, answer: [u64; 4]) -> Answer {
        let decoded = match answer {
            [0, number @ 1..=8, 0, 0] => Answer::End(End::Refused(number)),
            [1, offset, length @ 1..=65536, 0] => {
                let length = length as usize;
                Answer::Read { offset, length }
            }
            [2, length, 0, 0] => Answer::Work(Request::Grow(length)),
            [3, offset, kind @ 0..=1, 0] => Answer::Work(Request::Write {
                offset,
                bytes: self.piece[..SECTOR].to_vec(),
                data: kind == 1,
            }),
            [4, length, count, 0] => Answer::End(End::Done { length, count }),
            [5, 0, 0, 0] => Answer::NoMachine,
            _ => panic!("no answer of a machine: {answer:?}"),
        };
        let number = match decoded {
            Answer::End(End::Refused(number)) => number,
            _ => 0,
        };
        assert_eq!(refusal, number, "returned, and in the answer");
        if let Answer::End(_) = decoded {
            assert_eq!(self.numbers, [0; 64], "after the end");
        }
        decoded
    }

    /// Whether the next call answers that no machine has these numbers. It then has to leave numbers and piece as they were.
    pub fn is_none(&self) -> bool {
        let mut copy = self.clone();
        copy.piece.fill(0xa7);
        let (refusal, answer) = raw::pieces_next(&mut copy.numbers, &mut copy.piece);
        if answer[0] != 5 {
            return false;
        }
        assert_eq!((refusal, answer), (0, [5, 0, 0, 0]));
        assert_eq!(copy.numbers, self.numbers, "left as they were");
        assert!(copy.piece.iter().all(|&b| b == 0xa7), "left as it was");
        true
    }
}

/// What was asked of a file so far, and what holds of every request even where the file changes meanwhile.
pub struct Course {
    /// As the file came.
    length: u64,
    grown: Option<u64>,
    pub reads: u64,
    pub writes: u64,
    /// How many reads came before the first request that is none.
    pub reads_before_work: Option<u64>,
    /// The first MiB as it was fed.
    first_mib: Vec<u8>,
    /// The log that its header states, from the first request on that is no read.
    log: Option<Extent>,
}

impl Course {
    pub fn new(length: u64) -> Course {
        Course {
            length,
            grown: None,
            reads: 0,
            writes: 0,
            reads_before_work: None,
            first_mib: vec![0; MIB],
            log: None,
        }
    }

    /// How many requests there were.
    pub fn requests(&self) -> u64 {
        self.reads + self.writes + u64::from(self.grown.is_some())
    }

    /// That something other than a read was asked for.
    pub fn began(&self) -> bool {
        self.reads_before_work.is_some()
    }

    fn final_length(&self) -> u64 {
        self.grown.unwrap_or(self.length)
    }

    /// A read that was answered by these bytes.
    #[track_caller]
    pub fn read(&mut self, offset: u64, bytes: &[u8]) {
        let inside = inside(offset, bytes.len() as u64, self.length);
        assert!(inside, "{} at {offset}", bytes.len());
        if !self.began() && offset < M {
            let start = offset as usize;
            let end = MIB.min(start + bytes.len());
            self.first_mib[start..end].copy_from_slice(&bytes[..end - start]);
        }
        self.reads += 1;
        // far above what reading the longest log a few times needs, once more for each sector
        let most = 1_000_000 + 16 * self.writes;
        assert!(self.reads <= most, "{} reads", self.reads);
    }

    #[track_caller]
    pub fn work(&mut self, request: &Request) {
        let is_first = !self.began();
        if is_first {
            self.reads_before_work = Some(self.reads);
            self.log = model::current_log(File::new(&self.first_mib));
        }
        match *request {
            Request::Grow(length) => {
                assert!(is_first, "growth after {} writes", self.writes);
                assert!(length > self.length, "growth to {length}");
                self.grown = Some(length);
            }
            Request::Write { offset, .. } => {
                let log = self.log.expect("a header was fed");
                let sector = SECTOR as u64;
                assert!(inside(offset, sector, self.final_length()), "at {offset}");
                assert!(offset >= M, "in the first MiB: {offset}");
                let apart = offset + sector <= log.offset || log.offset + log.length <= offset;
                assert!(apart, "in the log: {offset}");
                self.writes += 1;
            }
        }
    }

    #[track_caller]
    pub fn end(&self, end: End) {
        match end {
            End::Done { length, count } => {
                assert_eq!((length, count), (self.final_length(), self.writes), "done");
            }
            End::Refused(number) if self.began() => assert_eq!(number, 5, "after work"),
            End::Refused(_) => {}
        }
    }
}

fn inside(offset: u64, length: u64, whole: u64) -> bool {
    offset.checked_add(length).is_some_and(|end| end <= whole)
}

/// A file that a machine is fed with.
pub trait Feeder {
    /// Fills a piece with the file's bytes from an offset on.
    fn read(&mut self, course: &Course, offset: u64, piece: &mut [u8]);

    /// Does what was asked, and says whether to go on.
    fn work(&mut self, course: &Course, request: Request) -> bool;
}

/// Feeds a machine to its end, unless the file says that it is enough.
#[track_caller]
pub fn feed(length: u64, capacity: u64, file: &mut impl Feeder) -> (Course, Option<End>) {
    let mut course = Course::new(length);
    let mut piece = vec![0; LONGEST];
    let (mut machine, mut answer) = Machine::start(length, capacity);
    loop {
        answer = match answer {
            Answer::Read { offset, length } => {
                let piece = &mut piece[..length];
                file.read(&course, offset, piece);
                course.read(offset, piece);
                machine.next(piece)
            }
            Answer::Work(request) => {
                course.work(&request);
                if !file.work(&course, request) {
                    return (course, None);
                }
                machine.next(&[])
            }
            Answer::End(end) => {
                course.end(end);
                assert!(machine.is_none(), "after the end");
                return (course, Some(end));
            }
            Answer::NoMachine => panic!("a machine that was started: {:?}", machine.numbers),
        };
    }
}

/// Reads from a file that is these bytes and zeros behind them.
pub fn read_at(bytes: &[u8], offset: u64, piece: &mut [u8]) {
    let start = offset.min(bytes.len() as u64) as usize;
    let here = piece.len().min(bytes.len() - start);
    piece[..here].copy_from_slice(&bytes[start..start + here]);
    piece[here..].fill(0);
}

/// Does to bytes what was asked.
pub fn apply(bytes: &mut Vec<u8>, request: &Request) {
    match request {
        Request::Grow(length) => bytes.resize(*length as usize, 0),
        Request::Write {
            offset,
            bytes: sector,
            ..
        } => {
            let at = *offset as usize;
            bytes[at..at + SECTOR].copy_from_slice(sector);
        }
    }
}

/// What is compared of one file's work: a short log may ask for 2^35 writes.
const MOST: u64 = 20_000;

/// A file that does not change, and what the model asks of it.
struct Faithful<'a, R, E> {
    bytes: &'a [u8],
    requests: R,
    each: E,
}

impl<R: Iterator<Item = Request>, E: FnMut(&Request)> Feeder for Faithful<'_, R, E> {
    fn read(&mut self, _: &Course, offset: u64, piece: &mut [u8]) {
        read_at(self.bytes, offset, piece);
    }

    fn work(&mut self, course: &Course, request: Request) -> bool {
        let expected = self.requests.next();
        assert!(
            expected.as_ref() == Some(&request),
            "{request:?}, not {expected:?}"
        );
        (self.each)(&request);
        course.writes < MOST
    }
}

/// Feeds a machine with a file, these bytes and zeros behind them up to a length, and compares every request and the end with the
/// model's. Hands each request on. Answers the end, unless there was too much to do.
#[track_caller]
pub fn assert_as_model(
    bytes: &[u8],
    length: u64,
    capacity: u64,
    each: impl FnMut(&Request),
) -> (Course, Option<End>) {
    let expected = model::Pieces::new(File::with_length(bytes, length), capacity);
    let mut file = Faithful {
        bytes,
        requests: expected.requests(),
        each,
    };
    let (course, end) = feed(length, capacity, &mut file);
    if let Some(end) = end {
        assert_eq!(end, expected.end(), "at {length} in {capacity}");
        assert_eq!(file.requests.next(), None, "was not asked");
    }
    (course, end)
}

/// The model's final length, where there is one.
pub fn final_length(bytes: &[u8], length: u64, capacity: u64) -> Option<u64> {
    match model::Pieces::new(File::with_length(bytes, length), capacity).end() {
        End::Done { length, .. } => Some(length),
        End::Refused(_) => None,
    }
}
