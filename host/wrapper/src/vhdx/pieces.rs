//! The log's work on a file that no buffer holds, in pieces of at most 64 KiB.
//!
//! [`plan`] lists what the log of a file would write, [`apply`] writes it, and [`drive`] leaves what is done with it to the caller.
//! All stand over [`Pieces`], which has no file: it says which bytes it wants next, or which it wants written, and is told that they
//! are there. So it serves whatever a file is read through, and needs no lock: a file that changes between two pieces still gets
//! answers or a refusal, and neither the first MiB nor the log is ever written, nor anything past the final length.
//!
//! ```
//! use shrunvaki::vhdx::pieces::{self, SectorKind};
//! use std::io::Cursor;
//!
//! # fn main() -> std::io::Result<()> {
//! let mut file = Cursor::new(disk());
//! let length = file.get_ref().len() as u64;
//! let capacity = 1 << 40; // the log may grow the file to 1 TiB
//!
//! let mut zeros = 0;
//! let planned = pieces::plan(&mut file, length, capacity, |sector| {
//!     zeros += u64::from(sector.kind == SectorKind::Zeros);
//!     Ok(())
//! })?;
//! let plan = planned.expect("no refusal");
//! assert_eq!((plan.length, plan.count, zeros), (5 << 20, 258, 256));
//!
//! assert_eq!(pieces::apply(&mut file, length, capacity)?, Ok(plan));
//! assert_eq!(file.get_ref().len(), 5 << 20);
//! # Ok(())
//! # }
//! # fn disk() -> Vec<u8> {
//! #     let image = vhdx_builder::sample::pending();
//! #     image.buffer[..image.length as usize].to_vec()
//! # }
//! ```
use super::image::NO_ANSWER;
use super::raw::{self, Machine};
use super::window::Window;
use super::{Plan, Refusal};
use std::error::Error;
use std::fmt;
use std::io::{self, Read, Seek, SeekFrom, Write};

/// The most bytes that one request asks for.
pub const LONGEST_PIECE: usize = 65536;

/// Of what one request has written.
pub const SECTOR_SIZE: usize = 4096;

/// The kind that [`raw::pieces_next`] answers for numbers that no machine has.
const NO_MACHINE: u64 = 5;

/// What is asked of whoever has the file.
#[derive(Debug, PartialEq, Eq, Clone, Copy)]
pub enum Request {
    /// The file's bytes from an offset on: at least one, at most [`LONGEST_PIECE`], and none past the length that the file came
    /// with.
    Read {
        /// Of the first.
        offset: u64,
        /// How many.
        length: usize,
    },
    /// That the file is made longer, with zeros. Asked at most once, and before the first write.
    Grow {
        /// Of the file afterwards.
        length: u64,
    },
    /// That [`Pieces::sector`] is written.
    Write {
        /// Where, in the file.
        offset: u64,
        /// What the log says of it.
        kind: SectorKind,
    },
    /// Nothing more: the log is applied.
    Done {
        /// Of the file.
        length: u64,
        /// How many sectors were written; one that the log names twice counts twice.
        count: u64,
    },
    /// Nothing more: one of refusals 1 to 8. Nothing was asked before it but reads, unless the file changed meanwhile.
    Refused(Refusal),
}

/// By which kind of descriptor the log names a sector. A data sector may hold zeros too.
#[derive(Debug, PartialEq, Eq, Clone, Copy)]
pub enum SectorKind {
    /// Its bytes are in the log.
    Data,
    /// Its bytes are zeros.
    Zeros,
}

impl Request {
    /// Of an answer that is none of the contract's there is none.
    fn from_answer(answer: [u64; 4]) -> Option<Request> {
        match answer {
            [0, number, 0, 0] => Refusal::new(number).map(Request::Refused),
            [1, offset, length, 0] => {
                let length = usize::try_from(length).ok()?;
                let read = Request::Read { offset, length };
                (1..=LONGEST_PIECE).contains(&length).then_some(read)
            }
            [2, length, 0, 0] => Some(Request::Grow { length }),
            [3, offset, kind @ (0 | 1), 0] => {
                let kind = [SectorKind::Zeros, SectorKind::Data][kind as usize];
                Some(Request::Write { offset, kind })
            }
            [4, length, count, 0] => Some(Request::Done { length, count }),
            _ => None,
        }
    }

    /// How many bytes the piece has that it asks for; nothing is taken after the end.
    fn piece_length(self) -> Option<usize> {
        match self {
            Request::Read { length, .. } => Some(length),
            Request::Grow { .. } | Request::Write { .. } => Some(0),
            Request::Done { .. } | Request::Refused(_) => None,
        }
    }
}

/// The log's work as a machine that is fed. It holds 64 numbers and one piece, however long file and log are.
///
/// ```
/// use shrunvaki::vhdx::pieces::{Pieces, Request};
///
/// let mut file = disk();
/// let mut pieces = Pieces::start(file.len() as u64, 1 << 40);
/// loop {
///     match pieces.request() {
///         Request::Read { offset, length } => {
///             pieces.next(&file[offset as usize..][..length]);
///         }
///         Request::Grow { length } => {
///             file.resize(length as usize, 0);
///             pieces.next(&[]);
///         }
///         Request::Write { offset, .. } => {
///             file[offset as usize..][..4096].copy_from_slice(pieces.sector());
///             pieces.next(&[]);
///         }
///         Request::Done { length, count } => break println!("{count} sectors, {length} bytes"),
///         Request::Refused(refusal) => break println!("refused: {refusal}"),
///     }
/// }
/// assert!(file[4 << 20..].starts_with(b"The first bytes of block 0"));
/// # fn disk() -> Vec<u8> {
/// #     let image = vhdx_builder::sample::pending();
/// #     image.buffer[..image.length as usize].to_vec()
/// # }
/// ```
#[derive(Clone)]
pub struct Pieces {
    machine: Machine,
    piece: Box<[u8; LONGEST_PIECE]>,
    request: Request,
}

impl Pieces {
    /// For a file of a length, which may grow to a capacity.
    pub fn start(length: u64, capacity: u64) -> Pieces {
        let (_, machine, answer) = raw::pieces_start(length, capacity);
        Pieces {
            machine,
            piece: Box::new([0; LONGEST_PIECE]),
            request: Request::from_answer(answer).expect(NO_ANSWER),
        }
    }

    /// What is asked now.
    pub fn request(&self) -> Request {
        self.request
    }

    /// What is to be written, at a [`Request::Write`]. At any other request these bytes mean nothing.
    pub fn sector(&self) -> &[u8; SECTOR_SIZE] {
        self.piece.first_chunk().expect("a piece is longer")
    }

    /// Says that what was asked is there or done, and answers what is asked next. The piece is the bytes that were read, empty
    /// after all but a read. One of another length is not taken: nothing changes, and the same is asked again. So it is after the
    /// end.
    pub fn next(&mut self, piece: &[u8]) -> Request {
        if self.request.piece_length() == Some(piece.len()) {
            self.piece[..piece.len()].copy_from_slice(piece);
            self.go_on();
        }
        self.request
    }

    /// The same for a piece that is in its place already.
    fn go_on(&mut self) {
        let (_, answer) = raw::pieces_next(&mut self.machine, &mut self.piece);
        self.request = Request::from_answer(answer).expect(NO_ANSWER);
    }

    /// The machine, for a program that keeps it elsewhere; [`Pieces::from_numbers`] takes it back. After the end all are 0.
    pub fn numbers(&self) -> &Machine {
        &self.machine
    }

    /// Goes on with a machine that was kept elsewhere, with the request that it made and the sector that it asked to be written,
    /// which counts at a [`Request::Write`] alone.
    ///
    /// Numbers that were changed meanwhile are mostly refused, as are those of a machine that has ended. Others make a machine that
    /// asks for something and ends.
    pub fn from_numbers(
        numbers: &Machine,
        request: Request,
        sector: &[u8; SECTOR_SIZE],
    ) -> Result<Pieces, NoMachine> {
        let mut piece = Box::new([0; LONGEST_PIECE]);
        // whether they are a machine's does not depend on the piece
        let (_, [kind, ..]) = raw::pieces_next(&mut { *numbers }, &mut piece);
        let longest = request.piece_length().unwrap_or(0);
        if kind == NO_MACHINE || longest > LONGEST_PIECE {
            return Err(NoMachine);
        }
        piece[..SECTOR_SIZE].copy_from_slice(sector);
        Ok(Pieces {
            machine: *numbers,
            piece,
            request,
        })
    }
}

impl fmt::Debug for Pieces {
    fn fmt(&self, out: &mut fmt::Formatter<'_>) -> fmt::Result {
        let mut out = out.debug_struct("Pieces");
        out.field("request", &self.request).finish_non_exhaustive()
    }
}

/// No machine has these numbers, or none makes this request.
#[derive(Debug, PartialEq, Eq, Clone, Copy)]
pub struct NoMachine;

impl fmt::Display for NoMachine {
    fn fmt(&self, out: &mut fmt::Formatter<'_>) -> fmt::Result {
        out.write_str("no machine has these numbers")
    }
}

impl Error for NoMachine {}

/// A sector that the log has written.
#[derive(Debug, PartialEq, Eq, Clone, Copy)]
pub struct Sector<'a> {
    /// Where, in the file.
    pub offset: u64,
    /// What the log says of it.
    pub kind: SectorKind,
    /// What.
    pub bytes: &'a [u8; SECTOR_SIZE],
}

/// Lists what applying the log would write, in its order, and writes nothing: `each` is given every sector, and ends it all by an
/// error. Answers the length that the file would have and the count of sectors, or one of refusals 1 to 8.
///
/// A short log may name more sectors than anybody waits for: 2^35 in a capacity of 128 TiB.
///
/// Errors are those of the source and of `each`. A file that ends before `length` is one of kind
/// [`UnexpectedEof`](io::ErrorKind::UnexpectedEof).
pub fn plan<S: Read + Seek>(
    mut source: S,
    length: u64,
    capacity: u64,
    mut each: impl FnMut(Sector<'_>) -> io::Result<()>,
) -> io::Result<Result<Plan, Refusal>> {
    drive(&mut source, length, capacity, |_, work| match work {
        Work::Grow(_) => Ok(()),
        Work::Write(sector) => each(sector),
    })
}

/// Applies the log: makes the file as long as it has to be, writes every sector, and flushes. Answers the file's length and the
/// count of sectors, or one of refusals 1 to 8, before which nothing was written unless the file changed meanwhile.
///
/// `length` is the file's own. The log stays in the file: after an error, an interruption or a power failure, applying it again makes
/// all good. Of a file on a disk, [`sync_all`](std::fs::File::sync_all) is left to the caller.
///
/// Errors are those of the file. One that ends before `length` is of kind [`UnexpectedEof`](io::ErrorKind::UnexpectedEof).
pub fn apply<F: Read + Write + Seek>(
    mut file: F,
    length: u64,
    capacity: u64,
) -> io::Result<Result<Plan, Refusal>> {
    let applied = drive(&mut file, length, capacity, |file, work| {
        let (offset, bytes): (u64, &[u8]) = match &work {
            // the file's end moves with its last byte, and what lies before it is zeros
            Work::Grow(length) => (length - 1, &[0]),
            Work::Write(sector) => (sector.offset, sector.bytes),
        };
        file.seek(SeekFrom::Start(offset))?;
        file.write_all(bytes)
    })?;
    file.flush()?;
    Ok(applied)
}

/// What the log's work asks for, but for reads.
#[derive(Debug, PartialEq, Eq, Clone, Copy)]
pub enum Work<'a> {
    /// That the file is made longer, with zeros, to this length. Asked at most once, and before the first write.
    Grow(u64),
    /// That a sector is written.
    Write(Sector<'a>),
}

/// Reads what the log's work asks for, and leaves the rest of it to `work`, which ends it all by an error: what [`plan`] and
/// [`apply`] stand over. Answers as they do. A long stretch is read ahead, at most 64 KiB at once and nothing past `length`.
pub fn drive<S: Read + Seek, E: From<io::Error>>(
    source: &mut S,
    length: u64,
    capacity: u64,
    mut work: impl FnMut(&mut S, Work<'_>) -> Result<(), E>,
) -> Result<Result<Plan, Refusal>, E> {
    let mut pieces = Pieces::start(length, capacity);
    // Never stale: the machine asks for bytes of the first MiB and of the log alone, and writes to neither (refusal 7, and the
    // theorem AlwaysAnswers where the file changes meanwhile).
    let mut window = Window::new(length);
    loop {
        match pieces.request {
            Request::Read { offset, length } => {
                window.fill(&mut pieces.piece[..length], source, offset)?;
            }
            Request::Grow { length } => work(source, Work::Grow(length))?,
            Request::Write { offset, kind } => {
                let bytes = pieces.sector();
                let sector = Sector {
                    offset,
                    kind,
                    bytes,
                };
                work(source, Work::Write(sector))?;
            }
            Request::Done { length, count } => return Ok(Ok(Plan { length, count })),
            Request::Refused(refusal) => return Ok(Err(refusal)),
        }
        pieces.go_on();
    }
}
