//! The command with a library that counts its writes, what an undisturbed run of it does to a file, and what a power failure leaves.
use crate::sample::{bytes, Sample, PROGRAM};
use shrunvaki_testkit::command::{compile_library, end, folder, write, Folder, Ran};
use shrunvaki_testkit::interrupted::Unflushed;
use shrunvaki_testkit::pending::Pending;
use shrunvaki_testkit::random::Random;
use std::fmt;
use std::fs;
use std::path::{Path, PathBuf};
use std::process::Command;

/// `preload/writes.c` says what the variables do.
pub struct Watched {
    // removed with this value
    _folder: Folder,
    library: PathBuf,
}

impl Watched {
    pub fn new() -> Watched {
        let folder = folder("watched");
        let source = Path::new(env!("CARGO_MANIFEST_DIR")).join("tests/preload/writes.c");
        let library = compile_library(&folder, &source);
        Watched {
            _folder: folder,
            library,
        }
    }

    pub fn run(&self, words: &[&str], sample: &Sample, variables: &[(&str, &str)]) -> Ran {
        end(Command::new(PROGRAM)
            .args(words)
            .arg(&sample.path)
            .env("LD_PRELOAD", &self.library)
            .envs(variables.iter().copied()))
    }

    /// What an undisturbed run does to the file, in its order.
    pub fn operations(&self, words: &[&str], pending: &Pending) -> Vec<Operation> {
        let sample = Sample::new(bytes(pending));
        let folder = folder("noted");
        let [notes, written] = ["notes", "written"].map(|name| write(&folder, name, &[]));
        let [note_in, bytes_in] = [&notes, &written].map(|path| path.to_str().expect("text"));
        let variables = [("NOTE_IN", note_in), ("BYTES_IN", bytes_in)];
        let ran = self.run(words, &sample, &variables);
        // a refusal of the tables comes after the log
        assert!(matches!(ran.status, Some(0 | 1)), "{ran:?}");
        let written = fs::read(written).expect("what was written");
        let mut rest = &written[..];
        let text = fs::read_to_string(notes).expect("what was noted");
        text.lines()
            .map(|line| Operation::parse(line, &mut rest))
            .collect()
    }
}

#[derive(PartialEq, Eq, Clone)]
pub enum Operation {
    Length(usize),
    Write { at: usize, bytes: Vec<u8> },
    Flush,
}

/// As it is noted: the bytes of a write are many.
impl fmt::Debug for Operation {
    fn fmt(&self, f: &mut fmt::Formatter) -> fmt::Result {
        match self {
            Operation::Length(length) => write!(f, "length {length}"),
            Operation::Write { at, bytes } => write!(f, "write {at} {}", bytes.len()),
            Operation::Flush => write!(f, "flush"),
        }
    }
}

impl Operation {
    /// By its line, and the bytes of all writes from this one on, of which it takes its own.
    fn parse(line: &str, rest: &mut &[u8]) -> Operation {
        let words: Vec<&str> = line.split(' ').collect();
        let number = |word: &str| word.parse().expect("a number");
        match words[..] {
            ["length", length] => Operation::Length(number(length)),
            ["write", at, length] => Operation::Write {
                at: number(at),
                bytes: rest
                    .split_off(..number(length))
                    .expect("its bytes")
                    .to_vec(),
            },
            ["flush"] => Operation::Flush,
            _ => panic!("{line}"),
        }
    }

    fn apply(&self, file: &mut Vec<u8>) {
        match self {
            Operation::Length(length) => file.resize(*length, 0),
            Operation::Write { at, bytes } => file[*at..at + bytes.len()].copy_from_slice(bytes),
            Operation::Flush => {}
        }
    }
}

/// The operations between two flushes, before the first and after the last.
pub fn between_flushes(operations: &[Operation]) -> Vec<&[Operation]> {
    operations.split(|o| *o == Operation::Flush).collect()
}

/// What a power failure may leave of a file after some operations: those before the last flush are done, and of the others any part is.
pub fn after_power_failure(
    random: &mut Random,
    mut file: Vec<u8>,
    operations: &[Operation],
) -> Vec<u8> {
    let flushed = operations.iter().rposition(|o| *o == Operation::Flush);
    let (flushed, rest) = operations.split_at(flushed.unwrap_or(0));
    for operation in flushed {
        operation.apply(&mut file);
    }
    unflushed(rest, file.len()).lost(random, &file)
}

/// The work that these operations do on a file of a length, flushed or not.
pub fn unflushed(operations: &[Operation], length: usize) -> Unflushed<'_> {
    let mut work = Unflushed {
        length: length as u64,
        writes: Vec::new(),
    };
    for operation in operations {
        match operation {
            Operation::Length(length) => work.length = *length as u64,
            Operation::Write { at, bytes } => work.writes.push((*at, bytes)),
            Operation::Flush => {}
        }
    }
    work
}
