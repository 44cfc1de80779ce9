//! `cat FILE`: the bytes of sectors.
use crate::json::Object;
use crate::lookup;
use crate::output::{note, Output, Status, Stop, ZEROS};
use crate::progress::Progress;
use crate::runs::{Range, Run, Runs};
use crate::source::{Disk, Source};
use crate::text::hex;
use shrunvaki::vhdx::Lookup;
use std::io::{self, IsTerminal};

/// So many bytes are written at once.
const PIECE: usize = ZEROS.len();

pub fn run(source: &Source, range: Range, force: bool, out: &mut Output) -> Result<Status, Stop> {
    if !out.json && !force && io::stdout().is_terminal() {
        return Err(Stop::failed(
            "cat writes a disk's bytes, which a terminal may take for commands: redirect them, as with '> disk.raw', or --force it",
        ));
    }
    source.attached(out, |disk, out| write_all(disk, range, out))
}

fn write_all(disk: &Disk, range: Range, out: &mut Output) -> Result<Status, Stop> {
    let sector_size = disk.facts.logical_sector_size;
    if out.json {
        let start = Object::about(disk.name)
            .number("sector", range.first)
            .number("sector_size", sector_size)
            .open();
        out.bytes(format!("{start},\"hex\":\"").as_bytes())?;
    } else {
        out.allow_holes()?;
    }
    let mut runs = Runs::new(disk, range);
    let mut pieces = Pieces {
        out,
        progress: Progress::new("reading", 1),
        done: 0,
        all: runs.remaining().saturating_mul(sector_size),
    };
    let stopped = runs.try_for_each(|run| {
        let length = run.count.saturating_mul(sector_size);
        match run.answer {
            Ok(Lookup::File(offset)) => pieces.file(disk, offset, length).map_err(Err),
            Ok(Lookup::Zero) => pieces.zeros(length).map_err(Err),
            // the run that the command stops at
            _ => Err(Ok(run)),
        }
    });
    match stopped {
        Ok(()) => end(out, None),
        Err(Ok(run)) => end(out, Some(run)),
        Err(Err(stop)) => Err(stop),
    }
}

/// The output, piece by piece, with its progress in bytes: a run may be long.
struct Pieces<'a> {
    out: &'a mut Output,
    progress: Progress,
    done: u64,
    all: u64,
}

impl Pieces<'_> {
    /// So many bytes of the file, from an offset on.
    fn file(&mut self, disk: &Disk, offset: u64, length: u64) -> Result<(), Stop> {
        let gone = |error: io::Error| {
            let why = match error.kind() {
                io::ErrorKind::UnexpectedEof => "became shorter while it was in use".to_string(),
                _ => error.to_string(),
            };
            Stop::failed(format!("{}: {why}", disk.name))
        };
        let mut bytes = vec![0; PIECE];
        let mut at = offset;
        while at < offset + length {
            let piece = &mut bytes[..PIECE.min((offset + length - at) as usize)];
            disk.image.buffer().read(at as usize, piece).map_err(gone)?;
            if self.out.json {
                self.out.bytes(hex(piece).as_bytes())?;
            } else if piece == &ZEROS[..piece.len()] {
                self.out.zeros(piece.len() as u64)?;
            } else {
                self.out.bytes(piece)?;
            }
            at += piece.len() as u64;
            self.told(piece.len() as u64);
        }
        Ok(())
    }

    fn zeros(&mut self, length: u64) -> Result<(), Stop> {
        let mut left = length;
        while left > 0 {
            // a hole is made at once
            let piece = match self.out.makes_holes() {
                true => left,
                false => left.min(PIECE as u64),
            };
            match self.out.json {
                true => self.out.bytes("00".repeat(piece as usize).as_bytes())?,
                false => self.out.zeros(piece)?,
            }
            left -= piece;
            self.told(piece);
        }
        Ok(())
    }

    fn told(&mut self, bytes: u64) {
        self.done += bytes;
        self.progress.at(self.done, self.all);
    }
}

/// Says where the bytes end, if that is before what was asked for.
fn end(out: &mut Output, stopped: Option<Run>) -> Result<Status, Stop> {
    if out.json {
        let stopped = match &stopped {
            Some(run) => run
                .describe(Object::new().number("sector", run.first))
                .finish(),
            None => "null".to_string(),
        };
        out.line(&format!("\",\"stopped\":{stopped}}}"))?;
    }
    out.flush()?;
    let Some(run) = stopped else {
        return Ok(Status::Answered);
    };
    if !out.json {
        note(format_args!(
            "shrunvaki: stopped at {}\n",
            lookup::line(&run)
        ));
    }
    match run.answer {
        Ok(_) => Ok(Status::AsksParent),
        Err(_) => Ok(Status::Refused),
    }
}
