//! `attach --pieces FILE` and `attach --apply --pieces FILE`: the log's work without a buffer for the file.
//!
//! The library says which bytes of the file it wants next, and which it wants written. So a file may be longer than what this
//! process may map, and of its tables nothing is read.
//!
//! To apply a log, the library is run twice: first to count, so that a refusal or a log that asks for too much finds the file
//! untouched, then to write, each sector as often as the log names it, in its order. The file as it came is flushed before that, growth
//! before the first sector, and all of it in the end. What a killed process or a power failure leaves is covered by the theorem `PowerSafe`, as for `apply.rs`. Nothing
//! of the file is kept between the two runs, so the second has to ask for what the first did: where somebody changes the file without
//! a lock, it may not.
use crate::apply::broken_off;
use crate::attach::{Log, Report};
use crate::output::{note, Stop};
use crate::progress::{timed, Progress};
use crate::source::{Opened, Source};
use crate::text::size;
use shrunvaki::vhdx::pieces::{drive, Work};
use shrunvaki::vhdx::{Plan, Refusal};
use std::io::{self, ErrorKind};
use std::os::unix::fs::FileExt;

/// Whether the work is done so: where the user asks for it, and where no buffer can hold the file.
pub fn are_used(source: &Source, opened: &Opened) -> bool {
    if source.pieces || opened.fits() {
        return source.pieces;
    }
    note(format_args!(
        "shrunvaki: {}: longer than this process may map, {}; the log's work is done in pieces, as with --pieces\n",
        opened.name,
        size(opened.length)
    ));
    true
}

/// What the log asks for. The file is not changed.
pub fn attach(opened: &Opened) -> Result<Report<'_>, Stop> {
    Report::of_plan(opened, plan(opened)?, Log::Pending)
}

/// Applies the log to the file itself. What is about to be done is told first; nothing is told or done where the file is refused.
pub fn apply(
    opened: &Opened,
    tell: impl FnOnce(&Plan) -> Result<(), Stop>,
) -> Result<Report<'_>, Stop> {
    let planned = plan(opened)?;
    if let Ok(plan) = &planned {
        tell(plan)?;
        write(opened, plan)?;
    }
    Report::of_plan(opened, planned, Log::Applied)
}

/// Why the work ended before its end.
enum Early {
    /// The file cannot be read or written.
    Failed(io::Error),
    Stopped(Stop),
}

impl From<io::Error> for Early {
    fn from(error: io::Error) -> Early {
        Early::Failed(error)
    }
}

/// Counts what the log asks for, up to what is allowed: a short log may name more sectors than anybody waits for.
fn plan(opened: &Opened) -> Result<Result<Plan, Refusal>, Stop> {
    let mut counted = Plan {
        length: opened.length,
        count: 0,
    };
    let planned = timed("reading the log", || {
        run(opened, |work| {
            match work {
                Work::Grow(length) => counted.length = length,
                Work::Write(_) => counted.count += 1,
            }
            opened.allow_so_far(&counted).map_err(Early::Stopped)
        })
    });
    let name = &opened.name;
    planned.map_err(|early| match early {
        Early::Failed(error) if error.kind() == ErrorKind::UnexpectedEof => {
            Stop::failed(format!("{name}: became shorter while it was read"))
        }
        Early::Failed(error) => Stop::failed(format!("{name}: {error}")),
        Early::Stopped(stop) => stop,
    })
}

/// Does what was planned, and has all of it reach the disk.
fn write(opened: &Opened, plan: &Plan) -> Result<(), Stop> {
    let changed = || {
        let name = &opened.name;
        Stop::failed(format!(
            "{name}: changed while its log was applied, by a program that takes no lock; the log is not applied to its end: see \
             what attach says of the file now"
        ))
    };
    opened.settle()?;
    let mut progress = Progress::new("writing", 1);
    let mut written = 0;
    let done = run(opened, |work| match work {
        Work::Grow(length) if length == plan.length => opened.grow(length).map_err(Early::Stopped),
        Work::Write(sector) if written < plan.count => {
            opened.file.write_all_at(sector.bytes, sector.offset)?;
            written += 1;
            progress.at(written, plan.count);
            Ok(())
        }
        _ => Err(Early::Stopped(changed())),
    });
    drop(progress);
    match done {
        Ok(Ok(done)) if done == *plan => opened.flush().map_err(|error| broken_off(opened, &error)),
        Ok(_) => Err(changed()),
        Err(Early::Failed(error)) if error.kind() == ErrorKind::UnexpectedEof => Err(changed()),
        Err(Early::Failed(error)) => Err(broken_off(opened, &error)),
        Err(Early::Stopped(stop)) => Err(stop),
    }
}

/// Runs the library over the file.
fn run(
    opened: &Opened,
    mut work: impl FnMut(Work<'_>) -> Result<(), Early>,
) -> Result<Result<Plan, Refusal>, Early> {
    let mut file = &opened.file;
    drive(&mut file, opened.length, opened.capacity, |_, asked| {
        work(asked)
    })
}
