//! How what a log changes reaches the file: what `attach --apply`, also in pieces, and `close` share.
use crate::output::{note, Output, Stop};
use crate::progress::Progress;
use crate::snapshot::Snapshot;
use crate::source::Opened;
use crate::text::size;
use shrunvaki::vhdx::Plan;
use std::io;
use std::ops::Range;

/// Says what is about to be done, on standard error where standard output is JSON. A closed pipe stops nothing: what was decided is
/// done.
pub fn announce(opened: &Opened, plan: &Plan, work: &str, out: &mut Output) -> Result<(), Stop> {
    let growth = match plan.length - opened.length {
        0 => "the file keeps its length".to_string(),
        bytes => format!("the file grows by {} to {}", size(bytes), size(plan.length)),
    };
    let line = format!("{work}; {growth}");
    if out.json {
        note(format_args!("{line}\n"));
        return Ok(());
    }
    match out.line(&line).and_then(|()| out.flush()) {
        Err(Stop::ClosedPipe) => Ok(()),
        other => other,
    }
}

/// That what was judged is in the file still.
pub fn require(current: io::Result<bool>, opened: &Opened) -> Result<(), Stop> {
    let name = &opened.name;
    match current {
        Ok(true) => Ok(()),
        Ok(false) => Err(Stop::failed(format!(
            "{name}: changed while it was read, by a program that takes no lock; nothing was written"
        ))),
        Err(error) => Err(Stop::failed(format!("{name}: {error}"))),
    }
}

/// Writes what the log has changed in a range of the file, and has all of it reach the disk.
pub fn write_out(opened: &Opened, changed: &Snapshot, range: Range<u64>) -> io::Result<()> {
    let end = range.end;
    let mut progress = Progress::new("writing", 1);
    changed.write_to(&opened.file, range, |done| progress.at(done, end))?;
    opened.flush()
}
