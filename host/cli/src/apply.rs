//! `attach --apply FILE`: applies the log to the file itself.
//!
//! The log is planned first, so that a refusal finds the file untouched, and applied in memory, to a snapshot that nobody else can
//! change. Then the file as it came is flushed; it is extended to its final length, and flushed; and each sector that the log has changed
//! is written, once, as it is in the end, and flushed.
//!
//! Whatever a killed process or a power failure leaves, sectors written, not written or torn, in any order, is a state that the theorem
//! `PowerSafe` covers: running the command again gives what an undisturbed run gives. The next run may have another capacity, since the
//! default grows with the file; the theorem covers that too.
use crate::attach::{Log, Report};
use crate::output::{Output, Status, Stop};
use crate::pieces;
use crate::progress::timed;
use crate::snapshot::Snapshot;
use crate::source::{Opened, Source};
use crate::text::grouped;
use crate::writing::{self, announce};
use shrunvaki::vhdx::{Image, Plan};
use std::io;

pub fn run(source: &Source, wait: bool, out: &mut Output) -> Result<Status, Stop> {
    // locked from before the decision until all is flushed: the file that is changed is the one that was judged
    let opened = source.open_exclusive(wait)?;
    let tell = |plan: &Plan| {
        let work = format!("applying: {} sectors", grouped(plan.count));
        announce(&opened, plan, &work, out)
    };
    let report = match pieces::are_used(source, &opened) {
        true => pieces::apply(&opened, tell)?,
        false => perform(&opened, tell)?,
    };
    report.print(out)
}

/// Does it. What is about to be done is told first; nothing is told or done where refusals 1 to 8 apply.
pub fn perform(
    opened: &Opened,
    tell: impl FnOnce(&Plan) -> Result<(), Stop>,
) -> Result<Report<'_>, Stop> {
    let image = opened.image()?;
    let plan = match image.plan() {
        Ok(plan) => plan,
        Err(refusal) => return Report::of_plan(opened, Err(refusal), Log::Unknown),
    };
    opened.allow(&plan)?;
    tell(&plan)?;
    // past the file's end the snapshot is zero, as the file will be
    let mut image = Image::new(image.into_buffer(), plan.length);
    let attachment = timed("applying the log", || image.attach());
    write_out(opened, &plan, &image.into_buffer())?;
    Report::of_attachment(opened, attachment, Log::Applied)
}

/// Extends the file to its final length, writes what the log has changed, and has the file reach the disk before and after each of the
/// two. What was judged has to be there still.
fn write_out(opened: &Opened, plan: &Plan, applied: &Snapshot) -> Result<(), Stop> {
    opened.settle()?;
    writing::require(applied.is_current(), opened)?;
    opened.grow(plan.length)?;
    writing::write_out(opened, applied, 0..plan.length).map_err(|error| broken_off(opened, &error))
}

/// What is said where a file that is written to fails.
pub fn broken_off(opened: &Opened, error: &io::Error) -> Stop {
    let name = &opened.name;
    Stop::failed(format!(
        "{name}: {error}; what was applied stays applied, and applying again does the rest"
    ))
}
