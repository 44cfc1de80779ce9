//! `map FILE`: where every sector of a range is, in runs.
use crate::json::Object;
use crate::output::{Output, Status, Stop};
use crate::progress::Progress;
use crate::runs::{Joined, Range, Run, Runs};
use crate::source::{Disk, Source};
use shrunvaki::vhdx::Lookup;

/// So many lookups between two looks at the clock.
const LOOKUPS: u32 = 64;

pub fn run(source: &Source, range: Range, out: &mut Output) -> Result<Status, Stop> {
    source.attached(out, |disk, out| print(disk, range, out))
}

fn print(disk: &Disk, range: Range, out: &mut Output) -> Result<Status, Stop> {
    let runs = Runs::new(disk, range);
    let all = runs.remaining();
    let mut progress = Progress::new("mapping", LOOKUPS);
    let watched = runs.inspect(|run| progress.at(run.first - range.first, all));
    let mut status = Status::Answered;
    if out.json {
        let start = Object::about(disk.name).open();
        out.bytes(format!("{start},\"runs\":[").as_bytes())?;
    } else {
        out.line("first count where")?;
    }
    for (number, run) in Joined::new(watched, disk.facts.logical_sector_size).enumerate() {
        if out.json {
            let comma = if number == 0 { "" } else { "," };
            out.bytes(format!("{comma}{}", object(&run)).as_bytes())?;
        } else {
            out.line(&line(&run))?;
        }
        if run.answer.is_err() {
            status = Status::Refused;
        }
    }
    if out.json {
        out.line("]}")?;
    }
    Ok(status)
}

fn object(run: &Run) -> String {
    let object = Object::new()
        .number("first", run.first)
        .number("count", run.count);
    run.describe(object).finish()
}

/// A line of three or four words, for other programs to take apart.
fn line(run: &Run) -> String {
    let place = match run.answer {
        Ok(Lookup::File(offset)) => format!("file {offset}"),
        Ok(Lookup::Zero) => "zero".to_string(),
        Ok(Lookup::Parent) => "parent".to_string(),
        Err(refusal) => format!("refused {}", refusal.number()),
    };
    format!("{} {} {place}", run.first, run.count)
}
