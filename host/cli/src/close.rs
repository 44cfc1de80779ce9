//! `close FILE`: closes the log for good.
//!
//! Judged and done in memory first, as `attach --apply` does it. Then the file as it came is flushed, it is extended and flushed, each
//! sector that the log has changed is written, and all of it is flushed before the header that says "no log" is written, one page, and
//! flushed too: that header must not be on the disk before the sectors that the log holds.
//!
//! What is killed, or ended by a power failure, before the header's write leaves the old header current and the log pending, and the
//! sectors that the log names with old, new or torn bytes: closing again does all of it anew. After that write all is done. The theorem
//! `PowerSafeClose` covers a kill and a power failure at any moment, and the flush between the sectors and the header is what it
//! supposes of its caller.
use crate::json::Object;
use crate::output::{Output, Status, Stop};
use crate::progress::timed;
use crate::refused;
use crate::snapshot::Snapshot;
use crate::source::{OnHost, Opened, Source};
use crate::text::grouped;
use crate::writing::{self, announce};
use shrunvaki::vhdx::{identifier_text, Closed, Image, Plan, Refusal};
use std::fs::File;
use std::io::{self, Read};
use std::os::unix::fs::FileExt;

/// As it is stored.
pub type Identifier = [u8; 16];

/// Where the two headers are, and how long each is.
const SLOTS: [usize; 2] = [65_536, 131_072];
const SLOT: usize = 4096;

/// The refusal of closing alone.
const CANNOT_BE_CLOSED: u64 = 23;

/// Both headers lie below this offset, and no sector that a log may write does: refusal 7.
const FIRST_MIB: u64 = 1 << 20;

pub fn run(
    source: &Source,
    identifier: Option<Identifier>,
    wait: bool,
    out: &mut Output,
) -> Result<Status, Stop> {
    let identifier = match identifier {
        Some(identifier) => identifier,
        None => random_identifier()
            .map_err(|error| Stop::failed(format!("no random identifier: {error}")))?,
    };
    // locked from before the decision until all is flushed: the file that is changed is the one that was judged
    let opened = source.open_exclusive(wait)?;
    let log = perform(&opened, &identifier, |plan| {
        let work = format!(
            "closing: {} sectors, then one header with the identifier {}",
            grouped(plan.count),
            identifier_text(&identifier)
        );
        announce(&opened, plan, &work, out)
    })?;
    Report::new(&opened, log, identifier)?.print(out)
}

/// Of version 4, by the operating system.
fn random_identifier() -> io::Result<Identifier> {
    let mut identifier = [0; 16];
    File::open("/dev/urandom")?.read_exact(&mut identifier)?;
    // the digits that say so are the first of the third group and of the fourth
    identifier[7] = identifier[7] & 0x0f | 0x40;
    identifier[8] = identifier[8] & 0x3f | 0x80;
    Ok(identifier)
}

/// What became of the log.
enum Log {
    /// There is none.
    None,
    /// It was closed.
    Closed(Closed),
    /// It was not, and nothing was changed.
    Refused(Refusal),
}

/// Does it. What is about to be done is told first, unless it is nothing.
fn perform(
    opened: &Opened,
    identifier: &Identifier,
    tell: impl FnOnce(&Plan) -> Result<(), Stop>,
) -> Result<Log, Stop> {
    let mut image = opened.image()?;
    let plan = match image.plan() {
        Ok(plan) => plan,
        Err(refusal) => return Ok(Log::Refused(refusal)),
    };
    // 23 comes before the limits too; a step of a number that no log has is refused by it before 21, and nothing is done
    let early = image.close_step(identifier, u64::MAX).err();
    if let Some(refusal) = early.filter(|refusal| refusal.number() == CANNOT_BE_CLOSED) {
        return Ok(Log::Refused(refusal));
    }
    opened.allow(&plan)?;
    let judged = headers(image.bytes());
    // past the file's end the snapshot is zero, as the file will be
    let mut image = Image::new(image.into_buffer(), plan.length);
    let closed = match timed("closing the log", || image.close(identifier)) {
        Ok(closed) => closed,
        Err(refusal) => return Ok(Log::Refused(refusal)),
    };
    // the count does not tell: a log that names no sector is closed too. The header that closing writes is never there before, where it
    // would be the current one
    if headers(image.bytes()) == judged {
        return Ok(Log::None);
    }
    tell(&plan)?;
    write_out(opened, &plan, &image.into_buffer(), &judged)?;
    Ok(Log::Closed(closed))
}

/// Both headers of an image that has them.
fn headers(bytes: &[u8]) -> [Vec<u8>; 2] {
    SLOTS.map(|at| bytes[at..at + SLOT].to_vec())
}

/// Both headers of the file as they are now.
fn headers_now(file: &File) -> io::Result<[Vec<u8>; 2]> {
    let mut first = vec![0; SLOTS[1] + SLOT];
    file.read_exact_at(&mut first, 0)?;
    Ok(headers(&first))
}

/// Extends the file to its final length, writes the sectors and writes the header, and flushes before these and after each. What was
/// judged has to be there still, also the header that is written over, which the snapshot does not compare.
fn write_out(
    opened: &Opened,
    plan: &Plan,
    closed: &Snapshot,
    judged: &[Vec<u8>; 2],
) -> Result<(), Stop> {
    let failed = |error: io::Error, left: &str| {
        let name = &opened.name;
        Stop::failed(format!("{name}: {error}; {left}"))
    };
    opened.settle()?;
    let current = closed
        .is_current()
        .and_then(|current| Ok(current && headers_now(&opened.file)? == *judged));
    writing::require(current, opened)?;
    opened.grow(plan.length)?;
    writing::write_out(opened, closed, FIRST_MIB..plan.length).map_err(|error| {
        failed(
            error,
            "the log is still in the file; closing again does the rest",
        )
    })?;
    // what was not flushed may be gone when the machine starts anew
    writing::write_out(opened, closed, 0..FIRST_MIB).map_err(|error| {
        failed(
            error,
            "the sectors are on the disk, the header that ends the log may not be: let nobody write to the disk until, after a \
             restart, closing again has succeeded",
        )
    })
}

/// What is to be told.
struct Report<'a> {
    opened: &'a Opened,
    host: OnHost,
    log: Log,
    identifier: Identifier,
}

impl<'a> Report<'a> {
    fn new(opened: &'a Opened, log: Log, identifier: Identifier) -> Result<Report<'a>, Stop> {
        let host = opened.on_host()?;
        Ok(Report {
            opened,
            host,
            log,
            identifier,
        })
    }

    fn print(&self, out: &mut Output) -> Result<Status, Stop> {
        out.answer(|| self.lines(), || self.object())?;
        Ok(match self.log {
            Log::Refused(_) => Status::Refused,
            _ => Status::Answered,
        })
    }

    fn lines(&self) -> Vec<String> {
        let mut lines = vec![format!("file: {}", self.opened.name)];
        match self.log {
            Log::None => lines.push("log: none; nothing was changed".to_string()),
            Log::Closed(Closed { count, .. }) => {
                lines.push(format!(
                    "log: closed just now, {} sectors written; no attach applies it again, and the disk may be written to",
                    grouped(count)
                ));
                let identifier = identifier_text(&self.identifier);
                lines.push(format!("file-write identifier: {identifier}"));
            }
            Log::Refused(refusal) => lines.extend(refused::lines(self.opened, refusal)),
        }
        lines.extend(self.host.lines(self.opened));
        lines
    }

    fn object(&self) -> Object {
        let object = Object::about(&self.opened.name);
        let object = match self.log {
            Log::None => object.text("log", "none").null("identifier"),
            Log::Closed(_) => object
                .text("log", "closed")
                .text("identifier", &identifier_text(&self.identifier)),
            Log::Refused(_) => object.null("log").null("identifier"),
        };
        let (length, count) = match self.log {
            Log::Closed(Closed { length, count }) => (length, count),
            _ => (self.opened.length, 0),
        };
        let object = self.host.fields(object, self.opened, length, count);
        match self.log {
            Log::Refused(refusal) => {
                object.object("refusal", refused::object_of(self.opened, refusal))
            }
            _ => object.null("refusal"),
        }
    }
}
