//! `attach FILE`: what attach answers; the file is not changed.
use crate::json::Object;
use crate::output::{Output, Status, Stop};
use crate::pieces;
use crate::refused;
use crate::source::{OnHost, Opened, Source};
use crate::text::{grouped, size};
use shrunvaki::vhdx::{Attachment, Extent, Facts, Plan, Refusal};

/// What became of the file's log.
#[derive(Debug, PartialEq, Eq, Clone, Copy)]
pub enum Log {
    /// There is none, or it asks for nothing.
    None,
    /// It is in the file, and not applied to it now.
    Pending,
    /// It was applied to the file itself.
    Applied,
    /// Refusals 1 to 8 say why it is not known, or cannot be applied.
    Unknown,
}

/// What is to be told of a file.
pub struct Report<'a> {
    opened: &'a Opened,
    /// What the log asks for.
    plan: Plan,
    /// None where the tables were not read.
    facts: Result<Option<Facts>, Refusal>,
    host: OnHost,
    log: Log,
}

pub fn run(source: &Source, out: &mut Output) -> Result<Status, Stop> {
    let opened = source.open()?;
    let report = match pieces::are_used(source, &opened) {
        true => pieces::attach(&opened)?,
        false => Report::in_memory(&opened)?,
    };
    report.print(out)
}

impl<'a> Report<'a> {
    /// What attach answers, with the log applied in memory alone.
    pub fn in_memory(opened: &'a Opened) -> Result<Report<'a>, Stop> {
        let (_, attachment) = opened.attach()?;
        Report::of_attachment(opened, attachment, Log::Pending)
    }

    /// `became`: what became of a log that asks for something.
    pub fn of_attachment(
        opened: &'a Opened,
        attachment: Attachment,
        became: Log,
    ) -> Result<Report<'a>, Stop> {
        let Attachment {
            length,
            count,
            facts,
        } = attachment;
        Report::new(opened, Plan { length, count }, facts.map(Some), became)
    }

    /// The same where no tables were read.
    pub fn of_plan(
        opened: &'a Opened,
        planned: Result<Plan, Refusal>,
        became: Log,
    ) -> Result<Report<'a>, Stop> {
        let nothing = Plan {
            length: opened.length,
            count: 0,
        };
        let facts = planned.map(|_| None);
        Report::new(opened, planned.unwrap_or(nothing), facts, became)
    }

    fn new(
        opened: &'a Opened,
        plan: Plan,
        facts: Result<Option<Facts>, Refusal>,
        became: Log,
    ) -> Result<Report<'a>, Stop> {
        let log = match facts {
            Err(refusal) if refusal.is_before_the_log() => Log::Unknown,
            _ if plan.count == 0 && plan.length == opened.length => Log::None,
            _ => became,
        };
        let host = opened.on_host()?;
        Ok(Report {
            opened,
            plan,
            facts,
            host,
            log,
        })
    }

    pub fn print(&self, out: &mut Output) -> Result<Status, Stop> {
        out.answer(|| self.lines(), || self.object())?;
        Ok(match self.facts {
            Ok(_) => Status::Answered,
            Err(_) => Status::Refused,
        })
    }

    /// What people come for stands first.
    fn lines(&self) -> Vec<String> {
        let mut lines = vec![format!("file: {}", self.opened.name)];
        match &self.facts {
            Ok(Some(facts)) => {
                lines.push(format!("size to charge: {}", size(facts.disk_size)));
                lines.push(format!("kind: {}", kind(facts)));
            }
            Ok(None) => lines.push(
                "size to charge: not known; in pieces the log alone is read, and no tables"
                    .to_string(),
            ),
            Err(refusal) => lines.extend(refused::lines(self.opened, *refusal)),
        }
        lines.extend(self.log_line());
        lines.extend(self.host.lines(self.opened));
        lines.extend(self.facts.iter().flatten().flat_map(facts_lines));
        lines
    }

    fn log_line(&self) -> Option<String> {
        let Plan { length, count } = self.plan;
        Some(match self.log {
            Log::Unknown => return None,
            Log::None => "log: none".to_string(),
            Log::Applied => {
                "log: applied just now; it stays in the file until shrunvaki close ends it"
                    .to_string()
            }
            Log::Pending if length == self.opened.length => {
                format!(
                    "log: pending, {} sectors to write; the file keeps its length",
                    grouped(count)
                )
            }
            Log::Pending => format!(
                "log: pending, {} sectors to write; the file grows to {}",
                grouped(count),
                size(length)
            ),
        })
    }

    pub fn object(&self) -> Object {
        let object = Object::about(&self.opened.name);
        let object = match &self.facts {
            Ok(Some(facts)) => object
                .number("size_to_charge", facts.disk_size)
                .text("kind", kind(facts)),
            _ => object.null("size_to_charge").null("kind"),
        };
        let object = match self.log {
            Log::Unknown => object.null("log"),
            Log::None => object.text("log", "none"),
            Log::Pending => object.text("log", "pending"),
            Log::Applied => object.text("log", "applied"),
        };
        let Plan { length, count } = self.plan;
        let object = (self.host)
            .fields(object, self.opened, length, count)
            .boolean("locked_by_another", self.opened.locked_by_another);
        let object = match self.facts {
            Ok(_) => object.null("refusal"),
            Err(refusal) => object.object("refusal", refused::object_of(self.opened, refusal)),
        };
        let object = match (&self.facts, self.log) {
            (Ok(None), _) | (_, Log::Unknown) => object.text("tables", "not read"),
            _ => object.text("tables", "read"),
        };
        match &self.facts {
            Ok(Some(facts)) => object.object("facts", facts_object(facts)),
            _ => object.null("facts"),
        }
    }
}

/// As far as the facts tell: whether blocks are allocated in advance is not among them.
fn kind(facts: &Facts) -> &'static str {
    match facts.has_parent {
        true => "differencing",
        false => "fixed or dynamic",
    }
}

/// The facts as JSON.
fn facts_object(facts: &Facts) -> Object {
    let extent = |extent: Extent| {
        Object::new()
            .number("offset", extent.offset)
            .number("length", extent.length)
    };
    let object = Object::new()
        .number("disk_size", facts.disk_size)
        .number("logical_sector_size", facts.logical_sector_size)
        .number("physical_sector_size", facts.physical_sector_size)
        .number("block_size", facts.block_size)
        .boolean("has_parent", facts.has_parent)
        .text("disk_id", &facts.disk_id_text())
        .object("bat", extent(facts.bat))
        .object("metadata", extent(facts.metadata));
    match facts.has_parent {
        true => object.object("locator", extent(facts.locator)),
        false => object.null("locator"),
    }
}

/// The facts as text, a line each.
fn facts_lines(facts: &Facts) -> Vec<String> {
    let extent = |extent: Extent| {
        format!(
            "{}, from byte {} on",
            size(extent.length),
            grouped(extent.offset)
        )
    };
    let mut lines = vec![
        format!("logical sector size: {}", size(facts.logical_sector_size)),
        format!("physical sector size: {}", size(facts.physical_sector_size)),
        format!("block size: {}", size(facts.block_size)),
        format!("disk identifier: {}", facts.disk_id_text()),
        format!("block allocation table: {}", extent(facts.bat)),
        format!("metadata: {}", extent(facts.metadata)),
    ];
    if facts.has_parent {
        lines.push(format!("parent locator: {}", extent(facts.locator)));
    }
    lines
}
