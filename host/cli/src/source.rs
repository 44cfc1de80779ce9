//! A VHDX file, opened and locked, in a buffer.
use crate::json::Object;
use crate::lock;
use crate::os::set_words;
use crate::output::{Output, Status, Stop};
use crate::progress::timed;
use crate::refused;
use crate::snapshot::Snapshot;
use crate::text::{size, Name};
use shrunvaki::mapping::open_regular;
use shrunvaki::vhdx::{Attachment, Facts, Image, Plan};
use std::ffi::OsString;
use std::fs::{File, OpenOptions};
use std::io::{self, ErrorKind};
use std::os::unix::fs::MetadataExt;
use std::path::Path;

/// What a log may grow a file by where the user does not say.
const GROWTH: u64 = 1 << 30;

/// How many sectors a log may have written where the user does not say: 4 GiB. A log of 64 MiB holds less than 16,384 data
/// sectors. To meet this, one would have to zero sixteen blocks of the largest size, 256 MiB, at once.
pub const MAX_SECTORS: u64 = 1 << 20;

/// Of a sector of the log's.
const SECTOR: u64 = 4096;

/// The file that the user names, and the limits for what its log may ask for.
#[derive(Debug, PartialEq, Eq, Clone)]
pub struct Source {
    pub path: OsString,
    /// The file's length and some growth, where it is not given.
    pub capacity: Option<u64>,
    pub max_sectors: u64,
    /// The log's work is to be done in pieces.
    pub pieces: bool,
}

impl Source {
    pub fn new(path: OsString) -> Source {
        Source {
            path,
            capacity: None,
            max_sectors: MAX_SECTORS,
            pieces: false,
        }
    }

    pub fn name(&self) -> Name {
        Name(self.path.clone())
    }

    /// Opens the file to be read.
    pub fn open(&self) -> Result<Opened, Stop> {
        let file = self.open_file(OpenOptions::new().read(true))?;
        let locked = lock::to_read(&file, &self.name());
        self.opened(file, locked)
    }

    /// Opens the file to be written, under an exclusive lock.
    pub fn open_exclusive(&self, wait: bool) -> Result<Opened, Stop> {
        let file = self.open_file(OpenOptions::new().read(true).write(true))?;
        lock::to_write(&file, &self.name(), wait)?;
        self.opened(file, false)
    }

    /// Attaches the file in memory and goes on with the disk, or says that the file is refused.
    pub fn attached(
        &self,
        out: &mut Output,
        go_on: impl FnOnce(&Disk, &mut Output) -> Result<Status, Stop>,
    ) -> Result<Status, Stop> {
        let opened = self.open()?;
        let (image, attachment) = opened.attach()?;
        let name = &opened.name;
        match attachment.facts {
            Ok(facts) => go_on(&Disk { name, image, facts }, out),
            Err(refusal) => refused::print(&opened, refusal, out),
        }
    }

    fn open_file(&self, options: &mut OpenOptions) -> Result<File, Stop> {
        // a lease of another program's is waited for
        let opened = timed("opening", || open_regular(Path::new(&self.path), options));
        opened.map_err(|error| {
            let why = match error.kind() {
                ErrorKind::IsADirectory => "is a directory".to_string(),
                ErrorKind::InvalidInput => "is not a regular file".to_string(),
                _ => error.to_string(),
            };
            Stop::failed(format!("{}: {why}", self.name()))
        })
    }

    fn opened(&self, file: File, locked_by_another: bool) -> Result<Opened, Stop> {
        let name = self.name();
        let length = (file.metadata())
            .map_err(|error| Stop::failed(format!("{name}: {error}")))?
            .len();
        set_words(&name);
        Ok(Opened {
            name,
            file,
            length,
            capacity: self.capacity.unwrap_or(length.saturating_add(GROWTH)),
            by_default: self.capacity.is_none(),
            max_sectors: self.max_sectors,
            locked_by_another,
        })
    }
}

/// The file's length is that under the lock.
pub struct Opened {
    pub name: Name,
    pub file: File,
    pub length: u64,
    pub capacity: u64,
    /// The user gave no capacity.
    by_default: bool,
    max_sectors: u64,
    pub locked_by_another: bool,
}

impl Opened {
    /// What attach answers, once its work is known to be no more than is allowed; and the image then. The file is not changed.
    pub fn attach(&self) -> Result<(Image<Snapshot>, Attachment), Stop> {
        let mut image = self.image()?;
        if let Ok(plan) = image.plan() {
            self.allow(&plan)?;
        }
        let attachment = timed("reading the log", || image.attach());
        Ok((image, attachment))
    }

    /// That a plan is no more than is allowed. Growth is work too: zeros are written from the file's end on.
    pub fn allow(&self, plan: &Plan) -> Result<(), Stop> {
        let sectors = self.sectors(plan);
        self.allow_if(sectors <= self.max_sectors, Some(sectors))
    }

    /// The same of a plan as far as it was counted: what the log asks for in the end is not known.
    pub fn allow_so_far(&self, plan: &Plan) -> Result<(), Stop> {
        self.allow_if(self.sectors(plan) <= self.max_sectors, None)
    }

    fn sectors(&self, plan: &Plan) -> u64 {
        let growth = (plan.length - self.length).div_ceil(SECTOR);
        plan.count.saturating_add(growth)
    }

    fn allow_if(&self, allowed: bool, sectors: Option<u64>) -> Result<(), Stop> {
        match allowed {
            true => Ok(()),
            false => Err(Stop::TooMuchWork {
                file: self.name.clone(),
                sectors,
                max_sectors: self.max_sectors,
            }),
        }
    }

    /// The file in a buffer of the capacity.
    pub fn image(&self) -> Result<Image<Snapshot>, Stop> {
        let buffer = Snapshot::new(&self.file, self.length, self.capacity);
        let buffer = buffer.map_err(|error| self.cannot_map(&error))?;
        Ok(Image::new(buffer, self.length))
    }

    /// Has the file as it came reach the disk, before anything is written to it. A copy that was just made may not be there, and a power
    /// failure would take it back together with its log.
    pub fn settle(&self) -> Result<(), Stop> {
        self.flush().map_err(|error| {
            let name = &self.name;
            Stop::failed(format!(
                "{name}: cannot be flushed: {error}; nothing was written"
            ))
        })
    }

    /// Extends the file with zeros and flushes it, before any sector is written: where the old end lies inside a block of the disk, the
    /// file system may write that block anew, which holds bytes that no log names. That is over then.
    pub fn grow(&self, length: u64) -> Result<(), Stop> {
        if length <= self.length {
            return Ok(());
        }
        let grown = self.file.set_len(length).and_then(|()| self.flush());
        grown.map_err(|error| {
            let (name, length) = (&self.name, size(length));
            Stop::failed(format!("{name}: cannot grow to {length}: {error}"))
        })
    }

    /// Has all that was written reach the disk.
    pub fn flush(&self) -> io::Result<()> {
        timed("flushing", || self.file.sync_all())
    }

    /// Whether a buffer can hold the file, or as much of it as the capacity allows.
    pub fn fits(&self) -> bool {
        let capacity = self.capacity.min(self.length);
        Snapshot::new(&self.file, self.length, capacity).is_ok()
    }

    fn cannot_map(&self, error: &io::Error) -> Stop {
        let (name, capacity) = (&self.name, size(self.capacity));
        let limit = "than this process may have (its address space, or ulimit -v)";
        Stop::failed(if !self.fits() {
            format!(
                "{name}: the file is longer {limit}: {}. Only attach takes such a file, and does its log's work in pieces ({error})",
                size(self.length)
            )
        } else if !self.by_default {
            format!(
                "{name}: cannot have a buffer of {capacity}, more {limit}: give less with --capacity, or attach with --pieces ({error})"
            )
        } else {
            format!(
                "{name}: cannot have a buffer of {capacity}, the file's length and {}, which is more {limit}: give less with \
                 --capacity ({error})",
                size(GROWTH)
            )
        })
    }

    /// The file's length now, and how much space it takes on the host.
    pub fn on_host(&self) -> Result<OnHost, Stop> {
        let metadata = (self.file.metadata())
            .map_err(|error| Stop::failed(format!("{}: {error}", self.name)))?;
        Ok(OnHost {
            length: metadata.len(),
            // counted in 512 bytes, whatever the file system's blocks are
            allocated: metadata.blocks() * 512,
        })
    }
}

/// What the host knows of a file.
pub struct OnHost {
    pub length: u64,
    pub allocated: u64,
}

impl OnHost {
    /// As text, with the capacity.
    pub fn lines(&self, opened: &Opened) -> [String; 3] {
        [
            format!("length of the file: {}", size(self.length)),
            format!("allocated on the host: {}", size(self.allocated)),
            format!("capacity: {}", size(opened.capacity)),
        ]
    }

    /// As fields of JSON, with what a call answers: the length that the log gives the file, and how many sectors it writes.
    pub fn fields(&self, object: Object, opened: &Opened, length: u64, sectors: u64) -> Object {
        object
            .number("given_length", opened.length)
            .number("capacity", opened.capacity)
            .number("length", length)
            .number("sectors", sectors)
            .number("allocated", self.allocated)
    }
}

/// A file that was attached in memory.
pub struct Disk<'a> {
    pub name: &'a Name,
    pub image: Image<Snapshot>,
    pub facts: Facts,
}
