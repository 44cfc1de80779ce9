//! What the command prints, and how it ends.
use crate::json::Object;
use crate::os::{self, OBJECT_FITS};
use crate::text::{grouped, Name};
use std::fmt;
use std::fs::File;
use std::io::{self, BufWriter, Seek, SeekFrom, StdoutLock, Write};
use std::os::fd::AsFd;
use std::process::ExitCode;
use std::sync::atomic::Ordering;

/// How a command ends that ran.
#[derive(Debug, PartialEq, Eq, Clone, Copy)]
pub enum Status {
    Answered,
    Refused,
    /// Bytes were asked for that lie in the parent disk.
    AsksParent,
}

impl From<Status> for ExitCode {
    fn from(status: Status) -> ExitCode {
        ExitCode::from(match status {
            Status::Answered => 0,
            Status::Refused => 1,
            Status::AsksParent => 3,
        })
    }
}

/// Why a command did not run to its end.
#[derive(Debug)]
pub enum Stop {
    /// Misuse, or a file that cannot be read.
    Failed(String),
    /// A log asks for more than the user allows. Nothing was written.
    TooMuchWork {
        file: Name,
        /// None where they were not counted to the end.
        sectors: Option<u64>,
        max_sectors: u64,
    },
    /// Nobody reads the output any more.
    ClosedPipe,
}

impl Stop {
    pub fn failed(message: impl Into<String>) -> Stop {
        Stop::Failed(message.into())
    }
}

/// Of writing the output: errors of files are given words where they arise.
impl From<io::Error> for Stop {
    fn from(error: io::Error) -> Stop {
        if error.kind() == io::ErrorKind::BrokenPipe {
            Stop::ClosedPipe
        } else {
            Stop::failed(format!("cannot write the output: {error}"))
        }
    }
}

/// Writes to standard error. That nobody can read it is no reason to stop.
pub fn note(text: impl fmt::Display) {
    let _ = write!(io::stderr(), "{text}");
}

/// Standard output, which remembers that something was written.
struct Stdout(StdoutLock<'static>);

impl Write for Stdout {
    fn write(&mut self, bytes: &[u8]) -> io::Result<usize> {
        OBJECT_FITS.store(false, Ordering::Relaxed);
        self.0.write(bytes)
    }

    fn flush(&mut self) -> io::Result<()> {
        self.0.flush()
    }
}

/// So many zeros are written at once.
pub static ZEROS: [u8; 1 << 16] = [0; 1 << 16];

/// A hole takes the space of whole blocks; below that zeros are written.
const LEAST_HOLE: u64 = 4096;

/// Standard output, as text or as JSON.
pub struct Output {
    pub json: bool,
    to: BufWriter<Stdout>,
    /// Standard output again, where zeros may become holes.
    sparse: Option<File>,
    /// Zeros that are not written yet, where they may become a hole.
    zeros: u64,
}

impl Output {
    pub fn new(json: bool) -> Output {
        OBJECT_FITS.store(json, Ordering::Relaxed);
        Output {
            json,
            to: BufWriter::new(Stdout(io::stdout().lock())),
            sparse: None,
            zeros: 0,
        }
    }

    /// From here on long runs of zeros become holes, if standard output is a regular file and all of it lies before what is written
    /// next: a hole in the middle would show what was there.
    pub fn allow_holes(&mut self) -> Result<(), Stop> {
        self.flush()?;
        let mut file = File::from(io::stdout().as_fd().try_clone_to_owned()?);
        let metadata = file.metadata()?;
        let at_end = |file: &mut File| file.stream_position().ok() == Some(metadata.len());
        if metadata.is_file() && at_end(&mut file) && !os::appends(file.as_fd()) {
            self.sparse = Some(file);
        }
        Ok(())
    }

    /// That there is an output at all.
    pub fn check(&self) -> Result<(), Stop> {
        match os::output_is_closed() {
            true => Err(Stop::failed("standard output is closed")),
            false => Ok(()),
        }
    }

    pub fn makes_holes(&self) -> bool {
        self.sparse.is_some()
    }

    pub fn line(&mut self, text: &str) -> Result<(), Stop> {
        self.bytes(text.as_bytes())?;
        self.bytes(b"\n")
    }

    /// An answer, in lines or as one object.
    pub fn answer(
        &mut self,
        lines: impl FnOnce() -> Vec<String>,
        object: impl FnOnce() -> Object,
    ) -> Result<(), Stop> {
        match self.json {
            true => self.line(&object().finish()),
            false => lines().iter().try_for_each(|line| self.line(line)),
        }
    }

    pub fn bytes(&mut self, bytes: &[u8]) -> Result<(), Stop> {
        self.write_zeros()?;
        Ok(self.to.write_all(bytes)?)
    }

    /// So many zeros. Where they may become a hole they are counted first.
    pub fn zeros(&mut self, count: u64) -> Result<(), Stop> {
        self.zeros += count;
        match self.sparse {
            Some(_) => Ok(()),
            None => self.write_zeros(),
        }
    }

    /// Writes the zeros that are counted, or leaves a hole for them.
    fn write_zeros(&mut self) -> Result<(), Stop> {
        let mut left = std::mem::take(&mut self.zeros);
        if let (Some(file), true) = (&mut self.sparse, left >= LEAST_HOLE) {
            self.to.flush()?;
            // the file is made longer, for the case that nothing follows
            let end = file.stream_position()? + left;
            file.set_len(end)?;
            file.seek(SeekFrom::Start(end))?;
            return Ok(());
        }
        while left > 0 {
            let piece = left.min(ZEROS.len() as u64);
            self.to.write_all(&ZEROS[..piece as usize])?;
            left -= piece;
        }
        Ok(())
    }

    pub fn flush(&mut self) -> Result<(), Stop> {
        self.write_zeros()?;
        Ok(self.to.flush()?)
    }

    /// Says how the command ended, where that is not said yet.
    pub fn end(mut self, ended: Result<Status, Stop>) -> ExitCode {
        let stop = match ended.and_then(|status| self.flush().map(|()| status)) {
            Ok(status) => return status.into(),
            Err(stop) => stop,
        };
        // what is held back of an answer that broke off is not printed any more
        let (Stdout(mut to), _) = self.to.into_parts();
        let (message, object, code) = match stop {
            // whoever read the output has seen enough
            Stop::ClosedPipe => return ExitCode::SUCCESS,
            Stop::Failed(message) => {
                let object = error_object("failed", &message);
                (message, Object::versioned().object("error", object), 2)
            }
            Stop::TooMuchWork {
                file,
                sectors,
                max_sectors,
            } => {
                let asked = match sectors {
                    Some(sectors) => format!("{} sectors", grouped(sectors)),
                    None => format!("at least {} sectors", grouped(max_sectors + 1)),
                };
                let message = format!(
                    "{file}: its log asks for {asked} to be written, those that it adds to the file among them, more than the {} that \
                     --max-sectors allows. Nothing was written. If the file is to be trusted that far, give more with --max-sectors; if not, treat it as hostile.",
                    grouped(max_sectors)
                );
                let object = error_object("too much work", &message);
                let object = match sectors {
                    Some(sectors) => object.number("sectors", sectors),
                    None => object.null("sectors"),
                }
                .number("max_sectors", max_sectors);
                (message, Object::about(&file).object("error", object), 4)
            }
        };
        note(format_args!("shrunvaki: {message}\n"));
        if OBJECT_FITS.load(Ordering::Relaxed) {
            // that it cannot be written is no other end than this one
            let _ = writeln!(to, "{}", object.finish()).and_then(|()| to.flush());
        }
        ExitCode::from(code)
    }
}

fn error_object(kind: &str, message: &str) -> Object {
    Object::new().text("kind", kind).text("message", message)
}

/// What is printed in the place of an answer where the file's bytes are gone.
pub fn failure_line(message: &str) -> String {
    let object = Object::versioned().object("error", error_object("failed", message));
    format!("{}\n", object.finish())
}
