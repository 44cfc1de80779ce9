//! A line on standard error while work goes on for long: on a terminal written anew each second, else now and then.
use std::io::{self, IsTerminal, Stderr, Write};
use std::sync::mpsc::{self, RecvTimeoutError};
use std::thread;
use std::time::{Duration, Instant};

/// Short work says nothing.
const SILENT: Duration = Duration::from_secs(2);

const TICK: Duration = Duration::from_millis(500);

/// On a terminal: back to the line's start, and nothing on it.
const REMOVED: &str = "\r\x1b[K";

/// The line, and how often it is written.
struct Line<W: Write> {
    to: W,
    terminal: bool,
    began: Instant,
    next: Duration,
    written: bool,
}

impl Line<Stderr> {
    fn new() -> Line<Stderr> {
        let to = io::stderr();
        let terminal = to.is_terminal();
        Line::from(to, terminal, Instant::now())
    }
}

impl<W: Write> Line<W> {
    fn from(to: W, terminal: bool, began: Instant) -> Line<W> {
        Line {
            to,
            terminal,
            began,
            next: SILENT,
            written: false,
        }
    }

    /// Writes the line if it is time to. That nobody can read it is no reason to stop.
    fn say(&mut self, text: impl FnOnce() -> String) {
        let elapsed = self.began.elapsed();
        if elapsed < self.next {
            return;
        }
        let line = format!("{}, {} s", text(), elapsed.as_secs());
        let _ = match self.terminal {
            true => write!(self.to, "{REMOVED}{line}"),
            false => writeln!(self.to, "{line}"),
        };
        self.written = true;
        self.next = elapsed + Duration::from_secs(if self.terminal { 1 } else { 10 });
    }
}

impl<W: Write> Drop for Line<W> {
    fn drop(&mut self) {
        if self.written && self.terminal {
            let _ = write!(self.to, "{REMOVED}");
        }
    }
}

/// How far work has come that is done piece by piece.
pub struct Progress {
    line: Line<Stderr>,
    work: &'static str,
    calls: u32,
    every: u32,
}

impl Progress {
    /// The clock is looked at once in so many calls: a look takes as long as a lookup.
    pub fn new(work: &'static str, every: u32) -> Progress {
        Progress {
            line: Line::new(),
            work,
            calls: 0,
            every,
        }
    }

    /// `done` of `all` is done.
    pub fn at(&mut self, done: u64, all: u64) {
        self.calls = self.calls.wrapping_add(1);
        if self.calls.is_multiple_of(self.every) {
            let percent = u128::from(done) * 100 / u128::from(all.max(1));
            let work = self.work;
            self.line.say(|| format!("{work}: {percent} %"));
        }
    }
}

/// Does work that says nothing itself, and says how long it has taken so far. Where no thread can be had for that, it is done
/// without.
pub fn timed<T>(work: &'static str, call: impl FnOnce() -> T) -> T {
    let (stop, stopped) = mpsc::channel::<()>();
    let watch = move || {
        let mut line = Line::new();
        // dropping the other end ends this
        while stopped.recv_timeout(TICK) == Err(RecvTimeoutError::Timeout) {
            line.say(|| work.to_string());
        }
    };
    thread::scope(|scope| {
        let _ = thread::Builder::new().spawn_scoped(scope, watch);
        let result = call();
        drop(stop);
        result
    })
}

#[cfg(test)]
mod tests {
    use super::*;

    /// What work of five seconds writes, by the time it has ended.
    fn written(terminal: bool) -> String {
        let mut to = Vec::new();
        let began = Instant::now() - Duration::from_secs(5);
        let mut line = Line::from(&mut to, terminal, began);
        for percent in [7, 8] {
            line.say(|| format!("mapping: {percent} %"));
        }
        drop(line);
        String::from_utf8(to).expect("text")
    }

    #[test]
    fn the_line_is_removed_from_a_terminal() {
        assert_eq!(written(true), "\r\x1b[Kmapping: 7 %, 5 s\r\x1b[K");
        assert_eq!(written(false), "mapping: 7 %, 5 s\n");
    }
}
