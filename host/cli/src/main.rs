//! The command `shrunvaki`: what a VHDX file from a stranger is, answered by the proved library.
//!
//! A module a command; `arguments` and `help` are what a user writes and reads, `output`, `json`, `text` and `refused` what is
//! printed, `source` a file under a `lock` in a `snapshot`, `pieces` one that no buffer holds, `writing` how the file itself is
//! changed, `foreign` files of other formats, `runs` the disk's sectors run by run, `progress` the line on long work, `os` what the
//! standard library lacks.
mod apply;
mod arguments;
mod attach;
mod cat;
mod close;
mod demo;
mod foreign;
mod help;
mod json;
mod lock;
mod lookup;
mod map;
mod os;
mod output;
mod parent;
mod pieces;
mod progress;
mod refused;
mod runs;
mod snapshot;
mod source;
mod text;
mod writing;

use arguments::Action;
use output::{Output, Status, Stop};
use std::ffi::OsString;
use std::process::ExitCode;

fn main() -> ExitCode {
    os::ignore_file_size_signal();
    let words: Vec<OsString> = std::env::args_os().skip(1).collect();
    let mut out = Output::new(arguments::ask_for_json(&words));
    let ended = out
        .check()
        .and_then(|()| Action::parse(words))
        .and_then(|action| run(action, &mut out));
    out.end(ended)
}

fn run(action: Action, out: &mut Output) -> Result<Status, Stop> {
    match action {
        Action::Attach(source) => attach::run(&source, out),
        Action::Apply { source, wait } => apply::run(&source, wait, out),
        Action::Close {
            source,
            identifier,
            wait,
        } => close::run(&source, identifier, wait, out),
        Action::Lookup(source, sectors) => lookup::run(&source, &sectors, out),
        Action::Map(source, range) => map::run(&source, range, out),
        Action::Parent(source, key) => parent::run(&source, key.as_deref(), out),
        Action::Cat {
            source,
            range,
            force,
        } => cat::run(&source, range, force, out),
        Action::Demo => demo::run(out),
        Action::Help(text) => out.line(text.trim_end()).map(|()| Status::Answered),
    }
}
