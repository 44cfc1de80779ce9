//! Runs of the program, held to the model.
use shrunvaki_testkit::command::{end, Folder};
use shrunvaki_testkit::list_writes::list_writes;
use shrunvaki_testkit::model::{self, File, Pieces};
use shrunvaki_testkit::pending::assert_same;
use shrunvaki_testkit::pieces::{End, Request};
use shrunvaki_testkit::sample::TIB;
use std::ffi::OsStr;
use std::fs;
use std::io::{BufRead, BufReader};
use std::os::unix::fs::MetadataExt;
use std::path::Path;
use std::process::{Child, ChildStdout, Command, Stdio};

/// What is compared of one listing: a short log may name 2^35 sectors.
const MOST: u64 = 20_000;

/// All that the program prints with these words.
#[track_caller]
pub fn listed(words: &[impl AsRef<OsStr>]) -> String {
    printed(Command::new(list_writes()).args(words))
}

/// The same of a run that was made ready. Nothing goes to the error output, and the status is 0 whatever is printed.
#[track_caller]
pub fn printed(command: &mut Command) -> String {
    let ran = end(command).with(0);
    assert_eq!(ran.errors, "");
    ran.text()
}

/// A run whose output is read as it comes.
pub fn start(path: &Path) -> (Child, BufReader<ChildStdout>) {
    let mut program = Command::new(list_writes());
    let mut child = program
        .arg(path)
        .stdout(Stdio::piped())
        .spawn()
        .expect("the program");
    let output = child.stdout.take().expect("its output");
    (child, BufReader::new(output))
}

/// What changes with a file's bytes or with the file.
fn state(path: &Path) -> [i64; 6] {
    let state = fs::metadata(path).expect("the file");
    [
        state.len() as i64,
        state.mtime(),
        state.mtime_nsec(),
        state.ctime(),
        state.ctime_nsec(),
        i64::from(state.mode()),
    ]
}

/// That something leaves a file as it was.
#[track_caller]
pub fn assert_unchanged(path: &Path, run: impl FnOnce()) {
    let before = state(path);
    run();
    assert_eq!(state(path), before, "the file was changed");
}

/// That the program prints what the model lists of a file, as far as anybody waits for it, and that it leaves the file as it was.
#[track_caller]
pub fn assert_listed(path: &Path, file: File) -> End {
    let pieces = Pieces::new(file, 128 * TIB);
    let end = pieces.end();
    assert_unchanged(path, || match end {
        End::Done { count, .. } if count > MOST => assert_begins(path, &pieces),
        _ => assert_eq!(listed(&[path]), model::listing(file)),
    });
    end
}

/// Compares the first lines and ends the run.
#[track_caller]
fn assert_begins(path: &Path, pieces: &Pieces) {
    let (mut child, output) = start(path);
    let mut lines = output.lines();
    for expected in pieces.requests().filter_map(line).take(MOST as usize) {
        let line = lines.next().expect("a line").expect("text");
        assert_eq!(line, expected);
    }
    child.kill().expect("ended");
    child.wait().expect("its end");
}

fn line(request: Request) -> Option<String> {
    match request {
        Request::Grow(_) => None,
        Request::Write { offset, data, .. } => {
            let kind = if data { 'D' } else { 'Z' };
            Some(format!("{offset} {kind}"))
        }
    }
}

/// The same of a file that has these bytes, which it has afterwards too.
#[track_caller]
pub fn assert_bytes_listed(folder: &Folder, bytes: &[u8]) -> End {
    let path = folder.write("disk.vhdx", bytes).expect("a file");
    let end = assert_listed(&path, File::new(bytes));
    assert_same(&fs::read(&path).expect("the file"), bytes, "the file");
    end
}
