//! The command on VHDX files that qemu made: what `samples.rs` and `qemu.rs` share.
use shrunvaki_testkit::command::{end, Folder, Ran};
use shrunvaki_testkit::json::Json;
use std::path::{Path, PathBuf};
use std::process::{Command, Stdio};

const SHRUNVAKI: &str = env!("CARGO_BIN_EXE_shrunvaki");

/// The first MiB, where qemu's replay rewrites the headers, which ours leaves alone.
const FIRST_MIB: &str = "--ignore-initial=1048576";

/// The first MiB and the log, which qemu puts behind it; all files here have logs of 1 MiB.
const UP_TO_THE_LOGS_END: &str = "--bytes=2097152";

/// Runs the command on a file.
pub fn shrunvaki(arguments: &[&str], file: &Path) -> Ran {
    end(Command::new(SHRUNVAKI).args(arguments).arg(file))
}

/// What `attach --json` prints.
pub struct Answer(pub Json);

impl Answer {
    /// Asserts that the status goes with the answer.
    #[track_caller]
    pub fn of(file: &Path) -> Answer {
        let ran = shrunvaki(&["attach", "--json"], file);
        let answer = Answer(Json::parse(&ran.text()));
        let refused = answer.refusal().is_some();
        ran.with(i32::from(refused));
        answer
    }

    /// The number of the refusal.
    pub fn refusal(&self) -> Option<u64> {
        (!self.0.has("refusal")).then(|| self.0.number("refusal.number"))
    }
}

/// Copies a file without filling its holes.
pub fn copy(from: &Path, to: &Path) {
    end(Command::new("cp").arg("--sparse=always").args([from, to])).with(0);
}

/// That two files agree, as `cmp` compares them with these options: files need not fit into memory.
#[track_caller]
pub fn assert_same_files(options: &[&str], got: &Path, expected: &Path) {
    let ran = end(Command::new("cmp").args(options).args([got, expected]));
    assert_eq!(ran.status, Some(0), "{}{}", ran.text(), ran.errors);
}

/// That the sectors of a disk are what a raw file holds.
#[track_caller]
pub fn assert_contents(disk: &Path, raw: &Path) {
    let mut cat = Command::new(SHRUNVAKI)
        .arg("cat")
        .arg(disk)
        .stdout(Stdio::piped())
        .spawn()
        .expect("the command");
    let sectors = cat.stdout.take().expect("its output");
    let compared = end(Command::new("cmp").arg("-").arg(raw).stdin(sectors));
    let status = cat.wait().expect("its end");
    let difference = format!("{}{}", compared.text(), compared.errors);
    assert_eq!(compared.status, Some(0), "{}: {difference}", disk.display());
    assert!(status.success(), "{}: {status}", disk.display());
}

/// Applies a file's log to a copy of it. Asserts that past the first MiB it is then qemu's file with the log applied, that the
/// first MiB and the log are as they were, that applying again changes nothing, and that in pieces it is the same.
#[track_caller]
pub fn assert_applied(folder: &Folder, pending: &Path, by_qemu: &Path) {
    let (once, twice) = (folder.file("applied"), folder.file("applied-twice"));
    copy(pending, &once);
    let said = shrunvaki(&["attach", "--apply"], &once).with(0).text();
    assert!(said.starts_with("applying: "), "{said}");
    assert_same_files(&[FIRST_MIB], &once, by_qemu);
    assert_same_files(&[UP_TO_THE_LOGS_END], &once, pending);
    copy(&once, &twice);
    shrunvaki(&["attach", "--apply"], &twice).with(0);
    assert_same_files(&[], &twice, &once);
    let in_pieces = folder.file("applied-in-pieces");
    copy(pending, &in_pieces);
    shrunvaki(&["attach", "--apply", "--pieces"], &in_pieces).with(0);
    assert_same_files(&[], &in_pieces, &once);
}

/// Closes a file's log in a copy of it, which is the answer. Asserts that past the first MiB it is then qemu's file with the log
/// applied, that no log is pending any more, and that closing again changes nothing.
#[track_caller]
pub fn assert_closed(folder: &Folder, pending: &Path, by_qemu: &Path) -> PathBuf {
    let (once, twice) = (folder.file("closed"), folder.file("closed-twice"));
    copy(pending, &once);
    let said = shrunvaki(&["close"], &once).with(0).text();
    assert!(said.contains("\nlog: closed just now, "), "{said}");
    assert_same_files(&[FIRST_MIB], &once, by_qemu);
    assert_eq!(Answer::of(&once).0.text("log"), "none");
    copy(&once, &twice);
    let said = shrunvaki(&["close"], &twice).with(0).text();
    assert!(said.contains("\nlog: none; "), "{said}");
    assert_same_files(&[], &twice, &once);
    once
}

/// That a file is refused by this number whatever is asked of it, and is not changed.
#[track_caller]
pub fn assert_refused(folder: &Folder, file: &Path, number: u64) {
    let asked = folder.file("refused");
    copy(file, &asked);
    assert_eq!(Answer::of(&asked).refusal(), Some(number));
    for arguments in [
        &["attach", "--apply"][..],
        &["attach", "--apply", "--pieces"],
        &["close"],
        &["map"],
        &["cat"],
    ] {
        shrunvaki(arguments, &asked).with(1);
    }
    assert_same_files(&[], &asked, file);
}
