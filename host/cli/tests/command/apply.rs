//! `attach --apply`: what it does to the file, and when it does nothing; and what it has in common in pieces, and `close` with it.
use crate::close::{closed, STORED, WRITTEN};
use crate::sample::{bytes, in_shell, Sample, PROGRAM};
use crate::watched::Watched;
use shrunvaki_testkit::pending::{assert_same, r1, rich, sample_file, small_blocks};
use std::fs::File;
use std::io::{BufRead, BufReader};
use std::process::{Child, Command, Stdio};
use std::thread;
use std::time::Duration;

/// The commands that change a file.
const WRITERS: [(&str, &[&str]); 3] = [
    ("attach", &["--apply"]),
    ("attach", &["--apply", "--pieces"]),
    ("close", &["--identifier", WRITTEN]),
];

/// The small disk's file with its log applied.
fn applied() -> Vec<u8> {
    let (mut bytes, length) = sample_file().applied();
    bytes.truncate(length as usize);
    bytes
}

/// The same as one of them leaves it.
fn written_by(command: &str) -> Vec<u8> {
    match command {
        "close" => closed(&sample_file(), STORED),
        _ => applied(),
    }
}

#[test]
fn it_does_what_the_log_says() {
    let (disk, _) = small_blocks();
    for pending in [sample_file(), rich(&disk), r1()] {
        let sample = Sample::new(bytes(&pending));
        let (mut applied, length) = pending.applied();
        applied.truncate(length as usize);
        // R1's file has no tables: it is refused by 9, with its log applied
        let status = if pending.replay.count() == 2 { 1 } else { 0 };
        let ran = sample.run("attach", &["--apply"]).with(status);
        let announced = format!(
            "applying: {} sectors; the file grows by ",
            pending.replay.count()
        );
        assert!(ran.text().starts_with(&announced), "{ran:?}");
        let log = "\nlog: applied just now; it stays in the file until shrunvaki close ends it\n";
        assert!(ran.text().contains(log), "{ran:?}");
        assert!(
            sample.now() == applied,
            "the file is not what the log makes it"
        );
        // and again, with nothing to grow
        let json = sample.json("attach", &["--apply"], status);
        assert_eq!(json.text("log"), "applied");
        let ran = sample.run("attach", &["--apply", "--json"]);
        assert!(ran.errors.contains("the file keeps its length"), "{ran:?}");
        assert!(sample.now() == applied, "applied twice");
    }
}

#[test]
fn the_length_printed_is_the_one_after_growth() {
    let sample = Sample::pending();
    let text = sample.run("attach", &["--apply"]).with(0).text();
    let line = "\nlength of the file: 5 MiB (5,242,880 bytes)\n";
    assert!(text.contains(line), "{text}");
    let json = Sample::pending().json("attach", &["--apply"], 0);
    assert_eq!(
        (json.number("given_length"), json.number("length")),
        (4 << 20, 5 << 20)
    );
}

#[test]
fn it_touches_nothing_that_is_refused() {
    let sample = Sample::pending();
    let ran = sample.run("attach", &["--apply", "--capacity", "5242879"]);
    assert!(ran.with(1).text().contains("refused: 8"));
    sample.assert_unchanged();
    let empty = Sample::new(vec![]);
    assert!(empty
        .run("attach", &["--apply"])
        .with(1)
        .text()
        .contains("refused: 1"));
    empty.assert_unchanged();
}

#[test]
fn a_limit_for_the_size_of_files_is_an_error() {
    for (command, more) in WRITERS {
        let sample = Sample::pending();
        // in units of 512 bytes: more than the file has, less than the log makes it
        let limited = "ulimit -f 9000; exec \"$0\" \"$@\"";
        let ran = in_shell(limited, &[&[command, &sample.path], more].concat());
        assert!(ran.with(2).errors.contains("cannot grow to 5 MiB"));
        sample.assert_unchanged();
        sample.run(command, more).with(0);
    }
}

#[test]
fn a_file_that_does_not_reach_the_disk_is_not_written_to() {
    let watched = Watched::new();
    for (command, more) in WRITERS {
        let sample = Sample::pending();
        let words = [&[command], more].concat();
        let ran = watched.run(&words, &sample, &[("FAIL_AT_FLUSH", "1")]);
        let told = "cannot be flushed: Input/output error (os error 5); nothing was written";
        assert!(ran.with(2).errors.contains(told));
        sample.assert_unchanged();
        sample.run(command, more).with(0);
    }
}

#[test]
fn growth_that_does_not_reach_the_disk_is_an_error() {
    let watched = Watched::new();
    for (command, more) in WRITERS {
        let sample = Sample::pending();
        let words = [&[command], more].concat();
        let ran = watched.run(&words, &sample, &[("FAIL_AT_FLUSH", "2")]);
        let errors = ran.with(2).errors;
        let told = "cannot grow to 5 MiB (5,242,880 bytes): Input/output error";
        assert!(errors.contains(told), "{errors}");
        // no sector was written
        let mut grown = sample.bytes.clone();
        grown.resize(5 << 20, 0);
        assert_same(&sample.now(), &grown, command);
        sample.run(command, more).with(0);
        assert_same(&sample.now(), &written_by(command), command);
    }
}

#[test]
fn it_does_what_it_announced_though_nobody_listens() {
    for (command, more) in WRITERS {
        let sample = Sample::pending();
        let mut child = Command::new(PROGRAM)
            .args([command, &sample.path])
            .args(more)
            .stdout(Stdio::piped())
            .stderr(Stdio::piped())
            .spawn()
            .expect("the command");
        drop(child.stdout.take());
        let ended = child.wait_with_output().expect("its end");
        assert_eq!(ended.status.code(), Some(0));
        assert!(ended.stderr.is_empty(), "{:?}", ended.stderr);
        assert!(sample.now() == written_by(command), "{command}");
    }
}

#[test]
fn a_lock_of_another_keeps_it_out_and_readers_not() {
    let sample = Sample::pending();
    let file = File::open(&sample.path).expect("the file");
    let locked = "another program has locked it";
    file.lock_shared().expect("a shared lock");
    let ran = sample.run("attach", &[]).with(0);
    assert!(ran.errors.is_empty(), "{ran:?}");
    for (command, more) in WRITERS {
        let ran = sample.run(command, more).with(2);
        assert!(
            ran.errors.contains(locked) && ran.errors.contains("--wait"),
            "{ran:?}"
        );
    }
    file.lock().expect("an exclusive lock");
    for (command, more) in [
        ("attach", &[][..]),
        ("attach", &["--pieces"]),
        ("lookup", &["0"]),
        ("cat", &[]),
    ] {
        let ran = sample.run(command, more).with(0);
        assert!(ran.errors.contains(locked), "{}", ran.errors);
    }
    let json = sample.json("attach", &[], 0);
    json.assert_has(&[
        ("locked_by_another", "true"),
        ("size_to_charge", "67108864"),
    ]);
    sample.assert_unchanged();
    file.unlock().expect("no lock");
    sample.run("attach", &["--apply"]).with(0);
}

#[test]
fn it_waits_for_a_lock_where_that_is_asked_for() {
    for (command, more) in WRITERS {
        let sample = Sample::pending();
        let file = File::open(&sample.path).expect("the file");
        file.lock().expect("an exclusive lock");
        let mut child = Command::new(PROGRAM)
            .args([command, "--wait", &sample.path])
            .args(more)
            .stdout(Stdio::null())
            .spawn()
            .expect("the command");
        thread::sleep(Duration::from_millis(300));
        let state = child.try_wait().expect("its state");
        assert!(state.is_none(), "{command} has not waited");
        sample.assert_unchanged();
        file.unlock().expect("no lock");
        assert_eq!(child.wait().expect("its end").code(), Some(0));
        assert!(sample.now() == written_by(command), "{command}");
    }
}

/// Another process that holds a lock on a byte of the file, as qemu does, until its input ends.
fn holding(path: &str, byte: u64) -> Child {
    const LOCK: &str = r#"
import fcntl, struct, sys
F_OFD_SETLK, F_RDLCK = 37, 0
file = open(sys.argv[1], "r+b")
fcntl.fcntl(file, F_OFD_SETLK, struct.pack("hhqqi4x", F_RDLCK, 0, int(sys.argv[2]), 1, 0))
print("locked", flush=True)
sys.stdin.read()
"#;
    let mut child = Command::new("python3")
        .args(["-c", LOCK, path, &byte.to_string()])
        .stdin(Stdio::piped())
        .stdout(Stdio::piped())
        .spawn()
        .expect("python3");
    let mut line = String::new();
    let output = child.stdout.as_mut().expect("its output");
    BufReader::new(output).read_line(&mut line).expect("a line");
    assert_eq!(line, "locked\n");
    child
}

#[test]
fn it_warns_where_a_virtual_machine_writes() {
    // qemu's byte for a reader, then the one for a writer
    for (byte, warned) in [(100, false), (101, true)] {
        let sample = Sample::pending();
        let mut holder = holding(&sample.path, byte);
        for (command, more) in WRITERS {
            let ran = sample.run(command, more).with(0);
            let told = ran.errors.contains("has it open for writing");
            assert_eq!(told, warned, "{ran:?}");
        }
        drop(holder.stdin.take());
        holder.wait().expect("its end");
    }
}
