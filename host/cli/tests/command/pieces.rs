//! `attach --pieces` and `attach --apply --pieces`: the same as without the option, but for what the tables say. What has to hold of
//! every command that changes a file is in `apply.rs`, logs that ask for much are in `limits.rs`.
use crate::changing::change_when_judged;
use crate::sample::{bytes, shrunvaki, zeroing, Sample, PROGRAM};
use crate::watched::{Operation, Watched};
use shrunvaki::vhdx::Refusal;
use shrunvaki_testkit::command::Ran;
use shrunvaki_testkit::files::{of_qemu, pending, refused};
use shrunvaki_testkit::image::{Entry, Image, GUID, MIB, SECTOR};
use shrunvaki_testkit::json::Json;
use shrunvaki_testkit::long_file::LongFile;
use shrunvaki_testkit::pending::{
    assert_same, data, growth_alone, no_growth, pattern, rich, sample_file, small_blocks,
    without_a_log, zero,
};
use shrunvaki_testkit::sample::{M, TIB};
use std::collections::BTreeMap;
use std::fs::File;
use std::io::{self, BufRead, BufReader, Write};
use std::os::unix::fs::FileExt;
use std::process::{Command, Stdio};

const APPLY: [&str; 3] = ["attach", "--apply", "--pieces"];

/// Refusals up to this one are of the log's work, the others of the tables.
const LAST_OF_THE_LOG: u64 = 8;

/// What attach has to answer in pieces, by what it answers otherwise.
fn without_tables(whole: &Json) -> BTreeMap<&str, &str> {
    let refused = whole.has("refusal.number") && whole.number("refusal.number") <= LAST_OF_THE_LOG;
    let of_the_log =
        |path: &str| !path.starts_with("facts") && (refused || !path.starts_with("refusal"));
    let mut values: BTreeMap<&str, &str> =
        whole.iter().filter(|(path, _)| of_the_log(path)).collect();
    values.extend([
        ("size_to_charge", "null"),
        ("kind", "null"),
        ("tables", "\"not read"),
        ("facts", "null"),
    ]);
    if !refused {
        values.insert("refusal", "null");
    }
    values
}

/// That a file gets the same answer, but for what its tables say; the answer in pieces.
#[track_caller]
fn assert_answers_agree(sample: &Sample, more: &[&str]) -> Json {
    let ask = |option: &[&str]| {
        let ran = sample.run("attach", &[option, more, &["--json"]].concat());
        let json = Json::parse(&ran.text());
        ran.with(i32::from(!json.has("refusal")));
        json
    };
    let (whole, pieces) = (ask(&[]), ask(&["--pieces"]));
    let mut expected = without_tables(&whole);
    let mut got: BTreeMap<&str, &str> = pieces.iter().collect();
    // of a file that was just written the host may change its mind
    for values in [&mut expected, &mut got] {
        values.remove("allocated");
    }
    assert_eq!(got, expected);
    sample.assert_unchanged();
    pieces
}

#[test]
fn it_answers_and_does_what_attach_does() {
    for file in pending().into_iter().chain(of_qemu()) {
        let (whole, pieces) = (
            Sample::new(file.bytes().to_vec()),
            Sample::new(file.bytes().to_vec()),
        );
        let json = assert_answers_agree(&pieces, &[]);
        let status = i32::from(!json.has("refusal"));
        let announced = |ran: Ran| ran.text().split("file: ").next().map(String::from);
        let told = announced(whole.run("attach", &["--apply"]));
        let in_pieces = pieces.run("attach", &APPLY[1..]).with(status);
        assert_eq!(announced(in_pieces), told, "{}", file.name);
        assert_same(&pieces.now(), &whole.now(), &file.name);
        // and again, with nothing to grow
        let applied = Sample::new(pieces.now());
        assert_answers_agree(&applied, &[]);
        applied.run("attach", &APPLY[1..]).with(status);
        applied.assert_unchanged();
    }
}

#[test]
fn what_it_prints() {
    let sample = Sample::pending();
    let text = sample.run("attach", &["--pieces"]).with(0).text();
    let planned: Vec<&str> = text.lines().collect();
    assert_eq!(
        planned[1..4],
        [
            "size to charge: not known; in pieces the log alone is read, and no tables",
            "log: pending, 258 sectors to write; the file grows to 5 MiB (5,242,880 bytes)",
            "length of the file: 4 MiB (4,194,304 bytes)",
        ]
    );
    assert_eq!(planned.len(), 6, "{text}");
    let text = sample.run("attach", &APPLY[1..]).with(0).text();
    let applied: Vec<&str> = text.lines().collect();
    assert!(applied[0].starts_with("applying: 258 sectors; the file grows by 1 MiB"));
    assert_eq!(applied[1..3], planned[..2]);
    assert_eq!(
        applied[3..5],
        [
            "log: applied just now; it stays in the file until shrunvaki close ends it",
            "length of the file: 5 MiB (5,242,880 bytes)",
        ]
    );
    assert_eq!(applied.len(), 7, "{text}");
    let json = sample.json("attach", &APPLY[1..], 0);
    json.assert_has(&[("log", "\"applied"), ("tables", "\"not read")]);
}

#[test]
fn refusals_1_to_8_leave_the_file_as_it_is() {
    for (number, mut file) in refused() {
        // no file is that long
        if file.length == u64::MAX {
            continue;
        }
        let capacity = file.buffer.len().to_string();
        file.buffer.resize(file.length as usize, 0);
        let sample = Sample::new(file.buffer);
        let limit = ["--capacity", &capacity];
        let json = assert_answers_agree(&sample, &limit);
        assert_eq!(json.number("refusal.number"), number, "{}", file.name);
        let more = [&APPLY[1..], &limit].concat();
        let text = sample.run("attach", &more).with(1).text();
        let refusal = Refusal::new(number).expect("a refusal");
        assert!(text.contains(&format!("\nrefused: {refusal}\n")), "{text}");
        assert!(!text.contains("applying"), "{text}");
        sample.assert_unchanged();
    }
    // the capacity is a number, and nothing of that size is asked for
    let most = u64::MAX.to_string();
    let more = ["--pieces", "--capacity", &most];
    Sample::pending().run("attach", &more).with(0);
}

#[test]
fn it_writes_in_the_order_of_the_steps() {
    let watched = Watched::new();
    for pending in [
        sample_file(),
        rich(&small_blocks().0),
        no_growth(),
        growth_alone(),
        without_a_log(),
    ] {
        let (_, length) = pending.applied();
        let operations = watched.operations(&APPLY, &pending);
        let mut expected = vec![Operation::Flush];
        if length > pending.image.length {
            expected.extend([Operation::Length(length as usize), Operation::Flush]);
        }
        let sectors = pending.replay.sectors.into_iter();
        expected.extend(sectors.map(|(at, bytes)| Operation::Write { at, bytes }));
        expected.push(Operation::Flush);
        assert_eq!(operations, expected);
    }
}

#[test]
fn killed_at_any_write_it_can_be_run_again() {
    let watched = Watched::new();
    for pending in [rich(&small_blocks().0), no_growth()] {
        let (mut expected, length) = pending.applied();
        expected.truncate(length as usize);
        // of the write at which it is killed: nothing, a part, all but a byte
        for keeping in ["0", "80", "4095"] {
            for n in 1..=pending.replay.count() {
                let sample = Sample::new(bytes(&pending));
                let n = n.to_string();
                let killed = [("KILL_AT_WRITE", &n[..]), ("KILL_KEEPING", keeping)];
                let ran = watched.run(&APPLY, &sample, &killed);
                assert_eq!(ran.status, None, "write {n}: {ran:?}");
                let name = format!("write {n}, {keeping} bytes");
                let json = sample.json("attach", &["--pieces"], 0);
                assert_eq!(json.text("log"), "pending", "{name}");
                sample.run("attach", &APPLY[1..]).with(0);
                assert_same(&sample.now(), &expected, &name);
            }
        }
    }
}

#[test]
fn a_disk_that_fails_is_told_of() {
    let watched = Watched::new();
    for failing in [
        ("FAIL_AT_WRITE", "1"),
        ("FAIL_AT_WRITE", "9"),
        ("FAIL_AT_FLUSH", "3"),
    ] {
        let sample = Sample::pending();
        let ran = watched.run(&APPLY, &sample, &[failing]).with(2);
        let told = "Input/output error (os error 5); what was applied stays applied, and applying again does the rest";
        assert!(ran.errors.contains(told), "{ran:?}");
        assert!(!ran.text().contains("applied just now"), "{ran:?}");
        sample.run("attach", &APPLY[1..]).with(0);
    }
}

/// A file of 4 MiB with a log of one entry.
fn with_entry(entry: &Entry) -> Vec<u8> {
    let mut image = Image::new(4 * MIB, 4 * M, MIB, GUID);
    image.buffer[2 * MIB..].fill(0xee);
    image.entry(0, entry);
    image.buffer
}

#[test]
fn a_log_that_changes_between_counting_and_writing_is_told_of() {
    let judged = with_entry(&zeroing(2 * M, 8192, 1));
    let mut grows = zeroing(2 * M, 8192, 1);
    grows.last = 5 * M;
    let told = "changed while its log was applied, by a program that takes no lock; \
                the log is not applied to its end";
    // with how many sectors from 3 MiB on are zeros then
    for (name, entry, zeros) in [
        ("growth", grows, 0),
        ("no sequence", Entry::new(0, 0), 0),
        ("fewer sectors", zeroing(3 * M, 4096, 1), 1),
        ("more sectors", zeroing(3 * M, 3 * 4096, 1), 2),
    ] {
        let other = with_entry(&entry);
        let change = |file: &File| file.write_all_at(&other[MIB..2 * MIB], M);
        let mut sample = change_when_judged(&APPLY, &judged, change, told);
        sample.bytes[3 * MIB..][..zeros * SECTOR].fill(0);
        assert_same(&sample.now(), &sample.bytes, name);
    }
    // its log is not there any more
    let shorter = |file: &File| file.set_len(M);
    change_when_judged(&APPLY, &judged, shorter, told).assert_unchanged();
}

/// Runs it until it prints a line of progress that begins so, and ends it then.
#[track_caller]
fn assert_progress(sample: &Sample, more: &[&str], line: &str) {
    let mut child = Command::new(PROGRAM)
        .args(["attach", &sample.path, "--pieces", "--max-sectors", "1T"])
        .args(more)
        .stdout(Stdio::null())
        .stderr(Stdio::piped())
        .spawn()
        .expect("the command");
    let errors = BufReader::new(child.stderr.take().expect("its errors"));
    let mut lines = errors.lines().map_while(Result::ok);
    let told = lines.any(|told| told.starts_with(line));
    child.kill().expect("not waited for");
    child.wait().expect("its end");
    assert!(told, "{line}");
}

#[test]
fn long_work_shows_progress() {
    // nothing is said for two seconds: so many that neither takes less, and few enough to be counted
    for (times, more, line) in [
        (65536, &[][..], "reading the log, "),
        (32768, &["--apply"], "writing: "),
    ] {
        let mut image = Image::new(9 * MIB, 9 * M, 8 * MIB, GUID);
        image.entry(0, &zeroing(9 * M, M, times));
        assert_progress(&Sample::new(image.buffer), more, line);
    }
}

#[test]
fn a_file_that_no_process_can_map() {
    const LENGTH: u64 = 100 * TIB;
    const FAR: u64 = 90 * TIB;
    let mut entry = Entry::new(1, 0)
        .with(data(FAR, pattern(7)))
        .with(zero(LENGTH, 8192));
    (entry.flushed, entry.last) = (LENGTH, LENGTH + M);
    let Some(long) = LongFile::new(&with_entry(&entry), LENGTH) else {
        // past the harness, which shows no output of tests that pass
        let _ = writeln!(
            io::stderr(),
            "skipped: a_file_that_no_process_can_map: no file system here has files of 100 TiB"
        );
        return;
    };
    let path = long.path();
    let path = path.to_str().expect("text");
    for words in [
        &["lookup", path, "0"][..],
        &["map", path],
        &["cat", path],
        &["parent", path],
        &["close", path],
    ] {
        let ran = shrunvaki(words).with(2);
        let told = "the file is longer than this process may have";
        assert!(ran.errors.contains(told), "{ran:?}");
    }
    for (words, before, log) in [
        (&["attach", path][..], LENGTH, "pending"),
        (&["attach", path, "--apply"], LENGTH, "applied"),
        (&["attach", path, "--pieces"], LENGTH + M, "pending"),
    ] {
        let ran = shrunvaki(&[words, &["--json"]].concat()).with(0);
        let json = Json::parse(&ran.text());
        assert_eq!(json.text("log"), log);
        let numbers = ["given_length", "length", "sectors"].map(|name| json.number(name));
        assert_eq!(numbers, [before, LENGTH + M, 3]);
        let told = ran.errors.contains("the log's work is done in pieces");
        assert_eq!(told, !words.contains(&"--pieces"), "{ran:?}");
    }
    let mut sector = vec![0; SECTOR];
    long.file.read_exact_at(&mut sector, FAR).expect("read");
    assert_same(&sector, &pattern(7), "a sector at 90 TiB");
    // 8 reads a capacity that no buffer has
    long.file.set_len(LENGTH).expect("as it was");
    let capacity = (LENGTH + M - 1).to_string();
    let ran = shrunvaki(&["attach", path, "--capacity", &capacity]).with(1);
    assert!(ran.text().contains("\nrefused: 8: "), "{ran:?}");
}
