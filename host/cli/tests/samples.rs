//! Files that qemu made, and the answers that are known of them: `samples/README.md` says from where.
mod common;

use common::{assert_applied, assert_closed, assert_contents, assert_refused, assert_same_files};
use common::{copy, shrunvaki, Answer};
use shrunvaki_testkit::command::{end, folder, write, Folder};
use shrunvaki_testkit::json::Json;
use std::fs::{self, OpenOptions};
use std::path::{Path, PathBuf};
use std::process::Command;

/// Disks without a pending log.
const CLEAN: [&str; 3] = ["dynamic", "dynamic-8m", "fixed"];

/// Disks whose log has something to apply.
const PENDING: [&str; 2] = ["pending", "pending-torn"];

/// The last block of this one ends past the file.
const SHORT: &str = "fixed-short";

/// The header of this one names a log in which no sequence is.
const NO_SEQUENCE: &str = "no-sequence";

fn sample(name: &str) -> PathBuf {
    Path::new(env!("CARGO_MANIFEST_DIR"))
        .join("tests/samples")
        .join(name)
}

/// A text beside a sample.
fn expected(name: &str) -> String {
    let path = sample(name);
    fs::read_to_string(&path).unwrap_or_else(|error| panic!("{}: {error}", path.display()))
}

fn unpack(folder: &Folder, name: &str) -> PathBuf {
    let packed = sample(&format!("{name}.gz"));
    let unpacked = end(Command::new("gzip").arg("-dc").arg(packed)).with(0);
    write(folder, name, &unpacked.bytes)
}

/// A sample, unpacked twice: to be worked on, and as it was.
fn unpack_disk(folder: &Folder, name: &str) -> (PathBuf, PathBuf) {
    let file = unpack(folder, &format!("{name}.vhdx"));
    let original = folder.file("original");
    copy(&file, &original);
    (file, original)
}

/// That an answer has every value of a sample's, which has a refusal's number alone.
#[track_caller]
fn assert_answer(answer: &Answer, sample: &Json) {
    for (path, value) in sample.iter() {
        let path = match (path, value) {
            ("refusal", "null") => "refusal",
            ("refusal", _) => "refusal.number",
            _ => path,
        };
        assert_eq!(answer.0.get(path), value, "{path}");
    }
}

#[test]
fn attach_answers_what_is_written_beside_each_sample() {
    let folder = folder("samples-attach");
    for name in [&CLEAN[..], &PENDING, &[SHORT, NO_SEQUENCE]].concat() {
        let (file, original) = unpack_disk(&folder, name);
        let sample = Json::parse(&expected(&format!("{name}.json")));
        assert_answer(&Answer::of(&file), &sample);
        assert_same_files(&[], &file, &original);
    }
}

#[test]
fn map_answers_what_is_written_beside_each_sample() {
    let folder = folder("samples-map");
    for name in [&CLEAN[..], &PENDING, &[SHORT]].concat() {
        let (file, original) = unpack_disk(&folder, name);
        let map = shrunvaki(&["map"], &file).with(i32::from(name == SHORT));
        assert_eq!(map.text(), expected(&format!("{name}.map")), "{name}");
        assert_same_files(&[], &file, &original);
    }
}

#[test]
fn the_sectors_are_what_qemu_reads() {
    let folder = folder("samples-cat");
    for name in [&CLEAN[..], &PENDING].concat() {
        let (file, original) = unpack_disk(&folder, name);
        assert_contents(&file, &unpack(&folder, &format!("{name}.raw")));
        assert_same_files(&[], &file, &original);
    }
}

/// Gives a file so many bytes more, or less.
fn lengthen(file: &Path, by: i64) {
    let open = OpenOptions::new().write(true).open(file).expect("the file");
    let length = open.metadata().expect("its length").len();
    let length = length.checked_add_signed(by).expect("a length");
    open.set_len(length).expect("another length");
}

#[test]
fn a_block_that_ends_past_the_file_is_refused_until_the_file_is_extended() {
    let folder = folder("samples-short");
    let (file, _) = unpack_disk(&folder, SHORT);
    let raw = unpack(&folder, &format!("{SHORT}.raw"));
    let contents = fs::read(&raw).expect("the contents");
    let cat = shrunvaki(&["cat"], &file).with(1);
    assert!(cat.bytes == contents[..4 << 20], "two blocks of 2 MiB");

    lengthen(&file, 1 << 20);
    assert_contents(&file, &raw);
}

#[test]
fn a_log_is_applied_as_qemu_applies_it() {
    let folder = folder("samples-apply");
    for name in PENDING {
        let (file, _) = unpack_disk(&folder, name);
        let repaired = unpack(&folder, &format!("{name}.repaired"));
        let bat = |path: &Path| fs::read(path).expect("the file")[2 << 20..3 << 20].to_vec();
        assert!(bat(&file) != bat(&repaired), "{name}: the log says nothing");
        assert_applied(&folder, &file, &repaired);
    }
}

#[test]
fn a_closed_log_leaves_what_qemu_leaves() {
    let folder = folder("samples-close");
    for name in PENDING {
        let (file, _) = unpack_disk(&folder, name);
        let repaired = unpack(&folder, &format!("{name}.repaired"));
        let closed = assert_closed(&folder, &file, &repaired);
        assert_contents(&closed, &unpack(&folder, &format!("{name}.raw")));
    }
}

#[test]
fn without_a_pending_log_applying_and_closing_change_nothing() {
    let folder = folder("samples-clean");
    for name in CLEAN {
        let (file, original) = unpack_disk(&folder, name);
        for arguments in [
            &["attach", "--apply"][..],
            &["attach", "--apply", "--pieces"],
            &["close"],
        ] {
            shrunvaki(arguments, &file).with(0);
            assert_same_files(&[], &file, &original);
        }
    }
}

#[test]
fn a_log_without_a_sequence_is_refused() {
    let folder = folder("samples-refused");
    let (file, _) = unpack_disk(&folder, NO_SEQUENCE);
    assert_refused(&folder, &file, 5);
}

#[test]
fn a_copy_that_was_broken_off_is_refused() {
    let folder = folder("samples-broken-off");
    for name in PENDING {
        let (file, _) = unpack_disk(&folder, name);
        lengthen(&file, -1);
        assert_refused(&folder, &file, 6);
    }
}
