//! Files that change while the program lists them: what it printed stands, and its end is an answer.
use crate::listing::start;
use shrunvaki_testkit::command::{folder, write};
use shrunvaki_testkit::image::{Entry, Image, GUID, MIB};
use shrunvaki_testkit::model::{self, File};
use shrunvaki_testkit::pending::{data, pattern, zero};
use shrunvaki_testkit::sample::M;
use std::fs::{self, OpenOptions};
use std::io::{BufRead, Read};
use std::os::unix::fs::FileExt;

/// A log whose first lines fill every pipe, so that the program waits before it reads what is written by data descriptors then.
fn image() -> Image {
    let sectors = (0..100).map(|i| data(2 * M + i * 4096, pattern(i as u8)));
    let mut entry = Entry::new(1, 0).with(zero(2 * M, 100_000 * 4096));
    entry.descriptors.extend(sectors);
    let mut image = Image::new(3 * MIB, 3 * M, MIB, GUID);
    image.entry(0, &entry);
    image
}

/// The listing of the file as it was, and what the program prints when the file is changed after its first line.
fn changed(name: &str, change: fn(&fs::File)) -> (String, String) {
    let folder = folder(name);
    let image = image();
    let path = write(&folder, "disk.vhdx", &image.buffer);
    let (mut child, mut output) = start(&path);
    let mut printed = String::new();
    output.read_line(&mut printed).expect("a line");
    let file = OpenOptions::new().write(true).open(&path);
    change(&file.expect("the file"));
    output.read_to_string(&mut printed).expect("lines");
    assert!(child.wait().expect("its end").success());
    (model::listing(File::new(&image.buffer)), printed)
}

/// That the output is some of the listing, at least what needs no more of the file, and this line.
#[track_caller]
fn assert_ends((listing, printed): (String, String), last: &str) {
    let lines = printed.strip_suffix(last).expect(last);
    assert!(listing.starts_with(lines) && lines.len() < listing.len());
    assert!(lines.lines().count() >= 100_000);
}

#[test]
fn shorter() {
    let shorter = changed("list-writes-shorter", |file| {
        file.set_len(M).expect("a shorter file");
    });
    assert_ends(shorter, "unreadable\n");
}

#[test]
fn another_log() {
    let another = changed("list-writes-another-log", |file| {
        let zeros = vec![0; MIB];
        file.write_all_at(&zeros, M).expect("another log");
    });
    assert_ends(another, "refused 5\n");
}

/// The length is taken once.
#[test]
fn longer() {
    let (listing, printed) = changed("list-writes-longer", |file| {
        file.set_len(400 * M).expect("a longer file");
    });
    assert!(printed == listing);
}
