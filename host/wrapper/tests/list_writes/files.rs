//! Files that were made: with pending logs, refused ones, and qemu's.
use crate::listing::{assert_bytes_listed, assert_unchanged, listed};
use shrunvaki_testkit::command::{folder, write};
use shrunvaki_testkit::files::{of_qemu, pending, refused, Sample};
use shrunvaki_testkit::image::{Image, MIB};
use shrunvaki_testkit::long_file::LongFile;
use shrunvaki_testkit::long_log::{chain, empty, full_of_data, one_small_entry, MOST_DESCRIPTORS};
use shrunvaki_testkit::model::{self, File};
use shrunvaki_testkit::pieces::End;
use shrunvaki_testkit::sample::TIB;

/// Builds the image of a case.
type Build = fn() -> Image;

/// One of the files with a pending log.
fn named(name: &str) -> Sample {
    let mut samples = pending().into_iter();
    samples.find(|sample| sample.name == name).expect(name)
}

#[test]
fn whole_outputs() {
    let folder = folder("list-writes-known");
    for (name, expected) in [
        ("R1", "3145728 Z\n3149824 Z\n"),
        ("R1 with tables", "3145728 Z\n3149824 Z\n"),
        // each sector is named twice
        (
            "no growth",
            "2162688 D\n3145728 D\n3149824 D\n2162688 D\n3145728 D\n3149824 D\n",
        ),
        (
            "zeros as data",
            "2097152 D\n2097152 Z\n2101248 Z\n3145728 D\n3149824 D\n",
        ),
        ("growth alone", ""),
        ("no log", ""),
    ] {
        let path = write(&folder, "disk.vhdx", named(name).bytes());
        assert_eq!(listed(&[path]), expected, "{name}");
    }
}

#[test]
fn pending_logs_and_qemus_files() {
    let folder = folder("list-writes-pending");
    for sample in pending().into_iter().chain(of_qemu()) {
        println!("{}", sample.name);
        assert_bytes_listed(&folder, sample.bytes());
    }
}

#[test]
fn every_refusal_from_several_causes() {
    let folder = folder("list-writes-refused");
    let mut met = [0; 9];
    for (number, sample) in refused() {
        println!("{number}: {}", sample.name);
        // the file's own length, and a capacity that some refusals are not of
        match assert_bytes_listed(&folder, sample.bytes()) {
            End::Refused(number) => met[number as usize] += 1,
            End::Done { .. } => met[0] += 1,
        }
    }
    assert!(met[1..].iter().all(|&times| times >= 2), "{met:?}");
}

#[test]
fn long_logs_in_long_files() {
    let cases: [(&str, Build); 5] = [
        ("full of small entries", || chain(MOST_DESCRIPTORS)),
        ("one entry", || full_of_data(1)),
        ("64 entries", || full_of_data(64)),
        ("empty", empty),
        ("nearly empty", one_small_entry),
    ];
    for (name, build) in cases {
        println!("{name}");
        let image = build();
        let long = LongFile::up_to(&image.buffer, TIB);
        let file = File::with_length(&image.buffer, long.length);
        assert_unchanged(&long.path(), || {
            // not shown where they differ: up to two million lines
            assert!(listed(&[long.path()]) == model::listing(file), "{name}");
        });
    }
}

#[test]
fn the_shortest_files() {
    let folder = folder("list-writes-short");
    // a log of no bytes lies at the end of the first MiB
    let image = Image::new(MIB + 1, 0, 0, [0; 16]);
    for length in [0, 1, 4096, MIB - 1, MIB, MIB + 1] {
        let bytes = &image.buffer[..length];
        let path = write(&folder, "disk.vhdx", bytes);
        let expected = if length < MIB { "refused 1\n" } else { "" };
        assert_eq!(listed(&[path]), expected, "{length} bytes");
        assert_bytes_listed(&folder, bytes);
    }
}
