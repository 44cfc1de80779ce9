//! Files around the greatest length, 128 TiB, where a file system takes one.
use crate::listing::{assert_listed, listed};
use shrunvaki_testkit::image::{Entry, Image, GUID, HEADERS, MIB};
use shrunvaki_testkit::long_file::LongFile;
use shrunvaki_testkit::model::File;
use shrunvaki_testkit::pending::{data, pattern, r1, zero};
use shrunvaki_testkit::sample::{M, TIB};
use std::os::unix::fs::FileExt;

#[track_caller]
fn assert_prints(long: &LongFile, image: &Image, expected: &str) {
    assert_eq!(listed(&[long.path()]), expected, "{} bytes", long.length);
    let file = File::with_length(&image.buffer, long.length);
    assert_listed(&long.path(), file);
}

#[test]
fn the_longest_files() {
    let image = r1().image;
    for (length, expected) in [
        (TIB, "3145728 Z\n3149824 Z\n"),
        (128 * TIB, "3145728 Z\n3149824 Z\n"),
        (128 * TIB + 1, "refused 1\n"),
        (200 * TIB, "refused 1\n"),
    ] {
        let Some(long) = LongFile::new(&image.buffer, length) else {
            continue;
        };
        assert_prints(&long, &image, expected);
    }
}

#[test]
fn sectors_up_to_the_greatest_length() {
    let last = 128 * TIB - 4096;
    let entry = |descriptor| {
        Entry::new(1, 9)
            .with(data(2 * M, pattern(3)))
            .with(descriptor)
    };
    for (descriptor, expected) in [
        (zero(last, 4096), "2097152 D\n140737488351232 Z\n"),
        (data(last, pattern(1)), "2097152 D\n140737488351232 D\n"),
        (zero(last, 8192), "refused 8\n"),
        (data(128 * TIB, pattern(2)), "refused 8\n"),
    ] {
        let mut image = Image::new(3 * MIB, 3 * M, MIB, GUID);
        image.entry(9, &entry(descriptor));
        let long = LongFile::new(&image.buffer, 3 * M).expect("a short file");
        assert_prints(&long, &image, expected);
    }
}

/// A log that ends with a file of many TiB.
#[test]
fn logs_far_behind() {
    let at = 100 * TIB;
    let mut first_mib = Image::new(MIB, M, MIB, GUID);
    first_mib.log_offset = at as usize;
    first_mib.header(HEADERS[0], 1, GUID);
    let mut log = Image::new(2 * MIB, 2 * M, MIB, GUID);
    let entry = Entry::new(1, 255)
        .with(data(at - 4096, pattern(1)))
        .with(zero(M, 8192));
    log.entry(255, &entry);
    if let Some(long) = LongFile::new(&first_mib.buffer, at + M) {
        let written = long.file.write_all_at(log.log(), at);
        written.expect("the log");
        let expected = format!("{} D\n1048576 Z\n1052672 Z\n", at - 4096);
        assert_eq!(listed(&[long.path()]), expected);
    }
    // the log would end past the file
    if let Some(long) = LongFile::new(&first_mib.buffer, at + M - 1) {
        assert_prints(&long, &first_mib, "refused 4\n");
    }
}
