//! The memory of the program that lists what a log would write: however long file and log are, less than 8 MiB. A test process of
//! its own, since what it holds counts for the programs that it starts.
use shrunvaki_testkit::command::folder;
use shrunvaki_testkit::image::Image;
use shrunvaki_testkit::list_writes::list_writes;
use shrunvaki_testkit::long_file::LongFile;
use shrunvaki_testkit::long_log::{
    chain, empty, full_of_data, one_small_entry, MOST_DESCRIPTORS, SECTORS,
};
use shrunvaki_testkit::peak::peak_memory;
use shrunvaki_testkit::sample::{M, TIB};
use std::fs::File;
use std::io::{BufRead, BufReader};
use std::process::Command;

const MOST: u64 = 8 * M;

/// Builds the image of a case.
type Build = fn() -> Image;

#[test]
fn less_than_8_mib() {
    let folder = folder("list-writes-memory");
    let output = folder.file("lines");
    let cases: [(&str, Build, usize); 5] = [
        (
            "full of small entries",
            || chain(MOST_DESCRIPTORS),
            SECTORS * MOST_DESCRIPTORS,
        ),
        ("one entry", || full_of_data(1), SECTORS - 128),
        ("64 entries", || full_of_data(64), SECTORS - 64 * 2),
        ("empty", empty, 1),
        ("nearly empty", one_small_entry, 1),
    ];
    for (name, build, lines) in cases {
        let long = LongFile::up_to(&build().buffer, TIB);
        let idle = peak_memory(&mut Command::new("true"));
        assert!(idle < MOST, "this process has {idle} bytes itself");
        let printed = File::create(&output).expect("a file");
        let mut program = Command::new(list_writes());
        let peak = peak_memory(program.arg(long.path()).stdout(printed));
        println!(
            "{name}, in a file of {} bytes: {} KiB; a program that does nothing: {} KiB",
            long.length,
            peak / 1024,
            idle / 1024
        );
        assert!(peak < MOST, "{name}: {peak} bytes");
        let printed = BufReader::new(File::open(&output).expect("the lines"));
        assert_eq!(printed.lines().count(), lines, "{name}");
    }
}
