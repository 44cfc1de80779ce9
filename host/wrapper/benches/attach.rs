//! `attach` of an image whose log of 64 MiB names 15,000 sectors, against the sum of one pass of the project's own CRC-32C over
//! that log and one copy of so many sectors from a buffer to another, in turn; and in turn with the plain model's. Prints the
//! ratios; exits with status 1 where one to the sum is above the limit.
use shrunvaki_testkit::api;
use shrunvaki_testkit::image::{Entry, Image, GUID, MIB, SECTOR};
use shrunvaki_testkit::measure::in_turn;
use shrunvaki_testkit::model;
use shrunvaki_testkit::pending::{assert_same, data, pattern, usual_facts, Pending};
use shrunvaki_testkit::sample::{extent, M};
use shrunvaki_testkit::tables::{Disk, BAT, METADATA};
use shrunvaki_testkit::vhdx::{self, Facts};
use std::hint::black_box;

const LOG: usize = 64 * MIB;
const NAMED: usize = 15_000;
const LIMIT: f64 = 3.0;
const TURNS: usize = 21;

/// The metadata region lies behind the log, then the BAT, then the sectors that the log names, in the growth.
const METADATA_AT: u64 = 65 * M;
const BAT_AT: u64 = 66 * M;
const SECTORS_AT: u64 = 67 * M;

/// An image whose log has so many entries, of as many data descriptors each, from a sector of the ring on.
fn image(entries: usize, first: usize) -> Pending {
    let mut disk = Disk::default();
    for copy in &mut disk.copies {
        copy.region(METADATA).offset = METADATA_AT;
        copy.region(BAT).offset = BAT_AT;
    }
    (disk.metadata_at, disk.length) = (METADATA_AT, SECTORS_AT as usize);
    let each = NAMED / entries;
    let sequence: Vec<Entry> = (0..entries)
        .map(|n| {
            let mut entry = Entry::new(1 + n as u64, first);
            entry.descriptors = (n * each..(n + 1) * each)
                .map(|i| data(SECTORS_AT + (i * SECTOR) as u64, pattern(i as u8)))
                .collect();
            entry
        })
        .collect();
    let capacity = SECTORS_AT as usize + NAMED * SECTOR;
    let mut image = Image::new(capacity, SECTORS_AT, LOG, GUID);
    image.tables(&disk);
    Pending::new(image, first, &sequence)
}

/// The time of attach by that of the pass and the copy. Attaching an applied image again, at the length that it came with, does the
/// same work.
fn compare(name: &str, pending: &Pending) -> f64 {
    let facts = Facts {
        bat: extent(BAT_AT, M),
        metadata: extent(METADATA_AT, M),
        ..usual_facts()
    };
    let answer = pending.answer(Ok(facts));
    assert_eq!(answer.count, NAMED as u64);
    let mut buffer = pending.attach(Ok(facts), name);
    let log = pending.image.log();
    let from = vec![7u8; NAMED * SECTOR];
    let mut to = vec![0u8; NAMED * SECTOR];
    let taken = in_turn(
        TURNS,
        |_| {
            black_box(api::crc32c(black_box(log)));
            to.copy_from_slice(black_box(&from));
            black_box(&to);
        },
        |_| {
            let again = vhdx::attach(black_box(&mut buffer), pending.image.length);
            assert_eq!(again, answer, "{name}");
        },
    );
    println!(
        "{name}: attach {:.1} ms, pass and copy {:.1} ms, ratio {:.2}",
        taken.other.as_secs_f64() * 1e3,
        taken.one.as_secs_f64() * 1e3,
        taken.ratio
    );
    beside_the_model(pending, buffer);
    taken.ratio
}

/// The same in turn with the model. Both buffers hold the file with its log applied before and after.
fn beside_the_model(pending: &Pending, mut buffer: Vec<u8>) {
    let mut plain = buffer.clone();
    in_turn(
        TURNS,
        |_| {
            black_box(vhdx::attach(black_box(&mut buffer), pending.image.length));
        },
        |_| {
            black_box(model::attach(black_box(&mut plain), pending.image.length));
        },
    )
    .report("  beside the model");
    assert_same(&buffer, &pending.applied().0, "proved");
    assert_same(&plain, &buffer, "plain");
}

fn main() {
    let mut most: f64 = 0.0;
    let middle = LOG / SECTOR / 2;
    for (name, entries, first) in [
        ("one entry", 1, 0),
        ("100 entries", 100, 0),
        ("one entry round the ring's end", 1, middle),
        ("100 entries round the ring's end", 100, middle),
    ] {
        most = most.max(compare(name, &image(entries, first)));
    }
    if most > LIMIT {
        println!("above {LIMIT}");
        std::process::exit(1);
    }
}
