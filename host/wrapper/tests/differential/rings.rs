//! Crowded rings of the log: which sequence is active, by trying.
use crate::pair::Pair;
use shrunvaki_testkit::drawn::rings::{crowd, empty, full, SECTORS};
use shrunvaki_testkit::drawn::seeds;
use shrunvaki_testkit::image::{seal, Entry, Image, GUID, MIB, SECTOR};
use shrunvaki_testkit::pending::{data, pattern};
use shrunvaki_testkit::sample::M;

const CASES: u64 = 3_000;

#[test]
fn crowded_rings() {
    let mut pair = Pair::default();
    let empty = empty();
    let mut image = empty.clone();
    let all = seeds::each(1..=CASES, |random| {
        image.buffer.copy_from_slice(&empty.buffer);
        crowd(random, &mut image);
        pair.load(&image);
        pair.attach();
    });
    pair.tally.print("crowded rings");
    if all {
        // no tables are there, so that 9 says that a log was applied
        pair.tally.assert_reached(9..=9, CASES / 2);
        pair.tally.assert_reached(5..=5, CASES / 100);
    }
}

#[test]
fn rings_that_sequences_fill() {
    let mut pair = Pair::default();
    for start in [0, 1, SECTORS / 2, SECTORS - 1] {
        for number in [1, u64::MAX - 255, u64::MAX - 254 - 2] {
            for entries in [SECTORS - 1, SECTORS] {
                let count = entries as u64;
                if number.checked_add(count - 1).is_none() {
                    continue;
                }
                let image = full(start, number, entries);
                pair.load(&image);
                assert_eq!(pair.attach().count, count, "{start}, {number}");
            }
        }
    }
    // one entry that fills it: two sectors of descriptors, and 254 of data
    let mut one = Entry::new(9, 77);
    one.descriptors = vec![data(2 * M, pattern(1)); SECTORS - 2];
    assert_eq!(one.sectors(), (2, SECTORS - 2));
    for length in [MIB, MIB + SECTOR] {
        let mut image = Image::new(3 * MIB, 3 * M, MIB, GUID);
        let mut bytes = one.bytes();
        bytes[8..12].copy_from_slice(&(length as u32).to_le_bytes());
        seal(&mut bytes);
        image.lay(77, &bytes);
        pair.load(&image);
        let refusal = pair.attach().refusal;
        assert_eq!(refusal, if length == MIB { 9 } else { 5 });
    }
}
