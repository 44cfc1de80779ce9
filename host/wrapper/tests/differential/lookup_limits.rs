//! Limits of a lookup: blocks and bitmaps at the image's ends, and sectors at a block's, a chunk's and the disk's.
use crate::pair::Pair;
use shrunvaki_testkit::sample::{entry, Sample, M};
use shrunvaki_testkit::vhdx::Lookup;

fn load(pair: &mut Pair, sample: &Sample, length: u64) {
    let capacity = sample.buffer.len() as u64;
    pair.load_with(&sample.buffer, capacity, length);
}

/// The small disk's image has 8 MiB, blocks and bitmaps have 1 MiB.
#[test]
fn places_at_the_images_ends() {
    let mut pair = Pair::default();
    let inside = |mib| (1..=7).contains(&mib);
    for length in [8 * M - 1, 8 * M, 8 * M + 1] {
        for mib in [0, 1, 2, 6, 7, 8, 9, (1 << 44) - 1] {
            let fits = inside(mib) && (mib + 1) * M <= length;
            let mut sample = Sample::small(true);
            sample.set_entry(0, entry(mib, 6));
            load(&mut pair, &sample, length);
            let expected = match fits {
                true => Lookup::File(mib * M + 512),
                false => Lookup::Refused(19),
            };
            assert_eq!(pair.lookup(&sample.facts, 1), expected, "block at {mib}");
            sample.set_entry(0, entry(3, 7));
            sample.set_entry(4096, entry(mib, 6));
            load(&mut pair, &sample, length);
            let refused = pair.lookup(&sample.facts, 1) == Lookup::Refused(20);
            assert_eq!(refused, !fits, "bitmap at {mib}");
        }
    }
}

#[test]
fn every_state_with_and_without_a_parent() {
    let mut pair = Pair::default();
    for has_parent in [false, true] {
        for state in 0..8 {
            for bitmap_state in 0..8 {
                let mut sample = Sample::small(has_parent);
                // bits 3 to 19 mean nothing
                sample.set_entry(0, entry(3, state) | 0xffff8);
                sample.set_entry(4096, entry(4, bitmap_state) | 0x80000);
                sample.set_bits(4, 0, 0b10);
                load(&mut pair, &sample, sample.length);
                for sector in [0, 1, 2, 2047] {
                    pair.lookup(&sample.facts, sector);
                }
            }
        }
    }
    pair.tally.print("states");
    pair.tally.assert_reached(18..=18, 100);
    pair.tally.assert_reached(20..=20, 20);
}

#[test]
fn sectors_at_boundaries() {
    let mut pair = Pair::default();
    for block_size in [M, 2 * M, 256 * M] {
        for logical in [512, 4096] {
            let mut sample = Sample::small(true);
            sample.facts.block_size = block_size;
            sample.facts.logical_sector_size = logical;
            for number in 0..sample.facts.bat.length / 8 {
                // blocks of 1 MiB and 2 MiB fit; every bitmap is the MiB at 7
                let mib = if number % 2 == 0 { 3 } else { 7 };
                sample.set_entry(number, entry(mib, 6 + number % 2));
            }
            load(&mut pair, &sample, sample.length);
            let sectors = sample.facts.disk_size / logical;
            let block = block_size / logical;
            for unit in [1, 8, block, 1 << 23, sectors] {
                let units = sectors / unit;
                for number in [0, 1, 2, units.saturating_sub(1), units] {
                    let sector = number * unit;
                    for near in [sector.saturating_sub(1), sector, sector + 1] {
                        pair.lookup(&sample.facts, near);
                    }
                }
            }
        }
    }
    pair.tally.print("sectors at boundaries");
    pair.tally.assert_reached(0..=0, 50);
    pair.tally.assert_reached(17..=17, 6);
}
