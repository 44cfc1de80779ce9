//! Lookups on real bytes: document 01's numbers, the table of states, refusals 16 to 20 at their boundaries and in their order,
//! bits and entries at the seams of chunks, and random disks. Each expected answer is written from document 01, and the model
//! in `host/model` has to give it too.
use shrunvaki_testkit::api;
use shrunvaki_testkit::random::Random;
use shrunvaki_testkit::sample::{
    entry, extent, forbidden, forbidden_locators, small_disk, Sample, M, MINUS_TEN, TIB,
};
use shrunvaki_testkit::tables::{locator, Disk};
use shrunvaki_testkit::vhdx::Lookup::{File, Parent, Refused, Zero};
use shrunvaki_testkit::vhdx::{self, Facts, Lookup, HAS_PARENT};

/// An entry with an offset that is minus one MiB.
const NEAR_TOP: u64 = 0xFFFF_FFFF_FFF0_0006;

const GIB: u64 = 1 << 30;

/// A small disk with one BAT entry, number 0, which its sectors 0 to 2,047 have.
fn with_entry(has_parent: bool, value: u64) -> Sample {
    let mut sample = Sample::small(has_parent);
    sample.set_entry(0, value);
    sample
}

/// A small disk with a parent, block 0 at 5 MiB in state 7, and this bitmap entry.
fn with_bitmap(value: u64) -> Sample {
    let mut sample = with_entry(true, entry(5, 7));
    sample.set_entry(4096, value);
    sample
}

/// What sector 0 answers in an image of another length.
fn at_length(mut sample: Sample, length: u64) -> Lookup {
    sample.length = length;
    sample.lookup(0)
}

// ---- L1 to L6

/// 512-byte sectors and blocks of 32 MiB, so ratio 128; two chunks, and an image of 40 MiB. Every entry is one that 18 refuses.
fn l_disk() -> Sample {
    let facts = Facts {
        block_size: 32 * M,
        disk_size: 8 * GIB,
        ..small_disk(true)
    };
    let mut sample = Sample::new(facts, 40 * M, 40 * M);
    sample.set_all_entries(5);
    sample
}

#[test]
fn l1_and_l2_the_last_sector_of_a_block_and_the_first_of_the_next() {
    let mut sample = l_disk();
    sample.set_entry(0, entry(5, 6));
    sample.set_entry(1, entry(6, 6));
    assert_eq!(sample.lookup(65_535), File(5 * M + 33_553_920), "L1");
    assert_eq!(sample.lookup(65_536), File(6 * M), "L2");
    assert_eq!(sample.lookup(2 * 65_536), Refused(18), "entry 2");
}

#[test]
fn l3_the_last_block_before_the_bitmap_entry() {
    let mut sample = l_disk();
    sample.set_entry(127, entry(5, 7));
    let (first, last) = (127 * 65_536, 128 * 65_536 - 1);
    assert_eq!(sample.lookup(first), Refused(20), "no bitmap yet");
    sample.set_entry(128, entry(3, 6));
    sample.set_bits(3, M - 1, 0x80);
    assert_eq!(sample.lookup(first), Parent);
    assert_eq!(sample.lookup(last), File(5 * M + 33_553_920));
}

#[test]
fn l4_and_l5_the_second_chunk_and_a_sector_in_its_block() {
    let mut sample = l_disk();
    sample.set_entry(129, 0x500006);
    assert_eq!(sample.lookup(8_388_607), Refused(18), "entry 127");
    assert_eq!(sample.lookup(8_388_608), File(5 * M), "L4");
    assert_eq!(sample.lookup(8_388_609), File(5_243_392), "L5");
    sample.set_entry(0, 0x500006);
    assert_eq!(sample.lookup(1), File(5_243_392), "L5");
}

#[test]
fn l6_the_bit_in_the_second_chunks_bitmap() {
    let mut sample = l_disk();
    sample.set_entry(129, entry(5, 7));
    // the first chunk's bitmap has every bit, the second's one
    sample.set_entry(128, entry(3, 6));
    sample.buffer[3 << 20..4 << 20].fill(0xff);
    sample.set_entry(257, entry(4, 6));
    assert_eq!(sample.lookup(8_388_617), Parent);
    sample.set_bits(4, 1, 2);
    assert_eq!(sample.lookup(8_388_617), File(5 * M + 9 * 512), "L6");
    assert_eq!(sample.lookup(8_388_616), Parent);
    assert_eq!(sample.lookup(8_388_618), Parent);
}

// ---- the table of states

#[test]
fn states_without_a_parent() {
    let (file, no) = (File(5 * M + 3 * 512), Refused(18));
    let answers = [Zero, Zero, Zero, Zero, no, no, file, no];
    for (state, answer) in answers.into_iter().enumerate() {
        let sample = with_entry(false, entry(5, state as u64));
        assert_eq!(sample.lookup(3), answer, "state {state}");
    }
}

#[test]
fn states_with_a_parent() {
    let (file, no) = (File(5 * M + 3 * 512), Refused(18));
    let answers = [Parent, Zero, Zero, Zero, no, no, file, Parent];
    for (state, answer) in answers.into_iter().enumerate() {
        let mut sample = with_bitmap(entry(3, 6));
        sample.set_entry(0, entry(5, state as u64));
        assert_eq!(sample.lookup(3), answer, "state {state}, bit 0");
        sample.set_bits(3, 0, 1 << 3);
        let with_bit = if state == 7 { file } else { answer };
        assert_eq!(sample.lookup(3), with_bit, "state {state}, bit 1");
    }
}

#[test]
fn any_number_but_zero_says_that_there_is_a_parent() {
    let mut sample = with_bitmap(entry(3, 6));
    let mut slots = vhdx::slots_of(&sample.facts);
    for (state, without) in [(0, Zero), (7, Refused(18))] {
        sample.set_entry(0, entry(5, state));
        for n in [0, 1, 2, 256, 1 << 32, u64::MAX] {
            slots[HAS_PARENT] = n;
            let raw = vhdx::lookup_raw(&slots, &sample.buffer, sample.length, 3);
            let answer = if n == 0 { without } else { Parent };
            assert_eq!(raw.decode(), answer, "state {state}, {n}");
        }
    }
}

#[test]
fn slots_of_no_fact_are_not_read() {
    let mut sample = with_bitmap(entry(3, 6));
    sample.set_bits(3, 0, 2);
    let mut slots = vhdx::slots_of(&sample.facts);
    for n in [0, 1, 16, u64::MAX] {
        slots[..3].fill(n);
        slots[16..].fill(n);
        for (sector, answer) in [(0, Parent), (1, File(5 * M + 512))] {
            let raw = vhdx::lookup_raw(&slots, &sample.buffer, sample.length, sector);
            assert_eq!(raw.decode(), answer, "{n}");
        }
    }
}

#[test]
fn bits_between_state_and_offset_are_not_tested() {
    for middle in [0, 1 << 3, 1 << 19, 0xFFFF8] {
        for has_parent in [false, true] {
            let sample = with_entry(has_parent, entry(5, 6) | middle);
            assert_eq!(sample.lookup(1), File(5 * M + 512));
        }
        let mut sample = with_bitmap(entry(3, 6) | middle);
        sample.set_entry(0, entry(5, 7) | middle);
        sample.set_bits(3, 0, 2);
        assert_eq!(sample.lookup(0), Parent);
        assert_eq!(sample.lookup(1), File(5 * M + 512));
    }
}

#[test]
fn in_states_0_to_3_the_offset_is_ignored() {
    for state in 0..=3 {
        for value in [entry(0, state), entry(8, state), !7 | state] {
            assert_eq!(with_entry(false, value).lookup(0), Zero);
            let with_parent = if state == 0 { Parent } else { Zero };
            assert_eq!(with_entry(true, value).lookup(0), with_parent);
        }
    }
}

// ---- which entry, which bit

#[test]
fn entries_at_the_seam_of_two_chunks() {
    // logical sector size and ratio, for blocks of 1 MiB
    for (size, ratio) in [(512, 4096), (4096, 32768)] {
        let facts = Facts {
            logical_sector_size: size,
            disk_size: 2 * ratio * M,
            ..small_disk(true)
        };
        let mut sample = Sample::new(facts, 8 * M, 9 * M);
        let in_block = M / size;
        for (block, number, bitmap) in [
            (0, 0, ratio),
            (1, 1, ratio),
            (ratio - 1, ratio - 1, ratio),
            (ratio, ratio + 1, 2 * ratio + 1),
            (2 * ratio - 1, 2 * ratio, 2 * ratio + 1),
        ] {
            let sector = block * in_block + 1;
            sample.set_all_entries(5);
            sample.set_entry(number, entry(5, 6));
            assert_eq!(sample.lookup(sector), File(5 * M + size), "block {block}");
            sample.set_entry(number, entry(5, 7));
            assert_eq!(sample.lookup(sector), Refused(20), "block {block}");
            sample.set_entry(bitmap, entry(3, 6));
            assert_eq!(sample.lookup(sector), Parent, "block {block}");
        }
    }
}

#[test]
fn the_lowest_bit_of_a_byte_comes_first() {
    let mut sample = with_bitmap(entry(3, 6));
    for byte in [0, 1, 255] {
        for bit in 0..8 {
            sample.set_bits(3, byte, 1 << bit);
            for other in 0..8 {
                let sector = 8 * byte + other;
                let answer = match other == bit {
                    true => File(5 * M + 512 * sector),
                    false => Parent,
                };
                assert_eq!(sample.lookup(sector), answer, "bit {bit}");
            }
        }
        sample.set_bits(3, byte, 0);
    }
}

#[test]
fn a_bit_is_counted_in_the_chunk_not_in_the_block() {
    for size in [512, 4096] {
        let mut sample = with_bitmap(0);
        sample.facts.logical_sector_size = size;
        sample.set_entry((1 << 12) * size / 512, entry(3, 6));
        sample.set_entry(1, entry(5, 7));
        let in_block = M / size;
        let sector = in_block + 9;
        sample.set_bits(3, 1, 0xff);
        assert_eq!(sample.lookup(sector), Parent);
        sample.set_bits(3, 1, 0);
        sample.set_bits(3, in_block / 8 + 1, 2);
        assert_eq!(sample.lookup(sector), File(5 * M + 9 * size));
    }
}

#[test]
fn the_first_and_the_last_bit_of_a_bitmap() {
    let mut sample = Sample::small(true);
    for number in [4095, 4097] {
        sample.set_entry(number, entry(5, 7));
    }
    sample.set_entry(4096, entry(3, 6));
    sample.set_entry(8193, entry(4, 6));
    let (last, next) = ((1 << 23) - 1, 1 << 23);
    assert_eq!(sample.lookup(last), Parent);
    assert_eq!(sample.lookup(next), Parent);
    sample.set_bits(3, M - 1, 0x80);
    assert_eq!(sample.lookup(last), File(6 * M - 512));
    assert_eq!(sample.lookup(next), Parent);
    sample.set_bits(4, 0, 1);
    assert_eq!(sample.lookup(next), File(5 * M));
    assert_eq!(sample.lookup(last - 1), Parent);
    assert_eq!(sample.lookup(next + 1), Parent);
}

// ---- 16: facts or a length that attach would not answer

#[test]
fn each_cause_of_16_alone() {
    let mut sample = Sample::largest(true);
    let good = sample.facts;
    assert_eq!(sample.lookup(0), Parent);
    for (name, facts) in forbidden(good) {
        sample.facts = facts;
        assert_eq!(sample.lookup(0), Refused(16), "{name}");
    }
}

#[test]
fn a_length_above_the_buffers_is_16() {
    let mut sample = Sample::largest(true);
    for (length, answer) in [
        (9 * M, Parent),
        (9 * M + 1, Refused(16)),
        (1 << 63, Refused(16)),
        (u64::MAX, Refused(16)),
        // the BAT ends at 7 MiB
        (7 * M, Parent),
        (7 * M - 1, Refused(16)),
        (0, Refused(16)),
    ] {
        sample.length = length;
        assert_eq!(sample.lookup(0), answer, "{length}");
    }
    sample.buffer.clear();
    for length in [0, 1, u64::MAX] {
        sample.length = length;
        assert_eq!(sample.lookup(0), Refused(16), "no buffer");
    }
}

#[test]
fn sizes_at_their_limits_are_accepted() {
    let mut sample = Sample::largest(true);
    let good = sample.facts;
    for size in [512, 4096] {
        for disk in [size, 2 * size, GIB + size, 64 * TIB - size, 64 * TIB] {
            sample.facts.logical_sector_size = size;
            sample.facts.physical_sector_size = 4608 - size;
            sample.facts.disk_size = disk;
            assert_eq!(sample.lookup(disk / size - 1), Parent, "{disk}");
            assert_eq!(sample.lookup(disk / size), Refused(17), "{disk}");
        }
    }
    sample.facts = good;
    sample.facts.disk_size = GIB;
    for k in 20..=28 {
        sample.facts.block_size = 1 << k;
        assert_eq!(sample.lookup(0), Parent, "2^{k}");
    }
    // whole sectors of 512 bytes, not of 4,096
    sample.facts.logical_sector_size = 4096;
    for disk in [512, 3584, 4608, GIB + 512] {
        sample.facts.disk_size = disk;
        assert_eq!(sample.lookup(0), Refused(16), "{disk}");
    }
}

#[test]
fn regions_may_touch_and_lie_in_any_order() {
    let mut sample = Sample::largest(true);
    for (bat, metadata) in [
        (extent(M, 3 * M), extent(4 * M, 4 * M)),
        (extent(M, 6 * M), extent(7 * M, M)),
        (extent(5 * M, 3 * M), extent(M, 4 * M)),
        (extent(2 * M, 6 * M), extent(M, M)),
    ] {
        sample.facts.bat = bat;
        sample.facts.metadata = metadata;
        sample.facts.locator.offset = metadata.offset + 65536;
        assert_eq!(sample.lookup(0), Parent, "{bat:?} {metadata:?}");
    }
}

#[test]
fn the_bat_holds_whole_chunks() {
    // logical sector size, ratio, and the chunks whose entries 1 MiB holds, with blocks of 1 MiB
    for (size, ratio, chunks) in [(512, 4096, 31), (4096, 32768, 3)] {
        let mut sample = Sample::small(true);
        sample.facts.logical_sector_size = size;
        let most = chunks * ratio * M;
        for (disk, short, answer) in [
            (most, M, Parent),
            (most - size, M, Parent),
            // blocks and chunks are rounded up
            (most + size, M, Refused(16)),
            (most + M, M, Refused(16)),
            (most + size, 2 * M, Parent),
            (size, 0, Refused(16)),
        ] {
            sample.facts.disk_size = disk;
            sample.facts.bat.length = short;
            assert_eq!(sample.lookup(0), answer, "{disk} and {short}");
        }
    }
}

#[test]
fn without_a_parent_any_locator_is_accepted() {
    let mut sample = Sample::largest(false);
    let good = sample.facts;
    for (name, facts) in forbidden_locators(good) {
        sample.facts = facts;
        assert_eq!(sample.lookup(0), Zero, "{name}");
    }
}

#[test]
fn locators_at_their_limits_are_accepted() {
    let mut sample = Sample::largest(true);
    for locator in [
        extent(M + 65536, 20),
        extent(M + 65537, 21),
        extent(4 * M - 20, 20),
        extent(M + 65536, M),
        extent(3 * M, M),
    ] {
        sample.facts.locator = locator;
        assert_eq!(sample.lookup(0), Parent, "{locator:?}");
    }
}

#[test]
fn the_disk_identifier_is_not_tested() {
    for id in [[0; 16], [0xff; 16]] {
        let mut sample = with_entry(true, entry(5, 6));
        sample.facts.disk_id = id;
        assert_eq!(sample.lookup(1), File(5 * M + 512));
    }
}

#[test]
fn all_facts_zero_are_refused() {
    let mut sample = Sample::small(false);
    sample.facts = Facts::default();
    assert_eq!(sample.lookup(0), Refused(16));
}

// ---- 17: past the disk

#[test]
fn sectors_past_the_disk() {
    for (size, disk) in [(512, 5 * GIB), (512, 5 * GIB + 512), (4096, 5 * GIB + 4096)] {
        let mut sample = Sample::small(false);
        sample.facts.logical_sector_size = size;
        sample.facts.disk_size = disk;
        let sectors = disk / size;
        assert_eq!(sample.lookup(sectors - 1), Zero);
        for past in [sectors, sectors + 1, disk, 1 << 55, 1 << 63] {
            assert_eq!(sample.lookup(past), Refused(17), "{past}");
        }
        // the product with the sector size wraps
        for past in [1 << 52, (1 << 55) + 1, MINUS_TEN, u64::MAX] {
            assert_eq!(sample.lookup(past), Refused(17), "{past}");
        }
    }
}

#[test]
fn the_last_sector_of_the_largest_disk() {
    let mut sample = Sample::largest(true);
    let sectors = 64 * TIB / 512;
    // block 2^18 - 1, ratio 16
    sample.set_entry((1 << 18) - 1 + (1 << 14) - 1, 3);
    assert_eq!(sample.lookup(sectors - 1), Zero);
    assert_eq!(sample.lookup(sectors), Refused(17));
    assert_eq!(sample.lookup(u64::MAX), Refused(17));
}

// ---- 18: states that mean nothing

#[test]
fn state_7_needs_a_parent() {
    let mut sample = with_bitmap(entry(3, 6));
    sample.set_bits(3, 0, 1);
    assert_eq!(sample.lookup(0), File(5 * M));
    sample.facts.has_parent = false;
    assert_eq!(sample.lookup(0), Refused(18));
}

// ---- 19: the block

#[test]
fn a_block_lies_behind_the_first_mib_and_inside_the_image() {
    for state in [6, 7] {
        let answer = |value: u64| {
            let mut sample = with_bitmap(entry(3, 6));
            sample.set_bits(3, 0, 1);
            sample.set_entry(0, value | state);
            sample.lookup(0)
        };
        assert_eq!(answer(entry(0, 0)), Refused(19));
        assert_eq!(answer(entry(1, 0)), File(M));
        assert_eq!(answer(entry(7, 0)), File(7 * M), "exactly at the end");
        assert_eq!(answer(entry(8, 0)), Refused(19), "inside the buffer");
        assert_eq!(answer(entry(9, 0)), Refused(19));
        assert_eq!(answer(entry(1 << 43, 0)), Refused(19));
        assert_eq!(answer(NEAR_TOP), Refused(19), "minus one MiB");
    }
    assert_eq!(with_entry(false, NEAR_TOP).lookup(0), Refused(19));
}

#[test]
fn a_block_that_ends_one_byte_past_the_image() {
    let sample = || with_entry(false, entry(7, 6));
    assert_eq!(at_length(sample(), 8 * M), File(7 * M));
    assert_eq!(at_length(sample(), 8 * M - 1), Refused(19));
    assert_eq!(at_length(sample(), 7 * M + 512), Refused(19));
    assert_eq!(at_length(sample(), 7 * M), Refused(19));
    // a block of 2 MiB
    let large = |mib| {
        let mut sample = with_entry(false, entry(mib, 6));
        sample.facts.block_size = 2 * M;
        sample.lookup(0)
    };
    assert_eq!(large(6), File(6 * M));
    assert_eq!(large(7), Refused(19));
    // 256 MiB from the last MiB but 255 on
    let mut widest = Sample::largest(false);
    for mib in [1, 1 << 43, (1 << 44) - 256, (1 << 44) - 1] {
        widest.set_entry(0, entry(mib, 6));
        assert_eq!(widest.lookup(0), Refused(19), "{mib}");
    }
}

#[test]
fn a_block_that_the_disk_fills_in_part_counts_whole() {
    let mut sample = Sample::small(false);
    sample.facts.disk_size += 512;
    // block 5,120, in the second chunk
    sample.set_entry(5121, entry(7, 6));
    let sector = 5 * GIB / 512;
    assert_eq!(sample.lookup(sector), File(7 * M));
    assert_eq!(sample.lookup(sector + 1), Refused(17));
    for length in [7 * M + 512, 8 * M - 1] {
        sample.length = length;
        assert_eq!(sample.lookup(sector), Refused(19));
    }
}

#[test]
fn a_block_is_19_also_where_the_bit_says_parent() {
    for value in [entry(0, 7), entry(8, 7), NEAR_TOP | 1] {
        for bits in [0, 0xff] {
            let mut sample = with_bitmap(entry(3, 6));
            sample.set_entry(0, value);
            sample.set_bits(3, 0, bits);
            assert_eq!(sample.lookup(0), Refused(19));
        }
    }
}

// ---- 20: the bitmap

#[test]
fn a_bitmap_entry_has_state_6() {
    for state in 0..8 {
        let mut sample = with_bitmap(entry(3, state));
        let has_bit = if state == 6 { File(5 * M) } else { Refused(20) };
        let has_none = if state == 6 { Parent } else { Refused(20) };
        assert_eq!(sample.lookup(0), has_none, "state {state}");
        sample.set_bits(3, 0, 1);
        assert_eq!(sample.lookup(0), has_bit, "state {state}");
        // for state 6 of the block it is not read
        sample.set_entry(0, entry(5, 6));
        assert_eq!(sample.lookup(0), File(5 * M), "state {state}");
    }
}

#[test]
fn a_bitmap_lies_behind_the_first_mib_and_inside_the_image() {
    let answer = |value| with_bitmap(value).lookup(0);
    assert_eq!(answer(entry(0, 6)), Refused(20));
    assert_eq!(answer(entry(7, 6)), Parent, "exactly at the end");
    assert_eq!(answer(entry(8, 6)), Refused(20), "inside the buffer");
    assert_eq!(answer(entry(9, 6)), Refused(20));
    assert_eq!(answer(entry(1 << 43, 6)), Refused(20));
    assert_eq!(answer(NEAR_TOP), Refused(20), "minus one MiB");
    let sample = with_bitmap(entry(7, 6));
    assert_eq!(at_length(sample.clone(), 8 * M - 1), Refused(20));
    assert_eq!(at_length(sample, 7 * M + 1), Refused(20));
}

#[test]
fn a_bitmap_has_1_mib_whatever_the_block_has() {
    let mut sample = with_entry(true, entry(5, 7));
    sample.facts.block_size = 2 * M;
    // ratio 2,048
    sample.set_entry(2048, entry(7, 6));
    assert_eq!(sample.lookup(0), Parent);
    sample.length = 8 * M - 1;
    assert_eq!(sample.lookup(0), Refused(20));
}

// ---- a lower number beats a higher one

#[test]
fn the_first_refusal_that_applies_is_the_answer() {
    let last = 5 * GIB / 512;
    let mut sample = with_bitmap(entry(0, 0));
    sample.set_entry(0, entry(0, 7));
    assert_eq!(sample.lookup(0), Refused(19), "19 and 20");
    sample.facts.has_parent = false;
    assert_eq!(sample.lookup(0), Refused(18), "18 and 19");
    for state in [4, 5] {
        sample.set_entry(0, entry(0, state));
        assert_eq!(sample.lookup(0), Refused(18), "18 and 19");
    }
    // the entry behind the disk's last is one of 18
    sample.set_all_entries(5);
    assert_eq!(sample.lookup(last), Refused(17), "17 and 18");
    sample.facts.physical_sector_size = 0;
    assert_eq!(sample.lookup(last), Refused(16), "16 and 17");
    assert_eq!(sample.lookup(u64::MAX), Refused(16), "16 and 17");
    assert_eq!(sample.lookup(0), Refused(16), "16 and 18");
}

// ---- what a lookup depends on

/// Sector 2,057: block 1, entry 1, bitmap entry 4,096, bitmap byte 257, bit 1. A payload and a bitmap entry, a bitmap byte.
const DEPENDS: [(u64, u64, u8, Lookup); 9] = [
    (0x500006, 0, 0, File(5 * M + 9 * 512)),
    (0x500007, 0x300006, 2, File(5 * M + 9 * 512)),
    (0x500007, 0x300006, 0xfd, Parent),
    (0, 0, 0, Parent),
    (2, 0, 0, Zero),
    (4, 0, 0, Refused(18)),
    (0x800006, 0, 0, Refused(19)),
    (0x800007, 0x300006, 2, Refused(19)),
    (0x500007, 0x800006, 2, Refused(20)),
];

#[test]
fn a_lookup_depends_on_nothing_else() {
    let mut sample = Sample::small(true);
    for fill in [0, 0xff, 0x5a] {
        for (payload, bitmap, byte, answer) in DEPENDS {
            sample.buffer.fill(fill);
            sample.set_entry(1, payload);
            if payload % 8 == 7 {
                sample.set_entry(4096, bitmap);
                sample.set_bits(3, 257, byte);
            }
            assert_eq!(sample.lookup(2057), answer, "{payload:#x} in {fill:#x}");
        }
        sample.buffer.fill(fill);
        assert_eq!(sample.lookup(5 * GIB / 512), Refused(17));
        sample.facts.metadata.length = 0;
        assert_eq!(sample.lookup(2057), Refused(16));
        sample.facts.metadata.length = M;
    }
}

// ---- facts as the tables answer them

#[test]
fn facts_from_the_tables() {
    let disk = Disk::with_parent(locator(&[("key", "value")]));
    let image = disk.bytes();
    let facts = api::tables(&image, disk.log).expect("accepted");
    let length = image.len() as u64;
    let mut sample = Sample::new(facts, 40 * M, 40 * M);
    sample.buffer[..image.len()].copy_from_slice(&image);
    sample.set_entry(1, entry(4, 6));
    assert_eq!(sample.lookup(65_535), Parent);
    assert_eq!(sample.lookup(65_537), File(4 * M + 512));
    assert_eq!(sample.lookup(GIB / 512), Refused(17));
    sample.length = length;
    assert_eq!(sample.lookup(65_537), Refused(19));
}

// ---- random disks, and the model

/// Numbers at which some rule changes its mind.
const EDGES: [u64; 32] = [
    0,
    1,
    19,
    20,
    511,
    512,
    513,
    1024,
    4096,
    65535,
    M - 1,
    M,
    M + 1,
    M + 65535,
    M + 65536,
    2 * M - 20,
    2 * M - 19,
    2 * M,
    3 * M,
    4 * M,
    7 * M,
    8 * M,
    9 * M,
    9 * M + 1,
    256 * M,
    512 * M,
    64 * TIB,
    64 * TIB + 4096,
    1 << 63,
    MINUS_TEN,
    u64::MAX - M + 1,
    u64::MAX,
];

/// Facts that are good, in one of a few shapes.
fn random_facts(random: &mut Random) -> Facts {
    let size = random.pick(&[512, 4096]);
    let disk = random.pick(&[size, M, 4 * GIB, 5 * GIB, 33 * GIB]);
    let more = random.pick(&[0, 0, size, M]);
    Facts {
        logical_sector_size: size,
        block_size: random.pick(&[M, M, 2 * M, 4 * M]),
        disk_size: disk + more,
        ..small_disk(!random.one_in(3))
    }
}

/// Gives one number of the facts, or the length, another value.
fn spoil(random: &mut Random, facts: &mut Facts, length: &mut u64) {
    let value = random.pick(&EDGES);
    let numbers = [
        &mut facts.logical_sector_size,
        &mut facts.physical_sector_size,
        &mut facts.block_size,
        &mut facts.disk_size,
        &mut facts.bat.offset,
        &mut facts.bat.length,
        &mut facts.metadata.offset,
        &mut facts.metadata.length,
        &mut facts.locator.offset,
        &mut facts.locator.length,
        length,
    ];
    let chosen = random.below(numbers.len() as u64);
    for (i, number) in numbers.into_iter().enumerate() {
        if i as u64 == chosen {
            *number = value;
        }
    }
}

fn random_entry(random: &mut Random, states: &[u64]) -> u64 {
    let mib = random.pick(&[0, 1, 3, 4, 5, 5, 6, 6, 7, 8, 9, 1 << 43, (1 << 44) - 1]);
    let middle = random.below(1 << 17) << 3;
    entry(mib, random.pick(states)) | middle
}

/// A sector of good facts, near where a block, a chunk or the disk begins or ends, and writes its entries and bits.
fn random_sector(random: &mut Random, sample: &mut Sample) -> u64 {
    let facts = sample.facts;
    let size = facts.logical_sector_size;
    let edge = random.pick(&[0, facts.block_size / size, 1 << 23, facts.disk_size / size]);
    let sector = (edge + random.below(20)).saturating_sub(10);
    let ratio = (1 << 23) * size / facts.block_size;
    let block = sector * size / facts.block_size;
    let chunk = block / ratio;
    let payload = random_entry(random, &[0, 1, 2, 3, 4, 5, 6, 6, 7, 7, 7, 7]);
    sample.set_entry(block + chunk, payload);
    let bitmap = random_entry(random, &[6, 6, 6, 6, 6, 0, 5, 7]);
    sample.set_entry(chunk * (ratio + 1) + ratio, bitmap);
    let mib = (bitmap >> 20) % 8;
    // the bytes of the regions stay as they are
    if mib > 2 {
        sample.set_bits(mib, sector % (1 << 23) / 8, random.number() as u8);
    }
    if random.one_in(50) {
        random.pick(&EDGES)
    } else {
        sector
    }
}

#[test]
fn random_disks_and_the_model() {
    let mut random = Random::new(0x5eed);
    let mut sample = Sample::small(true);
    // refusals 16 to 20, file, zero, parent
    let mut reached = [0; 8];
    for _ in 0..200_000 {
        sample.facts = random_facts(&mut random);
        sample.length = random.pick(&[8 * M, 8 * M, 8 * M, 8 * M - 1, 9 * M]);
        let sector = random_sector(&mut random, &mut sample);
        while random.one_in(4) {
            spoil(&mut random, &mut sample.facts, &mut sample.length);
        }
        let kind = match sample.lookup(sector) {
            Refused(number) => number as usize - 16,
            File(_) => 5,
            Zero => 6,
            Parent => 7,
        };
        reached[kind] += 1;
    }
    println!("refused 16 to 20, file, zero, parent: {reached:?}");
    assert!(reached.iter().all(|&n| n >= 100), "{reached:?}");
}

#[test]
fn every_sector_of_a_small_disk_and_the_model() {
    let mut random = Random::new(0xb17);
    let mut sample = Sample::small(true);
    // one sector more than 40 blocks
    sample.facts.disk_size = 40 * M + 512;
    for number in 0..41 {
        let value = random_entry(&mut random, &[0, 1, 6, 7, 7]);
        sample.set_entry(number, value);
    }
    sample.set_entry(4096, entry(3, 6));
    for byte in 0..41 * 256 {
        sample.set_bits(3, byte, random.number() as u8);
    }
    for sector in 0..42 * 2048 {
        let past = sample.lookup(sector) == Refused(17);
        assert_eq!(past, sector > 40 * 2048, "{sector}");
    }
}
