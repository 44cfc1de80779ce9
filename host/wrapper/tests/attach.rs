//! Attaching files with a pending log on real bytes: the log's effect, refusals 9 to 15 behind it, and what the answer is good
//! for. Each expected answer is written from document 01, and every byte of the buffer is compared, past the image's end too.
use shrunvaki_testkit::image::{seal, Descriptor, Entry, Image, GUID, HEADERS, MIB, SECTOR};
use shrunvaki_testkit::pending::{
    assert_same, bat_sector, data, pattern, r1, r1_with, r_entry, rich, sample_file, small_blocks,
    usual_facts, zero, Pending, Replay,
};
use shrunvaki_testkit::sample::{entry, extent, M, MINUS_TEN};
use shrunvaki_testkit::tables::{
    locator, stored, ucs2, Change, Disk, Item, Region, BAT, DISK_SIZE, FILE_PARAMETERS,
    IS_REQUIRED, LOCATOR, LOGICAL, METADATA, PHYSICAL,
};
use shrunvaki_testkit::vhdx::{self, Attachment, Facts, Lookup};

/// An image of 4 MiB with the usual tables, in a buffer of 5.
fn usual_image() -> Image {
    image_with(&Disk::default())
}

fn image_with(disk: &Disk) -> Image {
    let mut image = Image::new(5 * MIB, 4 * M, MIB, GUID);
    image.tables(disk);
    image
}

/// The usual image with one entry at the log's start.
fn one_entry(descriptors: Vec<Descriptor>) -> Pending {
    let mut entry = Entry::new(1, 0);
    entry.descriptors = descriptors;
    Pending::new(usual_image(), 0, &[entry])
}

// ---- R1 and R6

#[test]
fn r1_without_and_with_tables() {
    let (buffer, length) = r1().applied();
    assert_eq!(length, 4_194_304);
    assert_eq!(buffer[3 * MIB..], vec![0; MIB]);
    assert_eq!(r1().replay.count(), 2);
    r1().attach(Err(9), "R1");
    r1_with(&Disk::default()).attach(Ok(usual_facts()), "R1 with tables");
}

#[test]
fn r6_a_descriptor_that_names_no_sector() {
    let mut image = Image::new(4 * MIB, 3 * M, MIB, GUID);
    image.tables(&Disk::default());
    let pending = Pending::new(image, 0, &[r_entry(3 * M, zero(1_048_576, 0))]);
    let answer = pending.answer(Ok(usual_facts()));
    assert_eq!((answer.length, answer.count), (4 * M, 0));
    pending.attach(Ok(usual_facts()), "R6");
}

// ---- sectors

#[test]
fn a_data_sector_is_leading_bytes_middle_trailing_bytes() {
    let mut bytes = vec![0x33; SECTOR];
    bytes[..8].copy_from_slice(b"12345678");
    bytes[8] = 0x44;
    bytes[4091] = 0x55;
    bytes[4092..].copy_from_slice(b"abcd");
    let at = 4 * MIB + SECTOR;
    let pending = one_entry(vec![data(at as u64, bytes)]);
    // in the log the first eight and last four bytes are others
    let log = pending.image.log();
    assert_eq!(&log[64..68], b"desc");
    assert_eq!(&log[68..72], b"abcd");
    assert_eq!(&log[72..80], b"12345678");
    assert_eq!(&log[SECTOR..SECTOR + 4], b"data");
    let buffer = pending.attach(Ok(usual_facts()), "one sector");
    assert_eq!(&buffer[at..at + 10], b"12345678\x44\x33");
    assert_eq!(&buffer[at + 4090..at + 4096], b"\x33\x55abcd");
}

#[test]
fn several_entries_in_order() {
    let (a, b, c) = (4 * M, 4 * M + 4096, 4 * M + 8192);
    let entries = [
        Entry::new(5, 0)
            .with(data(a, pattern(1)))
            .with(data(b, pattern(2)))
            .with(zero(c, 4096)),
        Entry::new(6, 0)
            .with(zero(a, 4096))
            .with(data(c, pattern(3))),
        Entry::new(7, 0)
            .with(data(c, pattern(4)))
            .with(data(b, pattern(5)))
            .with(data(b, pattern(6))),
    ];
    let pending = Pending::new(usual_image(), 0, &entries);
    assert_eq!(pending.replay.count(), 8);
    let buffer = pending.attach(Ok(usual_facts()), "three entries");
    let expected = [vec![0; SECTOR], pattern(6), pattern(4)].concat();
    assert_same(&buffer[4 * MIB..4 * MIB + 3 * SECTOR], &expected, "sectors");
}

#[test]
fn a_zero_descriptor_of_many_sectors() {
    let pending = one_entry(vec![zero(3 * M + 4096, M + 8192)]);
    assert_eq!(pending.replay.count(), 258);
    assert_eq!(pending.applied().1, 4 * M + 3 * 4096);
    pending.attach(Ok(usual_facts()), "258 sectors");
}

#[test]
fn a_sector_named_twice_counts_twice() {
    let at = 3 * M + 4096;
    let pending = one_entry(vec![zero(at, 8192), data(at, pattern(1)), zero(at, 4096)]);
    assert_eq!(pending.replay.count(), 4);
    pending.attach(Ok(usual_facts()), "one sector three times");
}

#[test]
fn entries_of_126_and_127_descriptors() {
    for (count, front) in [(126, 1), (127, 2), (0, 1)] {
        let mut entry = Entry::new(9, 0);
        entry.descriptors = (0..count)
            .map(|i| match i % 2 {
                0 => data(4 * M + 4096 * i, pattern(i as u8)),
                _ => zero(4 * M + 4096 * i, 4096),
            })
            .collect();
        assert_eq!(entry.sectors().0, front);
        let pending = Pending::new(usual_image(), 0, &[entry]);
        assert_eq!(pending.replay.count(), count);
        pending.attach(Ok(usual_facts()), &format!("{count} descriptors"));
    }
}

#[test]
fn sequences_round_the_rings_end() {
    for first in [0, 250, 253, 254, 255] {
        let entries: Vec<Entry> = (0..3)
            .map(|i| {
                let mut entry = Entry::new(20 + i, first);
                entry.descriptors = (0..4)
                    .map(|j| data(4 * M + 4096 * (i + j), pattern((4 * i + j) as u8)))
                    .collect();
                entry
            })
            .collect();
        let pending = Pending::new(usual_image(), first, &entries);
        pending.attach(Ok(usual_facts()), &format!("from sector {first}"));
    }
    // descriptors round it
    let mut entry = Entry::new(1, 255);
    entry.descriptors = (0..200)
        .map(|i| data(4 * M + 4096 * i, pattern(i as u8)))
        .collect();
    let pending = Pending::new(usual_image(), 255, &[entry]);
    pending.attach(Ok(usual_facts()), "descriptors round the end");
}

#[test]
fn a_log_that_lies_behind_the_tables() {
    let mut disk = Disk::default();
    for copy in &mut disk.copies {
        copy.region(METADATA).offset = M;
        copy.region(BAT).offset = 2 * M;
    }
    disk.metadata_at = M;
    disk.length = 3 * MIB;
    let facts = Facts {
        bat: extent(2 * M, M),
        metadata: extent(M, M),
        ..usual_facts()
    };
    let mut image = Image::with_log_at(3 * MIB, 6 * MIB, 5 * M, 2 * MIB, GUID);
    image.tables(&disk);
    let entries = [
        Entry::new(1, 510).with(data(2 * M, pattern(1))),
        Entry::new(2, 510).with(data(5 * M + 4096, pattern(2))),
    ];
    let pending = Pending::new(image, 510, &entries);
    pending.attach(Ok(facts), "a log of 2 MiB at 3 MiB");
}

// ---- growth

#[test]
fn lengths_that_are_no_whole_sectors() {
    let disk = Disk::default();
    for length in [4 * M - 1, 4 * M + 1, 4 * M + 4095, 4 * M + 5000] {
        for last in [0, length - 1, length + 1, 5 * M - 1, 5 * M] {
            let across = length / 4096 * 4096;
            for descriptors in [vec![], vec![data(across, pattern(1))]] {
                let mut entry = Entry::new(1, 0);
                (entry.last, entry.descriptors) = (last, descriptors);
                let mut image = Image::new(5 * MIB, length, MIB, GUID);
                image.tables(&disk);
                let pending = Pending::new(image, 0, &[entry]);
                let whole = pending.applied().1 >= 4 * M;
                let tables = if whole { Ok(usual_facts()) } else { Err(10) };
                pending.attach(tables, &format!("{length}, last {last}"));
            }
        }
    }
}

#[test]
fn the_heads_last_file_offset_decides() {
    let mut entries = [
        Entry::new(1, 0).with(data(4 * M, pattern(1))),
        Entry::new(2, 0),
    ];
    (entries[0].flushed, entries[0].last) = (9 * M, 9 * M);
    (entries[1].flushed, entries[1].last) = (4 * M, 4 * M + 4097);
    let pending = Pending::new(usual_image(), 0, &entries);
    assert_eq!(pending.applied().1, 4 * M + 4097);
    pending.attach(Ok(usual_facts()), "the head's");
}

#[test]
fn growth_up_to_the_buffers_end() {
    let mut entry = Entry::new(1, 0);
    entry.last = 5 * M;
    let pending = Pending::new(usual_image(), 0, &[entry]);
    let buffer = pending.attach(Ok(usual_facts()), "all of the buffer");
    assert_eq!(buffer[4 * MIB..], vec![0; MIB]);
}

// ---- without a log

#[test]
fn a_log_identifier_of_zero() {
    let nothing = Replay::of(&[]);
    for length in [4 * M, 4 * M + 1, 5 * M] {
        let mut entry = Entry::new(1, 0).with(data(4 * M, pattern(1)));
        (entry.guid, entry.last) = ([0; 16], 5 * M);
        let mut image = Image::new(5 * MIB, length, MIB, [0; 16]);
        image.tables(&Disk::default()).entry(0, &entry);
        let pending = Pending::with_replay(image, nothing.clone());
        let buffer = pending.attach(Ok(usual_facts()), "entries that are not applied");
        assert_same(&buffer, &pending.image.buffer, "nothing written");
    }
    // without a log of any length, and with a LogVersion
    let mut image = Image::new(5 * MIB, 4 * M, 0, [0; 16]);
    image.tables(&Disk::default());
    image.buffer[HEADERS[0] + 64] = 1;
    seal(&mut image.buffer[HEADERS[0]..HEADERS[0] + SECTOR]);
    Pending::with_replay(image, nothing).attach(Ok(usual_facts()), "no log");
}

#[test]
fn the_current_header_says_whether_there_is_a_log() {
    let entry = Entry::new(1, 0).with(data(4 * M, pattern(1)));
    for (number, applied) in [(1, true), (3, false)] {
        let mut image = usual_image();
        image
            .header(HEADERS[0], number, [0; 16])
            .header(HEADERS[1], 2, GUID)
            .entry(0, &entry);
        let entries = [entry.clone()];
        let of = if applied { &entries[..] } else { &[] };
        let pending = Pending::with_replay(image, Replay::of(of));
        pending.attach(Ok(usual_facts()), &format!("numbers {number} and 2"));
    }
}

#[test]
fn the_current_header_says_where_the_log_is() {
    // each log writes into the other's place, which is then no log's
    let places = [MIB, 4 * MIB];
    let entries = [1, 0].map(|other: usize| {
        let at = places[other] + 8 * SECTOR;
        Entry::new(5 + other as u64, 0).with(data(at as u64, pattern(other as u8)))
    });
    for current in [0, 1] {
        let mut image = Image::new(6 * MIB, 5 * M, MIB, GUID);
        image.tables(&Disk::default());
        for (i, entry) in entries.iter().enumerate() {
            let number = if i == current { 9 } else { 8 };
            image.log_offset = places[i];
            image.header(HEADERS[i], number, GUID).entry(0, entry);
        }
        image.log_offset = places[current];
        let replay = Replay::of(&entries[current..=current]);
        let pending = Pending::with_replay(image, replay);
        pending.attach(Ok(usual_facts()), &format!("log {current}"));
    }
}

// ---- refusals 9 to 15: the log applied

/// Causes of a refusal that lie in the first MiB, which no log writes.
const IN_REGION_TABLES: [(u64, Change); 11] = [
    (9, |d| d.copies.iter_mut().for_each(|t| t.signature[0] = 0)),
    (9, |d| {
        d.copies.iter_mut().for_each(|t| t.bad_checksum = true)
    }),
    (9, |d| {
        d.copies.iter_mut().for_each(|t| t.count = Some(2048))
    }),
    (10, |d| d.table().region(BAT).offset += 4096),
    (10, |d| d.table().region(BAT).offset = M),
    (10, |d| d.table().region(BAT).length = 2 << 20),
    (10, |d| {
        let mut region = Region::new(*b"nobody knows it.", M, 0);
        region.required = 1;
        d.table().regions.push(region);
    }),
    (11, |d| d.table().regions.truncate(1)),
    (11, |d| d.table().regions.clear()),
    (12, |d| d.table().region(METADATA).length = 0),
    (15, |d| d.table().region(BAT).length = 0),
];

/// Causes of a refusal that lie in the metadata region, and none.
const IN_METADATA: [(u64, Change); 15] = [
    (0, |_| ()),
    (12, |d| d.signature = *b"metadatA"),
    (12, |d| d.count = Some(2048)),
    (12, |d| {
        let mut item = Item::new(*b"nobody knows it.", 0, vec![]);
        item.flags = IS_REQUIRED;
        d.items.push(item);
    }),
    (12, |d| d.item(LOGICAL).offset = 65535),
    (13, |d| {
        let id = stored(PHYSICAL);
        d.items.retain(|i| i.id != id);
    }),
    (13, |d| d.item(DISK_SIZE).length = 16),
    (13, |d| d.item(FILE_PARAMETERS).bytes[4] = 2),
    (14, |d| d.set(DISK_SIZE, &MINUS_TEN.to_le_bytes())),
    (14, |d| d.set(DISK_SIZE, &[0; 8])),
    (14, |d| d.set(LOGICAL, &520u32.to_le_bytes())),
    (14, |d| d.set(FILE_PARAMETERS, &[0, 0, 0x30, 0, 0, 0, 0, 0])),
    (14, |d| {
        d.item(FILE_PARAMETERS).bytes[4] = 2;
        d.items
            .push(Item::new(stored(LOCATOR), 131072, vec![0; 20]));
    }),
    (15, |d| d.set(DISK_SIZE, &(64u64 << 40).to_le_bytes())),
    (15, |d| {
        d.set(FILE_PARAMETERS, &[0, 0, 16, 0, 0, 0, 0, 0]);
        d.set(DISK_SIZE, &(31 * 4096 * M + 512).to_le_bytes());
    }),
];

fn changed(change: Change) -> Disk {
    let mut disk = Disk::default();
    change(&mut disk);
    disk
}

fn tables(refusal: u64) -> Result<Facts, u64> {
    match refusal {
        0 => Ok(usual_facts()),
        _ => Err(refusal),
    }
}

#[test]
fn refusals_9_to_15_leave_the_log_applied() {
    for (i, (refusal, change)) in IN_REGION_TABLES.iter().chain(&IN_METADATA).enumerate() {
        let disk = changed(*change);
        let name = format!("cause {i} of {refusal}");
        r1_with(&disk).attach(tables(*refusal), &name);
        let mut entry = Entry::new(1, 0)
            .with(data(3 * M, pattern(1)))
            .with(zero(4 * M, 8192));
        entry.last = 4 * M + 9000;
        let pending = Pending::new(image_with(&disk), 0, &[entry]);
        pending.attach(tables(*refusal), &name);
    }
}

/// Data descriptors for the sectors in which two files differ, with the bytes of the second.
fn difference(from: &[u8], to: &[u8]) -> Vec<Descriptor> {
    (0..to.len())
        .step_by(SECTOR)
        .filter(|&at| from[at..at + SECTOR] != to[at..at + SECTOR])
        .map(|at| data(at as u64, to[at..at + SECTOR].to_vec()))
        .collect()
}

#[test]
fn tables_are_judged_after_the_log_is_applied() {
    for (i, (_, from)) in IN_METADATA.iter().enumerate() {
        for (j, (refusal, to)) in IN_METADATA.iter().enumerate() {
            let (from, to) = (changed(*from), changed(*to));
            let mut entry = Entry::new(1, 0);
            entry.descriptors = difference(&from.bytes(), &to.bytes());
            let pending = Pending::new(image_with(&from), 0, &[entry]);
            pending.attach(tables(*refusal), &format!("cause {i} turned into {j}"));
        }
    }
}

#[test]
fn regions_are_judged_by_the_length_after_the_log() {
    // the BAT ends at 4 MiB
    for (last, refusal) in [(4 * M, 0), (4 * M - 1, 10), (3 * M + 8192, 10)] {
        let mut image = Image::new(5 * MIB, 3 * M, MIB, GUID);
        image.tables(&Disk::default());
        let mut entry = r_entry(3 * M, zero(3 * M, 8192));
        entry.last = last;
        let pending = Pending::new(image, 0, &[entry]);
        pending.attach(tables(refusal), &format!("last {last}"));
    }
}

#[test]
fn a_region_that_shares_a_byte_with_the_log() {
    let mut disk = Disk::default();
    disk.table().region(BAT).offset = M;
    let mut image = Image::new(5 * MIB, 4 * M, MIB, [0; 16]);
    image.tables(&disk);
    let pending = Pending::with_replay(image, Replay::of(&[]));
    pending.attach(Err(10), "a log that is not in use");
}

// ---- what the answer is good for

#[test]
fn lookups_with_the_answer_of_attach() {
    let (disk, facts) = small_blocks();
    let cases = [
        (entry(4, 6), Lookup::File(4 * M + 512)),
        (entry(4, 2), Lookup::Zero),
        (entry(4, 5), Lookup::Refused(18)),
        (entry(5, 6), Lookup::Refused(19)),
        (0xFFFF_FFFF_FFF0_0006, Lookup::Refused(19)),
    ];
    for (value, expected) in cases {
        let mut entry = Entry::new(1, 0).with(data(3 * M, bat_sector(value)));
        entry.last = 5 * M;
        let mut image = Image::new(6 * MIB, 4 * M, MIB, GUID);
        image.tables(&disk);
        let pending = Pending::new(image, 0, &[entry]);
        let mut buffer = pending.image.buffer.clone();
        // before the log is applied the block is nowhere
        let before = vhdx::lookup(&facts, &buffer, pending.image.length, 1);
        assert_eq!(before, Lookup::Zero);
        // the very array that attach wrote
        let slots = vhdx::attach_raw(&mut buffer, pending.image.length);
        let raw = vhdx::lookup_raw(&slots, &buffer, slots[1], 1);
        assert_eq!(raw.decode(), expected, "{value:#x}");
        let buffer = pending.attach(Ok(facts), "block 0");
        let answer = vhdx::lookup(&facts, &buffer, 5 * M, 1);
        assert_eq!(answer, expected, "{value:#x}");
    }
}

#[test]
fn a_parents_key_with_the_answer_of_attach() {
    let bytes = locator(&[("relative_path", "..\\parent.vhdx")]);
    let length = bytes.len() as u64;
    // the locator's bytes come from the log
    let to = Disk::with_parent(bytes);
    let mut from = to.clone();
    from.item(LOCATOR).bytes.fill(0);
    let mut entry = Entry::new(1, 0);
    entry.descriptors = difference(&from.bytes(), &to.bytes());
    assert_eq!(entry.descriptors.len(), 1);
    let facts = Facts {
        has_parent: true,
        locator: extent(2 * M + 131072, length),
        ..usual_facts()
    };
    let pending = Pending::new(image_with(&from), 0, &[entry]);
    let buffer = pending.attach(Ok(facts), "a parent");
    let value = vhdx::parent_key(&facts, &buffer, 4 * M, &ucs2("relative_path"));
    let start = value.offset as usize;
    assert_eq!(
        buffer[start..start + value.length as usize],
        ucs2("..\\parent.vhdx")
    );
    // without the log the locator is none: 14
    let pending = Pending::new(image_with(&from), 0, &[Entry::new(1, 0)]);
    pending.attach(Err(14), "no locator");
}

#[test]
fn the_rich_log() {
    let (disk, facts) = small_blocks();
    let pending = rich(&disk);
    assert_eq!(
        pending.answer(Ok(facts)),
        Attachment {
            refusal: 0,
            length: 5 * M + 7,
            count: 17,
            facts,
        }
    );
    let buffer = pending.attach(Ok(facts), "rich");
    let sector = vhdx::lookup(&facts, &buffer, 5 * M + 7, 1);
    assert_eq!(sector, Lookup::File(4 * M + 512));
    let at = 4 * MIB + 512;
    assert_eq!(buffer[at..at + 512], pattern(4)[512..1024]);
}

#[test]
fn the_sample_file() {
    let (_, facts) = small_blocks();
    let pending = sample_file();
    let answer = pending.answer(Ok(facts));
    assert_eq!((answer.length, answer.count), (5 * M, 258));
    let before = vhdx::lookup(&facts, &pending.image.buffer, 4 * M, 0);
    assert_eq!(before, Lookup::Zero);
    let buffer = pending.attach(Ok(facts), "the sample file");
    let after = vhdx::lookup(&facts, &buffer, 5 * M, 0);
    assert_eq!(after, Lookup::File(4 * M));
    assert!(buffer[4 * MIB..].starts_with(b"The first bytes of block 0\0"));
}

#[test]
fn attaching_again_changes_nothing() {
    let (disk, facts) = small_blocks();
    for (pending, tables) in [(r1(), Err(9)), (rich(&disk), Ok(facts))] {
        let buffer = pending.attach(tables, "once");
        let mut again = buffer.clone();
        let answer = pending.answer(tables);
        assert_eq!(vhdx::attach(&mut again, answer.length), answer, "twice");
        assert_same(&again, &buffer, "twice");
    }
}
