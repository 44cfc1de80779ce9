//! Limits of the length, the header, the log and its work: one below, at, and one above.
use crate::pair::Pair;
use shrunvaki_testkit::image::{seal, Entry, Image, GUID, HEADERS, MIB, SECTOR};
use shrunvaki_testkit::pending::{data, pattern, zero};
use shrunvaki_testkit::sample::{M, TIB};

/// The sectors of a log of 1 MiB.
const SECTORS: usize = MIB / SECTOR;

/// Of a file without tables: the log was applied.
const APPLIED: u64 = 9;

fn of(pair: &mut Pair, image: &Image, refusal: u64, name: &str) {
    pair.answers(image, refusal, name);
}

#[test]
fn lengths() {
    let mut pair = Pair::default();
    for (length, refusal) in [(M - 1, 1), (M, 9), (M + 1, 9), (M + 2, 1)] {
        // a log of no bytes lies at the end of the first MiB
        let mut image = Image::new(MIB + 1, M, 0, [0; 16]);
        image.length = length;
        of(&mut pair, &image, refusal, &format!("length {length}"));
    }
}

#[test]
fn which_header_is_current() {
    let mut pair = Pair::default();
    let top = u64::MAX;
    // the first header has a log with one sector to write, the second has none
    for (numbers, count) in [
        ([1, 0], 1),
        ([0, 1], 0),
        ([top, top - 1], 1),
        ([1, top], 0),
        ([1 << 32, 7], 1),
        ([7, 1 << 32], 0),
    ] {
        let mut image = Image::small();
        image
            .header(HEADERS[0], numbers[0], GUID)
            .header(HEADERS[1], numbers[1], [0; 16])
            .entry(0, &Entry::new(1, 0).with(zero(2 * M, 4096)));
        let answer = pair.answers(&image, APPLIED, &format!("{numbers:?}"));
        assert_eq!(answer.count, count, "{numbers:?}");
        // the other one is not looked at, and counts where this one is spoilt
        for (spoilt, count) in [(0, 0), (1, 1)] {
            let mut one = image.clone();
            one.buffer[HEADERS[spoilt] + 100] ^= 1;
            let answer = pair.answers(&one, APPLIED, "one is left");
            assert_eq!(answer.count, count, "{numbers:?} without {spoilt}");
        }
    }
    for number in [0, 1, top] {
        let mut image = Image::small();
        for at in HEADERS {
            image.header(at, number, GUID);
        }
        of(&mut pair, &image, 3, "equal numbers");
    }
}

#[test]
fn log_versions() {
    let mut pair = Pair::default();
    for (id, refusals) in [([0; 16], [9, 9, 9]), (GUID, [5, 4, 4])] {
        for (version, refusal) in [0u16, 1, 256].into_iter().zip(refusals) {
            let mut image = Image::new(4 * MIB, 3 * M, MIB, id);
            let header = &mut image.buffer[HEADERS[0]..HEADERS[0] + SECTOR];
            header[64..66].copy_from_slice(&version.to_le_bytes());
            seal(header);
            of(&mut pair, &image, refusal, &format!("LogVersion {version}"));
        }
    }
}

/// A file of 3 MiB and a byte whose log is at an offset.
fn log_at(offset: u64, length: usize, id: [u8; 16]) -> Image {
    Image::with_log_at(offset as usize, 3 * MIB + 1, 3 * M + 1, length, id)
}

#[test]
fn places_of_the_log() {
    let mut pair = Pair::default();
    let none = [0; 16];
    for (offset, length, id, refusal) in [
        (0, MIB, none, 4),
        (M - 1, MIB, none, 4),
        (M, MIB, none, 9),
        (M + 1, MIB, none, 4),
        (M, 2 * MIB, none, 9),
        (M, 2 * MIB + 1, none, 4),
        (M, 3 * MIB, none, 4),
        (2 * M, MIB, none, 9),
        (3 * M, MIB, none, 4),
        (3 * M, 0, none, 9),
        (4 * M, 0, none, 4),
        (3 * M, 0, GUID, 5),
        (2 * M, MIB, GUID, 5),
    ] {
        let name = format!("{length} at {offset}");
        of(&mut pair, &log_at(offset, length, id), refusal, &name);
    }
    // the log ends with the file, or a byte behind it
    let mut image = log_at(2 * M, MIB, none);
    image.length = 3 * M;
    of(&mut pair, &image, 9, "ends with the file");
    image.length = 3 * M - 1;
    of(&mut pair, &image, 4, "ends a byte behind it");
}

#[test]
fn the_longest_log() {
    let mut pair = Pair::default();
    let last = 64 * MIB / SECTOR - 1;
    for (mibs, refusal) in [(63, APPLIED), (64, APPLIED), (65, 4)] {
        let length = (mibs + 2) * MIB;
        let mut image = Image::new(length, length as u64, mibs * MIB, GUID);
        let at = last.min(mibs * MIB / SECTOR - 1);
        let target = length as u64 - 4096;
        // round the ring's end
        image.entry(at, &Entry::new(1, at).with(data(target, pattern(1))));
        of(&mut pair, &image, refusal, &format!("{mibs} MiB"));
    }
}

/// A file of 3 MiB with a log of one entry at 1 MiB, in a buffer of a capacity.
fn with_entry(capacity: u64, entry: &Entry) -> Image {
    let mut image = Image::new(capacity as usize, 3 * M, MIB, GUID);
    image.entry(0, entry);
    image
}

#[test]
fn flushed_and_last_file_offset() {
    let mut pair = Pair::default();
    let end = 3 * M;
    for (flushed, refusal) in [(end - 1, 9), (end, 9), (end + 1, 6), (u64::MAX, 6)] {
        let mut entry = Entry::new(1, 0);
        entry.flushed = flushed;
        let image = with_entry(end, &entry);
        of(&mut pair, &image, refusal, &format!("flushed {flushed}"));
    }
    for capacity in [end, end + 1, end + 4096] {
        for last in [0, end - 1, end, capacity - 1, capacity, capacity + 1] {
            let mut entry = Entry::new(1, 0);
            entry.last = last;
            let refusal = if last > capacity { 8 } else { APPLIED };
            let name = format!("last {last} in {capacity}");
            of(&mut pair, &with_entry(capacity, &entry), refusal, &name);
        }
    }
    for last in [128 * TIB - 1, 128 * TIB, 128 * TIB + 1, u64::MAX] {
        let mut entry = Entry::new(1, 0);
        entry.last = last;
        of(
            &mut pair,
            &with_entry(end, &entry),
            8,
            &format!("last {last}"),
        );
    }
}

#[test]
fn ranges_of_sectors() {
    let mut pair = Pair::default();
    let top = u64::MAX - 4095;
    for (offset, length, refusal) in [
        (M - 4096, 4096, 7),
        (0, M, 7),
        (M, 4096, 7),
        (2 * M - 4096, 4096, 7),
        (2 * M, 4096, APPLIED),
        (2 * M - 4096, 8192, 7),
        (3 * M - 4096, 4096, APPLIED),
        (3 * M - 4096, 8192, APPLIED),
        (3 * M, 4096, APPLIED),
        (3 * M + 4096, 4096, 8),
        (3 * M, 8192, 8),
        (2 * M, M + 4096, APPLIED),
        (2 * M, M + 8192, 8),
        (128 * TIB, 4096, 8),
        (2 * M, top, 8),
        (2 * M, top - 2 * M, 8),
        (top, 4096, 8),
        (top, 8192, 8),
        (top, top, 8),
        (0, top, 7),
        (0, 0, APPLIED),
        (M, 0, APPLIED),
        (top, 0, APPLIED),
    ] {
        let name = format!("{length} at {offset}");
        let entry = Entry::new(1, 0).with(zero(offset, length));
        let image = with_entry(3 * M + 4096, &entry);
        of(&mut pair, &image, refusal, &name);
        if length == 4096 {
            let entry = Entry::new(1, 0).with(data(offset, pattern(1)));
            let image = with_entry(3 * M + 4096, &entry);
            of(&mut pair, &image, refusal, &name);
        }
    }
}

#[test]
fn a_log_behind_what_it_writes() {
    let mut pair = Pair::default();
    for (offset, length, refusal) in [
        (M, M, APPLIED),
        (M, M + 4096, 7),
        (M - 4096, 8192, 7),
        (2 * M - 4096, 4096, APPLIED),
        (2 * M - 4096, 8192, 7),
        (3 * M, 4096, APPLIED),
        (3 * M - 4096, 8192, 7),
        // to 2^64, and past it
        (M, 0u64.wrapping_sub(M), 7),
        (M, u64::MAX - 4095, 7),
        (3 * M, u64::MAX - 4095, 8),
    ] {
        let mut image = Image::with_log_at(2 * MIB, 3 * MIB + SECTOR, 3 * M, MIB, GUID);
        image.entry(255, &Entry::new(1, 255).with(zero(offset, length)));
        let name = format!("{length} at {offset}");
        of(&mut pair, &image, refusal, &name);
    }
}

#[test]
fn numbers_of_descriptors() {
    let mut pair = Pair::default();
    for count in [0, 1, 125, 126, 127, 128, 253, 254, 255] {
        for start in [0, SECTORS - 2, SECTORS - 1] {
            let mut zeros = Entry::new(1, start);
            let mut mixed = Entry::new(1, start);
            for i in 0..count {
                let at = 2 * M + i as u64 * 4096;
                zeros.descriptors.push(zero(at, 4096));
                mixed.descriptors.push(match i % 3 {
                    0 => data(at, pattern(i as u8)),
                    _ => zero(at, 4096),
                });
            }
            for entry in [zeros, mixed] {
                let mut image = Image::new(3 * MIB, 3 * M, MIB, GUID);
                image.entry(start, &entry);
                let name = format!("{count} at {start}");
                let answer = pair.answers(&image, APPLIED, &name);
                assert_eq!(answer.count, count as u64, "{name}");
            }
        }
    }
}

/// An entry of one sector: where it is, its number and its Tail.
type Placed = (usize, u64, usize);

/// Lays entries that write one sector each, which tells the entry's place.
fn ring(entries: &[Placed]) -> Image {
    let mut image = Image::new(3 * MIB, 3 * M, MIB, GUID);
    image.buffer[2 * MIB..].fill(5);
    for &(at, number, tail) in entries {
        let own = 2 * M + at as u64 * 4096;
        image.entry(at, &Entry::new(number, tail).with(zero(own, 4096)));
    }
    image
}

#[test]
fn which_sequence_is_active() {
    let mut pair = Pair::default();
    let top = u64::MAX;
    // entries, and the places of those that are applied
    let cases: &[(&[Placed], &[usize])] = &[
        (&[(0, top, 0)], &[0]),
        (&[(0, top - 1, 0), (1, top, 0)], &[0, 1]),
        (&[(0, top, 0), (1, 1, 0)], &[0]),
        (&[(0, top, 0), (1, 0, 1)], &[0]),
        // equal heads
        (&[(9, 4, 9), (3, 4, 3)], &[3]),
        (&[(8, 3, 8), (9, 4, 8), (20, 4, 20)], &[8, 9]),
        (
            &[(20, 3, 20), (21, 4, 20), (30, 4, 30), (2, 4, 1)],
            &[20, 21],
        ),
        // the lowest first offset, not the lowest head
        (&[(255, 3, 255), (0, 4, 255), (9, 4, 9)], &[9]),
        // Tails elsewhere
        (&[(5, 5, 5), (6, 6, 99)], &[5]),
        (&[(5, 5, 5), (6, 6, 6), (7, 7, 6)], &[6, 7]),
        (&[(5, 5, 5), (6, 6, 5), (7, 7, 6)], &[6, 7]),
        (&[(5, 5, 99), (6, 6, 5), (7, 7, 99)], &[5, 6]),
        // numbers that do not rise by one
        (&[(5, 5, 5), (6, 7, 5)], &[5]),
        (&[(5, 5, 5), (6, 5, 5)], &[5]),
        // a gap
        (&[(5, 5, 5), (7, 6, 5)], &[5]),
        // round the end
        (&[(254, 1, 254), (255, 2, 254), (0, 3, 254)], &[254, 255, 0]),
    ];
    for (entries, applied) in cases {
        let image = ring(entries);
        let name = format!("{entries:?}");
        let answer = pair.answers(&image, APPLIED, &name);
        assert_eq!(answer.count, applied.len() as u64, "{name}");
        for at in 0..SECTORS {
            let written = pair.buffer()[2 * MIB + at * SECTOR] == 0;
            assert_eq!(written, applied.contains(&at), "{name}: sector {at}");
        }
    }
    of(&mut pair, &ring(&[(0, 0, 0)]), 5, "number 0");
    of(&mut pair, &ring(&[(1, 1, 0), (2, 2, 0)]), 5, "no first");
}
