//! Where a file's fields are, values that are worth trying in them, and checksums made to agree again.
use super::files::Base;
use crate::image::{seal, Image, HEADERS, SECTOR};
use crate::random::Random;
use crate::sample::{M, MINUS_TEN, TIB};
use std::ops::Range;

/// A number or an identifier in a file.
#[derive(Clone, Copy)]
pub struct Field {
    pub at: usize,
    pub width: usize,
}

/// Offsets and widths of a structure's fields.
type Layout = &'static [(usize, usize)];

const HEADER: Layout = &[
    (0, 4),
    (4, 4),
    (8, 8),
    (48, 16),
    (64, 2),
    (66, 2),
    (68, 4),
    (72, 8),
];
const ENTRY: Layout = &[
    (0, 4),
    (4, 4),
    (8, 4),
    (12, 4),
    (16, 8),
    (24, 4),
    (32, 16),
    (48, 8),
    (56, 8),
];
const DESCRIPTOR: Layout = &[(0, 4), (4, 4), (8, 8), (16, 8), (24, 8)];
const DATA: Layout = &[(0, 4), (4, 4), (8, 8), (4092, 4)];
const REGION_TABLE: Layout = &[(0, 4), (4, 4), (8, 4)];
const REGION: Layout = &[(0, 16), (16, 8), (24, 4), (28, 4)];
const METADATA_TABLE: Layout = &[(0, 8), (10, 2)];
const ITEM: Layout = &[(0, 16), (16, 4), (20, 4), (24, 4)];
const LOCATOR: Layout = &[(0, 16), (18, 2)];
const LOCATOR_ENTRY: Layout = &[(0, 4), (4, 4), (8, 2), (10, 2)];

const REGION_TABLES: [usize; 2] = [196608, 262144];

fn fields(layout: Layout, at: usize) -> impl Iterator<Item = Field> {
    layout.iter().map(move |&(offset, width)| Field {
        at: at + offset,
        width,
    })
}

/// `count` structures of a size, one behind the other.
fn repeated(layout: Layout, at: usize, size: usize, count: usize) -> impl Iterator<Item = Field> {
    (0..count).flat_map(move |i| fields(layout, at + size * i))
}

fn number(bytes: &[u8], at: usize, width: usize) -> u64 {
    let mut number = [0; 8];
    number[..width].copy_from_slice(&bytes[at..at + width]);
    u64::from_le_bytes(number)
}

/// The fields of a file by what they belong to: headers, region tables, metadata table, items, locator, BAT. The log's are apart,
/// since each case has another log.
pub fn of_file(base: &Base) -> Vec<Vec<Field>> {
    let (bytes, facts) = (&base.image.buffer, &base.facts);
    let headers = HEADERS.into_iter().flat_map(|at| fields(HEADER, at));
    let regions = REGION_TABLES.into_iter().flat_map(|at| {
        let count = number(bytes, at + 8, 4) as usize;
        fields(REGION_TABLE, at).chain(repeated(REGION, at + 16, 32, count))
    });
    let metadata = facts.metadata.offset as usize;
    let count = number(bytes, metadata + 10, 2) as usize;
    let table = fields(METADATA_TABLE, metadata).chain(repeated(ITEM, metadata + 32, 32, count));
    // the known items lie behind each other
    let items = [(0, 4), (4, 4), (8, 8), (16, 16), (32, 4), (36, 4)];
    let items = items.map(|(offset, width)| Field {
        at: metadata + 65536 + offset,
        width,
    });
    let bat = facts.bat.offset as usize;
    let mut groups = vec![
        headers.collect(),
        regions.collect(),
        table.collect(),
        // often, since few fields hold most of what is judged
        items.to_vec(),
        items.to_vec(),
        items.to_vec(),
        repeated(&[(0, 8)], bat, 8, 5000).collect(),
    ];
    if facts.has_parent {
        let at = facts.locator.offset as usize;
        let count = number(bytes, at + 18, 2) as usize;
        let entries = repeated(LOCATOR_ENTRY, at + 20, 12, count);
        groups.push(fields(LOCATOR, at).chain(entries).collect());
    }
    groups
}

/// The fields of log entries that start at these sectors.
pub fn of_log(image: &Image, starts: &[usize]) -> Vec<Field> {
    let sectors = image.log_length / SECTOR;
    let mut found = Vec::new();
    for &start in starts {
        let place = |in_entry: usize| {
            let sector = (start + in_entry / SECTOR) % sectors;
            image.log_offset + sector * SECTOR + in_entry % SECTOR
        };
        let length = number(&image.buffer, place(8), 4) as usize;
        let count = number(&image.buffer, place(24), 4) as usize;
        let front = (64 + 32 * count).next_multiple_of(SECTOR);
        found.extend(fields(ENTRY, place(0)));
        // twice, since that is where most rules are
        for _ in 0..2 {
            found.extend((0..count.min(12)).flat_map(|i| fields(DESCRIPTOR, place(64 + 32 * i))));
        }
        let data = (front..length).step_by(SECTOR);
        found.extend(data.flat_map(|at| fields(DATA, place(at))));
    }
    found
}

/// A value that is worth trying where a number is: limits, neighbours, sizes and places of the format.
pub fn interesting(random: &mut Random, old: u64) -> u64 {
    let near = [1, 8, 512, 4096, M, 2 * M];
    match random.below(13) {
        0 => old.wrapping_add(random.pick(&near)),
        1 => old.wrapping_sub(random.pick(&near)),
        2 => random.pick(&[0, 0, 1, 2, 3, 4, 7, 8, 12, 16, 20]),
        3 => random.pick(&[u64::MAX, MINUS_TEN, u64::MAX - 4095, u64::MAX - M + 1]),
        4 => random.below(9) * M,
        // of any magnitude
        5 => random.number() >> random.below(64) & !4095,
        6 => 1 << random.below(64),
        7 => random.pick(&[64 * M, 65 * M, 256 * M, 64 * TIB, 128 * TIB, 128 * TIB + 1]),
        8 => random.pick(&[19, 512, 4096, 65535, 65536, 131072, M - 1, 2047, 2048]),
        9 => old ^ 1 << random.below(64),
        10 => random.pick(&[old.wrapping_mul(2), old / 2]),
        11 => random.below(66) * TIB,
        _ => random.number(),
    }
}

/// Makes the checksums agree that cover a place in the file; the log's entries are sealed for as long as they say they are.
pub fn reseal(image: &mut Image, starts: &[usize], at: usize) {
    let covers = |range: &Range<usize>| range.contains(&at);
    let headers = HEADERS.map(|start| start..start + SECTOR);
    let tables = REGION_TABLES.map(|start| start..start + 65536);
    for range in headers.into_iter().chain(tables).filter(covers) {
        seal(&mut image.buffer[range]);
    }
    if (image.log_offset..image.log_offset + image.log_length).contains(&at) {
        for &start in starts {
            seal_entry(image, start);
        }
    }
}

fn seal_entry(image: &mut Image, start: usize) {
    let first = image.log_offset + start * SECTOR;
    let length = number(&image.buffer, first + 8, 4) as usize;
    if !(8..=image.log_length).contains(&length) {
        return;
    }
    let log = image.log();
    let to_end = &log[start * SECTOR..];
    let before_end = length.min(to_end.len());
    let mut entry = [&to_end[..before_end], &log[..length - before_end]].concat();
    seal(&mut entry);
    image.buffer[first + 4..first + 8].copy_from_slice(&entry[4..8]);
}
