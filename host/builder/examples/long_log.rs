//! Writes a VHDX file whose log takes long to apply, and prints what `host/cli/tests/kill-apply` and `kill-close` watch: the lowest
//! sector that the log writes, the highest, the file's length afterwards, and the header that closing writes.
//!
//! The log zeros a large area of the file again and again and puts other data into it now and then. The command writes a file's
//! sectors from the lowest on: the first is the BAT's, the last the area's.
use std::process::ExitCode;
use vhdx_builder::image::{Descriptor, Entry, Image, GUID, HEADERS, MIB, SECTOR};
use vhdx_builder::sample::{sector_with, small_blocks};

const M: u64 = MIB as u64;

/// The start of the BAT, which gives the disk its blocks.
const FIRST: u64 = 3 * M;

/// Where the log writes, and how many bytes; all of it is in the file.
const AREA: u64 = 4 * M;
const AREA_LENGTH: u64 = 128 * M;
const LAST: u64 = AREA + AREA_LENGTH - SECTOR as u64;

const LENGTH: u64 = AREA + AREA_LENGTH;
const FINAL_LENGTH: u64 = LENGTH + M;

/// Log entries, each of which zeros the area and then writes so many data sectors into it.
const ROUNDS: u64 = 2;
const DATA: u64 = 3;

/// The log's entries, each with its first sector in the ring.
fn entries() -> Vec<(usize, Entry)> {
    let mut next = 0;
    (0..ROUNDS)
        .map(|round| {
            let mut entry = Entry::new(1 + round, 0);
            (entry.flushed, entry.last) = (LENGTH, FINAL_LENGTH);
            entry.descriptors = descriptors(round);
            let (front, data) = entry.sectors();
            let at = next;
            next += front + data;
            (at, entry)
        })
        .collect()
}

fn descriptors(round: u64) -> Vec<Descriptor> {
    let mut all = vec![Descriptor::Zero {
        offset: AREA,
        length: AREA_LENGTH,
    }];
    for i in 0..DATA {
        // about a third of the area apart and other places in every round
        let sector = (round * DATA + i) * 10923 % (AREA_LENGTH / SECTOR as u64);
        let text = format!("Round {round}, sector {i}");
        all.push(data(AREA + sector * SECTOR as u64, text.into_bytes()));
    }
    all.push(data(LAST, format!("Round {round}, the last").into_bytes()));
    if round == ROUNDS - 1 {
        let blocks = (FINAL_LENGTH - AREA).min(64 * M) / M;
        let bat = (0..blocks).flat_map(|block| ((AREA + block * M) | 6).to_le_bytes());
        all.push(data(FIRST, bat.collect()));
    }
    all
}

fn data(offset: u64, start: Vec<u8>) -> Descriptor {
    Descriptor::Data {
        offset,
        bytes: sector_with(&start),
    }
}

/// The image before its log is applied; what the log overwrites is no zeros.
fn image() -> Image {
    let mut image = Image::new(LENGTH as usize, LENGTH, MIB, GUID);
    image.tables(&small_blocks());
    image.buffer[AREA as usize..].fill(0xee);
    for (sector, entry) in entries() {
        image.entry(sector, &entry);
    }
    image
}

fn main() -> ExitCode {
    let Some(path) = std::env::args_os().nth(1) else {
        eprintln!("usage: long_log FILE");
        return ExitCode::from(2);
    };
    match std::fs::write(&path, image().buffer) {
        Ok(()) => {
            // the first header is the current one
            println!("{FIRST} {LAST} {FINAL_LENGTH} {}", HEADERS[1]);
            ExitCode::SUCCESS
        }
        Err(error) => {
            eprintln!("{}: {error}", path.display());
            ExitCode::from(2)
        }
    }
}
