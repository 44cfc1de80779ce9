//! A million lookups of random sectors on a disk of 100,000 blocks, the proved function and an ordinary Rust one in turn. Prints
//! both rates and the ratio, medians over many turns; exits with status 1 where the proved one has less than 0.7 of the other's
//! rate.
use shrunvaki_testkit::measure::in_turn;
use shrunvaki_testkit::model;
use shrunvaki_testkit::random::Random;
use shrunvaki_testkit::sample::{entry, small_disk, Sample, M};
use shrunvaki_testkit::vhdx::{self, Facts};
use std::hint::black_box;
use std::time::Duration;

const BLOCKS: u64 = 100_000;
const SECTORS: u64 = 1_000_000;
const LIMIT: f64 = 0.7;

/// So many lookups are timed at once, some milliseconds, and each of them so many times.
const PIECE: usize = 100_000;
const PASSES: usize = 20;

/// Sectors of 512 bytes and blocks of 1 MiB, so ratio 4,096.
const RATIO: u64 = 4096;

/// A disk with a parent, its payload entries in these states at random. Four bitmaps of random bits are at 3 to 7 MiB and four
/// blocks behind them: entries name them again and again, which no rule forbids.
fn disk(random: &mut Random, states: &[u64]) -> Sample {
    let facts = Facts {
        disk_size: BLOCKS * M,
        ..small_disk(true)
    };
    let mut sample = Sample::new(facts, 11 * M, 11 * M);
    for block in 0..BLOCKS {
        let value = entry(7 + random.below(4), random.pick(states));
        sample.set_entry(block + block / RATIO, value);
    }
    for chunk in 0..BLOCKS.div_ceil(RATIO) {
        sample.set_entry(chunk * (RATIO + 1) + RATIO, entry(3 + chunk % 4, 6));
    }
    for byte in 0..4 * M {
        sample.set_bits(3, byte, random.number() as u8);
    }
    sample
}

/// Prints how many lookups a second that is.
fn report(name: &str, taken: Duration) {
    let rate = PIECE as f64 / taken.as_secs_f64() / 1e6;
    println!("  {name}: {rate:.1} million lookups a second");
}

/// The rate of the proved lookup as a share of the other's. In a turn the two have different sectors: the second would else find
/// in the cache what the first has read.
fn compare(name: &str, sample: &Sample, sectors: &[u64]) -> f64 {
    for &sector in sectors {
        sample.lookup(sector);
    }
    let (slots, facts) = (vhdx::slots_of(&sample.facts), &sample.facts);
    let (image, length) = (&sample.buffer, sample.length);
    let pieces: Vec<&[u64]> = sectors.chunks(PIECE).collect();
    let piece = |turn: usize| pieces[turn % pieces.len()];
    let taken = in_turn(
        PASSES * pieces.len(),
        |turn| {
            for &sector in piece(turn) {
                black_box(vhdx::lookup_raw(black_box(&slots), image, length, sector));
            }
        },
        |turn| {
            for &sector in piece(turn + pieces.len() / 2) {
                black_box(model::lookup(black_box(facts), image, length, sector));
            }
        },
    );
    println!("{name}:");
    report("proved", taken.one);
    report("plain", taken.other);
    println!("  proved / plain: {:.2}", taken.ratio);
    taken.ratio
}

fn main() {
    let mut random = Random::new(1);
    let sectors: Vec<u64> = (0..SECTORS)
        .map(|_| random.below(BLOCKS * M / 512))
        .collect();
    let whole = disk(&mut random, &[6]);
    compare("state 6 alone", &whole, &sectors);
    let mixed = disk(&mut random, &[6, 7]);
    let ratio = compare("states 6 and 7", &mixed, &sectors);
    if ratio < LIMIT {
        println!("below {LIMIT}");
        std::process::exit(1);
    }
}
