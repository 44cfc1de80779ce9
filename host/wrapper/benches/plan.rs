//! `plan` on logs of 64 MiB that an attacker would choose, against one pass of the project's own CRC-32C over 64 MiB in the
//! same run, and in turn with the plain model's. Prints the ratios; exits with status 1 where one is above the limit in passes.
use shrunvaki_testkit::image::{seal, Image, MIB, SECTOR};
use shrunvaki_testkit::long_log::{chain, full_of_data, LOG, MOST_DESCRIPTORS, SECTORS};
use shrunvaki_testkit::measure::{crc_pass, finish, in_turn, report, time};
use shrunvaki_testkit::model;
use shrunvaki_testkit::vhdx::{self, Plan};
use std::hint::black_box;

const LIMIT: f64 = 4.0;
const TURNS: usize = 5;

/// Builds the image of a case.
type Build = fn() -> Image;

fn valid_entries() -> Image {
    chain(MOST_DESCRIPTORS)
}

/// 16,384 candidates of one sector that are valid but for their checksum.
fn bad_checksums() -> Image {
    let mut image = valid_entries();
    for sector in image.log_mut().chunks_mut(SECTOR) {
        sector[4] ^= 1;
    }
    image
}

/// In every sector a header with the largest DescriptorCount and EntryLength that the log's length allows, and descriptors
/// that keep their rule to the sector's end.
fn greedy_headers() -> Image {
    let mut image = valid_entries();
    let count = ((LOG - 64) / 32) as u32;
    for sector in image.log_mut().chunks_mut(SECTOR) {
        sector[8..12].copy_from_slice(&(LOG as u32).to_le_bytes());
        sector[24..28].copy_from_slice(&count.to_le_bytes());
        seal(sector);
    }
    image
}

/// The same in turn with the model, which judges every sector of the log once and keeps what it found in a list.
fn beside_the_model(image: &Image, expected: Plan) {
    let model = match model::plan(&image.buffer, image.length) {
        Ok(plan) => Plan::Apply {
            length: plan.length,
            count: plan.count,
        },
        Err(number) => Plan::Refused(number),
    };
    assert_eq!(model, expected);
    in_turn(
        TURNS,
        |_| {
            black_box(vhdx::plan(black_box(&image.buffer), image.length));
        },
        |_| {
            black_box(model::plan(black_box(&image.buffer), image.length).is_ok());
        },
    )
    .report("  beside the model");
}

fn main() {
    let pass = crc_pass();
    let length = (LOG + 3 * MIB) as u64;
    let applied = |count| Plan::Apply { length, count };
    let cases: [(&str, Build, Plan); 4] = [
        (
            "one entry that fills the log",
            || full_of_data(1),
            applied(SECTORS as u64 - 128),
        ),
        (
            "16,384 valid entries in one chain",
            valid_entries,
            applied((MOST_DESCRIPTORS * SECTORS) as u64),
        ),
        (
            "16,384 candidates with a wrong checksum",
            bad_checksums,
            Plan::Refused(5),
        ),
        (
            "a greedy header in every sector",
            greedy_headers,
            Plan::Refused(5),
        ),
    ];
    let mut most: f64 = 0.0;
    for (name, build, expected) in cases {
        let image = build();
        assert_eq!(vhdx::plan(&image.buffer, image.length), expected, "{name}");
        let taken = time(|| vhdx::plan(black_box(&image.buffer), image.length));
        most = most.max(report(name, taken, pass));
        beside_the_model(&image, expected);
    }
    finish(most, LIMIT);
}
