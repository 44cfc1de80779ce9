//! CRC-32C over 64 MiB, the proved function and an ordinary byte table in Rust in turn. Prints both times and the ratio of
//! their speeds.
use shrunvaki_testkit::image::MIB;
use shrunvaki_testkit::measure::in_turn;
use shrunvaki_testkit::{api, model};
use std::hint::black_box;

const TURNS: usize = 21;

fn main() {
    let bytes: Vec<u8> = (0..64 * MIB).map(|i| (i ^ (i >> 8)) as u8).collect();
    assert_eq!(api::crc32c(&bytes), model::crc32c(&bytes));
    in_turn(
        TURNS,
        |_| {
            black_box(api::crc32c(black_box(&bytes)));
        },
        |_| {
            black_box(model::crc32c(black_box(&bytes)));
        },
    )
    .report("CRC-32C over 64 MiB");
}
