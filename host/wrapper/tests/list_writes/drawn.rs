//! Files drawn at random, most of them damaged.
use crate::listing::assert_bytes_listed;
use shrunvaki_testkit::command::folder;
use shrunvaki_testkit::drawn::damage::Damage;
use shrunvaki_testkit::drawn::rings::{crowd, empty};
use shrunvaki_testkit::drawn::seeds;
use shrunvaki_testkit::pieces::End;

const CASES: u64 = 600;
const RINGS: u64 = 200;

/// How often files were refused by each number; 0 is none.
#[derive(Default, Debug)]
struct Tally([u64; 9]);

impl Tally {
    fn add(&mut self, end: End) {
        let number = match end {
            End::Refused(number) => number,
            End::Done { .. } => 0,
        };
        self.0[number as usize] += 1;
    }
}

#[test]
fn damaged_files() {
    let folder = folder("list-writes-damaged");
    let damage = Damage::new();
    let mut image = damage.memory();
    let mut tally = Tally::default();
    let all = seeds::each(1..=CASES, |random| {
        let damaged = damage.draw(random, &mut image);
        let buffer = &damaged.case.image.buffer;
        let length = damaged.length.min(buffer.len() as u64) as usize;
        tally.add(assert_bytes_listed(&folder, &buffer[..length]));
    });
    println!("{tally:?}");
    if all {
        assert!(tally.0.iter().all(|&times| times >= 3), "{tally:?}");
    }
}

#[test]
fn crowded_rings() {
    let folder = folder("list-writes-rings");
    let empty = empty();
    let mut image = empty.clone();
    let mut tally = Tally::default();
    let all = seeds::each(1..=RINGS, |random| {
        image.buffer.copy_from_slice(&empty.buffer);
        crowd(random, &mut image);
        tally.add(assert_bytes_listed(&folder, &image.buffer));
    });
    println!("{tally:?}");
    if all {
        assert!(tally.0[0] >= RINGS / 2 && tally.0[5] >= 1, "{tally:?}");
    }
}
