//! What a file is asked in a case: sectors and keys, of facts that are its own or others.
use crate::pair::Pair;
use shrunvaki_testkit::drawn::fields::interesting;
use shrunvaki_testkit::drawn::files::KEYS;
use shrunvaki_testkit::random::Random;
use shrunvaki_testkit::tables::ucs2;
use shrunvaki_testkit::vhdx::{self, Facts, HAS_PARENT};

/// Looks up sectors and keys with these facts and with facts that differ from them.
pub fn ask(random: &mut Random, pair: &mut Pair, facts: &Facts) {
    for _ in 0..48 {
        pair.lookup(facts, sector(random, facts));
    }
    ask_keys(random, pair, facts);
    for _ in 0..16 {
        let other = change(random, facts);
        pair.lookup(&other, sector(random, facts));
        pair.lookup(&other, sector(random, &other));
        ask_keys(random, pair, &other);
    }
}

/// A sector at a block's or a chunk's boundary, at the disk's end, or anywhere.
fn sector(random: &mut Random, facts: &Facts) -> u64 {
    let logical = facts.logical_sector_size.max(1);
    let sectors = facts.disk_size / logical;
    let block = (facts.block_size / logical).max(1);
    let chunk = 1 << 23;
    let around = random.below(3).wrapping_sub(1);
    let one_of = |random: &mut Random, size: u64| random.below(sectors / size + 1) * size;
    match random.below(8) {
        0 => sectors.wrapping_add(around),
        1 => random.number(),
        2 => u64::MAX,
        3 | 4 => one_of(random, block).wrapping_add(around),
        5 => one_of(random, chunk).wrapping_add(around),
        _ => random.below(sectors.max(1)),
    }
}

/// The slots of the facts that are any number: all but has-parent and the disk identifier.
const NUMBERS: [usize; 10] = [3, 4, 5, 6, 10, 11, 12, 13, 14, 15];

/// Facts with one or two of them changed.
fn change(random: &mut Random, facts: &Facts) -> Facts {
    let mut slots = vhdx::slots_of(facts);
    for _ in 0..1 + random.below(2) {
        if random.one_in(8) {
            slots[HAS_PARENT] ^= 1;
        } else {
            let slot = &mut slots[random.pick(&NUMBERS)];
            *slot = interesting(random, *slot);
        }
    }
    vhdx::facts_in(&slots)
}

/// Asks for a key that is there, for parts of it, for none, and for any bytes of the locator.
fn ask_keys(random: &mut Random, pair: &mut Pair, facts: &Facts) {
    let key = ucs2(random.pick(&KEYS));
    let part = random.below(key.len() as u64) as usize;
    for key in [&key[..], &key[..part], &key[part..]] {
        pair.parent_key(facts, key);
    }
    let buffer = pair.buffer();
    let at = facts.locator.offset.saturating_add(random.below(300));
    let end = at.saturating_add(1 + random.below(40));
    if end < buffer.len() as u64 {
        let key = buffer[at as usize..end as usize].to_vec();
        pair.parent_key(facts, &key);
    }
}

/// A step number: one of the log's, or one that is refused.
pub fn number(random: &mut Random, pair: &Pair) -> u64 {
    let count = pair.plan().map_or(0, |plan| plan.count);
    match random.below(8) {
        0 => 0,
        1 => count,
        2 => count + 1,
        3 => u64::MAX - random.below(2),
        _ => random.below(count + 1),
    }
}
