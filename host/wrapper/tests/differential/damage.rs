//! Damaged files with a pending log: what is done to them, and what they are asked.
use crate::pair::Pair;
use crate::questions::{ask, number};
use shrunvaki_testkit::closing::WRITER;
use shrunvaki_testkit::drawn::damage::{Damage, Damaged};
use shrunvaki_testkit::drawn::seeds;
use shrunvaki_testkit::random::Random;
use shrunvaki_testkit::vhdx::Facts;

const CASES: u64 = 5_000;

/// Steps, attaches and questions, each on what the one before left.
fn exercise(random: &mut Random, pair: &mut Pair, facts: &Facts) {
    for _ in 0..random.below(4) {
        let k = number(random, pair);
        pair.step(k);
    }
    let answer = pair.attach();
    let own = match answer.refusal {
        0 => answer.facts,
        _ => *facts,
    };
    ask(random, pair, &own);
    if random.one_in(4) {
        let k = number(random, pair);
        pair.step(k);
        pair.attach();
    }
}

/// Closes a file, at once or by one of its steps. Once the header is written, there is nothing left to do.
fn close(random: &mut Random, pair: &mut Pair) {
    let mut identifier = [0; 16];
    random.fill(&mut identifier);
    match random.below(4) {
        0 => {
            let k = number(random, pair);
            pair.close_step(&identifier, k);
        }
        1 => {
            let header = pair.plan().map_or(1, |plan| plan.count + 1);
            pair.close_step(&identifier, header);
        }
        _ => drop(pair.close(&identifier)),
    }
    if random.one_in(8) {
        pair.close(&WRITER);
    }
}

#[test]
fn damaged_files() {
    let damage = Damage::new();
    let mut pair = Pair::default();
    let mut image = damage.memory();
    let all = seeds::each(1..=CASES, |random| {
        let Damaged {
            base,
            mut case,
            capacity,
            length,
        } = damage.draw(random, &mut image);
        pair.load_with(&case.image.buffer, capacity, length);
        exercise(random, &mut pair, &base.facts);
        // what attach left, or now and then the file as it came
        if random.one_in(4) {
            if random.one_in(4) {
                case.set_greatest_number();
            }
            pair.load_with(&case.image.buffer, capacity, length);
        }
        close(random, &mut pair);
    });
    pair.tally.print("damaged files");
    if all {
        pair.tally.assert_reached(0..=23, CASES / 200);
        pair.tally.assert_found(CASES / 2);
    }
}
