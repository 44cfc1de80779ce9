//! One case for each seed.
use crate::random::Random;
use std::ops::RangeInclusive;

/// Names the seed if its case panics, in whichever of the two.
struct Named(u64);

impl Drop for Named {
    fn drop(&mut self) {
        if std::thread::panicking() {
            eprintln!("seed {} failed: SEED={} runs it alone", self.0, self.0);
        }
    }
}

/// Runs a case for each seed, or for the one that is asked for. Returns whether all were run.
pub fn each(seeds: RangeInclusive<u64>, mut case: impl FnMut(&mut Random)) -> bool {
    let asked = std::env::var("SEED").ok().map(|text| {
        let seed: u64 = text.parse().expect("SEED is a number");
        seed..=seed
    });
    let all = asked.is_none();
    for seed in asked.unwrap_or(seeds) {
        let _named = Named(seed);
        // an odd factor: small seeds would else begin alike
        case(&mut Random::new(seed.wrapping_mul(0x9e37_79b9_7f4a_7c15)));
    }
    all
}
