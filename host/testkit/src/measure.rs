//! What the benchmarks share: the best of some runs, and the yardstick.
use crate::api;
use crate::image::MIB;
use std::hint::black_box;
use std::time::{Duration, Instant};

const RUNS: usize = 5;

fn once<T>(work: &mut impl FnMut() -> T) -> Duration {
    let start = Instant::now();
    black_box(work());
    start.elapsed()
}

/// The best of some runs: what else the machine does only adds.
pub fn time<T>(mut work: impl FnMut() -> T) -> Duration {
    (0..RUNS).map(|_| once(&mut work)).min().expect("some runs")
}

/// How long two kinds of work take when they are done in turn: the medians of each, and of the second's time by the first's in
/// the same turn.
pub struct InTurn {
    pub one: Duration,
    pub other: Duration,
    pub ratio: f64,
}

/// Turns are short and many. A slow moment of the machine meets both kinds in its turn, or is one of the few that the median
/// leaves out: best times, each taken at another moment, would compare the moments.
pub fn in_turn(turns: usize, mut one: impl FnMut(usize), mut other: impl FnMut(usize)) -> InTurn {
    let (mut ones, mut others, mut ratios) = (Vec::new(), Vec::new(), Vec::new());
    for turn in 0..turns {
        let a = once(&mut || one(turn));
        let b = once(&mut || other(turn));
        ones.push(a);
        others.push(b);
        ratios.push(b.as_secs_f64() / a.as_secs_f64());
    }
    ones.sort();
    others.sort();
    ratios.sort_by(f64::total_cmp);
    InTurn {
        one: ones[turns / 2],
        other: others[turns / 2],
        ratio: ratios[turns / 2],
    }
}

impl InTurn {
    /// Prints the medians of the proved function, which was the first, and of the plain one, and the proved one's speed as a share
    /// of the plain one's; returns that.
    pub fn report(&self, name: &str) -> f64 {
        println!(
            "{name}: proved {:.2} ms, plain {:.2} ms, proved / plain {:.2}",
            self.one.as_secs_f64() * 1e3,
            self.other.as_secs_f64() * 1e3,
            self.ratio
        );
        self.ratio
    }
}

/// One pass of the project's own CRC-32C over 64 MiB, which it prints.
pub fn crc_pass() -> Duration {
    let bytes: Vec<u8> = (0..64 * MIB).map(|i| (i ^ (i >> 8)) as u8).collect();
    let pass = time(|| api::crc32c(black_box(&bytes)));
    println!(
        "one pass of crc32c over 64 MiB: {:.1} ms",
        pass.as_secs_f64() * 1e3
    );
    pass
}

/// Prints what a case took, in milliseconds and in passes; returns the passes.
pub fn report(name: &str, taken: Duration, pass: Duration) -> f64 {
    let ratio = taken.as_secs_f64() / pass.as_secs_f64();
    println!(
        "{name}: {:.2} ms, {ratio:.3} passes",
        taken.as_secs_f64() * 1e3
    );
    ratio
}

/// Ends a benchmark with status 1 where a case took more passes than the limit.
pub fn finish(most: f64, limit: f64) {
    if most > limit {
        println!("above {limit} passes");
        std::process::exit(1);
    }
}
