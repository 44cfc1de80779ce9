//! The log's work in pieces, for files of 1 TiB with logs of 64 MiB: the program that lists it, from its start to its end, and the
//! wrapper's machine over a file, each in turn with the whole-buffer plan of the same file, which is mapped for it, and the program
//! with a plain reading of the log too. Prints the ratios; exits with status 1 where one of the program's is above its limit.
use shrunvaki::vhdx::pieces::{self, LONGEST_PIECE};
use shrunvaki::vhdx::{Image, Plan};
use shrunvaki_testkit::image::MIB;
use shrunvaki_testkit::list_writes::list_writes;
use shrunvaki_testkit::long_file::LongFile;
use shrunvaki_testkit::long_log::{
    chain, empty, full_of_data, one_small_entry, LOG, MOST_DESCRIPTORS, SECTORS,
};
use shrunvaki_testkit::measure::{in_turn, InTurn};
use shrunvaki_testkit::sample::TIB;
use std::hint::black_box;
use std::os::unix::fs::FileExt;
use std::path::Path;
use std::process::{Command, Stdio};

const TURNS: usize = 11;

/// What the program's time is held to.
enum HeldTo {
    Plan,
    Reading,
}

impl HeldTo {
    /// How many times as long the program may take.
    fn limit(&self) -> f64 {
        match self {
            HeldTo::Plan => 3.0,
            HeldTo::Reading => 1.5,
        }
    }
}

struct Case {
    name: &'static str,
    /// The file's first bytes; a hole is behind them.
    bytes: fn() -> Vec<u8>,
    /// How many sectors the log writes, none where it is refused.
    count: Option<usize>,
    held_to: HeldTo,
}

const CASES: [Case; 7] = [
    Case {
        name: "16,384 entries of one sector, a descriptor each",
        bytes: || chain(1).buffer,
        count: Some(SECTORS),
        held_to: HeldTo::Plan,
    },
    Case {
        name: "16,384 entries of one sector, full of descriptors",
        bytes: || chain(MOST_DESCRIPTORS).buffer,
        count: Some(SECTORS * MOST_DESCRIPTORS),
        held_to: HeldTo::Plan,
    },
    Case {
        name: "one entry whose data sectors fill the log",
        bytes: || full_of_data(1).buffer,
        count: Some(SECTORS - 128),
        held_to: HeldTo::Plan,
    },
    Case {
        name: "64 entries whose data sectors fill the log",
        bytes: || full_of_data(64).buffer,
        count: Some(SECTORS - 64 * 2),
        held_to: HeldTo::Plan,
    },
    Case {
        name: "an empty log of zeros that were written",
        bytes: || empty().buffer,
        count: None,
        // of a mapped file the plan touches one line of each page, while whoever reads copies all 64 MiB
        held_to: HeldTo::Reading,
    },
    Case {
        name: "an empty log that is a hole of the file",
        bytes: || start_of(empty().buffer, MIB),
        count: None,
        held_to: HeldTo::Plan,
    },
    Case {
        name: "one small entry before such a hole",
        bytes: || start_of(one_small_entry().buffer, 2 * MIB),
        count: Some(1),
        held_to: HeldTo::Plan,
    },
];

fn start_of(mut bytes: Vec<u8>, length: usize) -> Vec<u8> {
    bytes.truncate(length);
    bytes
}

/// What is planned, none where it is refused.
fn mapped(path: &Path) -> Option<Plan> {
    // SAFETY: the file is this benchmark's own.
    let image = unsafe { Image::open_read_only(path, 0) };
    image.expect("mapped").plan().ok()
}

fn in_pieces(long: &LongFile) -> Option<Plan> {
    let mut sectors = 0;
    let planned = pieces::plan(&long.file, long.length, 128 * TIB, |sector| {
        black_box(sector);
        sectors += 1;
        Ok(())
    });
    let planned = planned.expect("read").ok();
    assert_eq!(sectors, planned.map_or(0, |plan| plan.count));
    planned
}

fn read_log(long: &LongFile) {
    let mut piece = [0; LONGEST_PIECE];
    for at in (MIB..MIB + LOG).step_by(LONGEST_PIECE) {
        let read = long.file.read_exact_at(&mut piece, at as u64);
        read.expect("read");
        black_box(&piece);
    }
}

fn program(path: &Path) -> Command {
    let mut program = Command::new(list_writes());
    program.arg(path);
    program
}

/// How many lines the program prints.
fn lines(path: &Path) -> usize {
    let ran = program(path).output().expect("the program");
    ran.stdout.iter().filter(|&&byte| byte == b'\n').count()
}

/// Prints the median times and the median of the ratios, which it returns.
fn report(name: &str, yardstick: &str, taken: &InTurn) -> f64 {
    println!(
        "  {name} {:.1} ms, {yardstick} {:.1} ms, ratio {:.2}",
        taken.other.as_secs_f64() * 1e3,
        taken.one.as_secs_f64() * 1e3,
        taken.ratio
    );
    taken.ratio
}

/// Whether the program keeps to its limit.
fn compare(case: &Case) -> bool {
    let long = LongFile::up_to(&(case.bytes)(), TIB);
    let path = long.path();
    println!("{}, in a file of {} bytes:", case.name, long.length);
    let planned = case.count.map(|count| Plan {
        length: long.length,
        count: count as u64,
    });
    assert_eq!(mapped(&path), planned, "{}", case.name);
    assert_eq!(in_pieces(&long), planned, "{}", case.name);
    assert_eq!(lines(&path), case.count.unwrap_or(1), "{}", case.name);

    let plan = |_| {
        black_box(mapped(&path));
    };
    let machine = |_| {
        black_box(in_pieces(&long));
    };
    let reading = |_| read_log(&long);
    let run = |_| {
        let status = program(&path).stdout(Stdio::null()).status();
        assert!(status.expect("the program").success());
    };
    report("machine", "plan", &in_turn(TURNS, plan, machine));
    let by_plan = report("program", "plan", &in_turn(TURNS, plan, run));
    let by_reading = report("program", "reading", &in_turn(TURNS, reading, run));
    let ratio = match case.held_to {
        HeldTo::Plan => by_plan,
        HeldTo::Reading => by_reading,
    };
    let limit = case.held_to.limit();
    if ratio > limit {
        println!("  above {limit}");
    }
    ratio <= limit
}

fn main() {
    let above = CASES.iter().filter(|case| !compare(case)).count();
    if above > 0 {
        std::process::exit(1);
    }
}
