//! Interrupted attaches and steps, and power failures: after any list of calls, each run to its end or interrupted, of flushes and of
//! power failures, one more attach gives what an attach of the original gives. A torn write leaves random bytes in its sector,
//! interrupted growth any length between the given and the final one with garbage behind it. A call that is lost leaves both at once, in
//! any of the sectors, and a power failure the same of the file as it was at the last flush. Between calls the file may come into
//! another buffer. What the log names is known from the descriptors that the test laid into it.
//!
//! Of the disk this supposes that nothing but the named sectors is damaged, that growth reads as zeros, and that the file does not become
//! shorter than it was at the last flush. Without any one of these the promise does not hold, which the last tests show.
use shrunvaki_testkit::image::{Image, GUID, MIB};
use shrunvaki_testkit::interrupted::{Compared, Unflushed};
use shrunvaki_testkit::pending::{
    assert_same, ends_in_14, growth_alone, no_growth, r1, r1_descriptor, r1_with, r_entry, rich,
    small_blocks, usual_facts, without_a_log, Pending, Replay,
};
use shrunvaki_testkit::random::Random;
use shrunvaki_testkit::sample::M;
use shrunvaki_testkit::tables::Disk;
use shrunvaki_testkit::vhdx::{self, Attachment};

/// A file whose log can be applied, and what attach answers for it.
struct Case {
    name: &'static str,
    pending: Pending,
    answer: Attachment,
    /// Every byte of the file with its log applied.
    file: Vec<u8>,
}

impl Case {
    fn new(name: &'static str, pending: Pending, tables: Result<vhdx::Facts, u64>) -> Case {
        let answer = pending.answer(tables);
        let (mut file, length) = pending.applied();
        file.truncate(length as usize);
        // an attach of the original in a buffer of the same length
        pending.attach(tables, name);
        Case {
            name,
            pending,
            answer,
            file,
        }
    }
}

fn cases() -> Vec<Case> {
    let (disk, facts) = small_blocks();
    vec![
        Case::new("R1", r1(), Err(9)),
        Case::new(
            "R1 with tables",
            r1_with(&Disk::default()),
            Ok(usual_facts()),
        ),
        Case::new("rich", rich(&disk), Ok(facts)),
        Case::new("no growth", no_growth(), Ok(usual_facts())),
        Case::new("growth alone", growth_alone(), Ok(usual_facts())),
        Case::new("without a log", without_a_log(), Ok(usual_facts())),
        Case::new("ends in 14", ends_in_14(), Err(14)),
    ]
}

/// What calls came to.
#[derive(Clone, Copy)]
enum Kind {
    Attach,
    Step,
    Refused21,
    Refused22,
    InterruptedGrowth,
    TornWrite,
    Lost,
    Reopened,
    Flush,
    Failure,
    /// A power failure that made the file shorter.
    TakenBack,
}

const KINDS: usize = Kind::TakenBack as usize + 1;

/// A file between calls.
struct File<'a> {
    case: &'a Case,
    now: Compared,
    reached: [u64; KINDS],
}

impl<'a> File<'a> {
    fn new(case: &'a Case) -> File<'a> {
        File {
            case,
            now: Compared::new(&case.pending.image),
            reached: [0; KINDS],
        }
    }

    /// As it came.
    fn reset(&mut self) {
        self.now.reset(&self.case.pending.image);
    }

    fn reach(&mut self, kind: Kind) {
        self.reached[kind as usize] += 1;
    }

    fn replay(&self) -> &'a Replay {
        &self.case.pending.replay
    }

    /// The log's work, which is the same at every length that the file comes to.
    fn work(&self) -> Unflushed<'a> {
        Unflushed::of(self.replay(), self.case.pending.image.length)
    }

    /// After every call: each byte is the expected one, and demand 3 holds of it.
    #[track_caller]
    fn check(&self, call: &str) {
        let name = format!("{}, {call}", self.case.name);
        self.now.assert_same(&name);
        self.case.pending.assert_only_named(&self.now.buffer);
    }

    /// An attach that is run to its end.
    fn attach(&mut self) {
        let answer = vhdx::attach(&mut self.now.buffer, self.now.length);
        assert_eq!(answer, self.case.answer, "{}", self.case.name);
        self.now.length = self.replay().all(&mut self.now.expected, self.now.length);
        assert_eq!(answer.length, self.now.length, "{}", self.case.name);
        self.reach(Kind::Attach);
        self.check("attach");
    }

    /// A step that is run to its end.
    fn step(&mut self, k: u64) {
        let answer = vhdx::step(&mut self.now.buffer, self.now.length, k);
        let expected = self
            .replay()
            .step(&mut self.now.expected, self.now.length, k);
        assert_eq!(answer, expected, "{}, step {k}", self.case.name);
        self.now.length = answer.length;
        self.reach(match answer.refusal {
            21 => Kind::Refused21,
            22 => Kind::Refused22,
            _ => Kind::Step,
        });
        self.check("step");
    }

    /// A step that is interrupted. One that is refused changes nothing.
    fn interrupt_step(&mut self, random: &mut Random, k: u64) {
        let answer = self.replay().answer(self.now.length, k);
        if k == 0 {
            let more = answer.length - self.now.length;
            let length = self.now.length + random.below(more + 1);
            self.interrupt_growth(random, length);
        } else if answer.refusal == 0 {
            self.tear(random, k);
        }
    }

    /// Growth that is interrupted at a length.
    fn interrupt_growth(&mut self, random: &mut Random, length: u64) {
        self.now.interrupt_growth(random, length);
        self.reach(Kind::InterruptedGrowth);
        self.check("interrupted growth");
    }

    /// A torn write of sector k.
    fn tear(&mut self, random: &mut Random, k: u64) {
        let (at, bytes) = &self.replay().sectors[k as usize - 1];
        self.now.tear(random, *at, bytes);
        self.reach(Kind::TornWrite);
        self.check("torn write");
    }

    /// An attach that is interrupted: its first steps are done, and the next is torn or not begun.
    fn interrupt_attach(&mut self, random: &mut Random) {
        let steps = self.replay().count() + 1;
        let done = random.below(steps + 1);
        for k in 0..done {
            self.step(k);
        }
        if done < steps && !random.one_in(4) {
            self.interrupt_step(random, done);
        }
    }

    /// What is left of a call is taken up in another buffer.
    fn leave(&mut self, random: &mut Random, left: &[u8], kind: Kind, call: &str) {
        self.now.reopen(random, left, self.case.answer.length);
        self.reach(kind);
        self.check(call);
    }

    /// A call that is lost: its writes were done in any order, or not.
    fn lose(&mut self, random: &mut Random) {
        let left = self.work().lost(random, self.now.file());
        self.leave(random, &left, Kind::Lost, "a lost call");
    }

    /// One that had grown the file to a length, with every sector torn that it names.
    fn lose_all_at(&mut self, random: &mut Random, length: u64) {
        let left = self.work().lost_at(random, self.now.file(), length, 1);
        self.leave(random, &left, Kind::Lost, "a lost call");
    }

    /// The same file in another buffer.
    fn reopen(&mut self, random: &mut Random) {
        let file = self.now.file().to_vec();
        self.leave(random, &file, Kind::Reopened, "another buffer");
    }

    fn flush(&mut self) {
        self.now.flush();
        self.reach(Kind::Flush);
    }

    /// A power failure: of all that was done since the last flush any part is taken back, and what is on the disk then stays there.
    fn fail(&mut self, random: &mut Random) {
        let length = self.now.length;
        let left = self.work().lost(random, &self.now.flushed);
        self.leave(random, &left, Kind::Failure, "a power failure");
        self.now.flush();
        if self.now.length < length {
            self.reach(Kind::TakenBack);
        }
    }

    /// One more attach, undisturbed: the answer and every byte of the file are those of an attach of the original.
    fn finish(&mut self) {
        let name = self.case.name;
        let answer = vhdx::attach(&mut self.now.buffer, self.now.length);
        assert_eq!(answer, self.case.answer, "{name}");
        let file = &self.now.buffer[..answer.length as usize];
        assert_same(file, &self.case.file, name);
        self.now.length = self.replay().all(&mut self.now.expected, self.now.length);
        self.check("the last attach");
    }
}

// ---- one interruption

#[test]
fn a_torn_write_in_each_step_of_an_attach() {
    let mut random = Random::new(11);
    for case in &cases() {
        let mut file = File::new(case);
        for k in 1..=case.answer.count {
            file.reset();
            for done in 0..k {
                file.step(done);
            }
            file.tear(&mut random, k);
            file.finish();
        }
    }
}

#[test]
fn a_torn_write_in_each_step_alone() {
    let mut random = Random::new(12);
    for case in &cases() {
        let mut file = File::new(case);
        for k in 0..=case.answer.count + 1 {
            file.reset();
            file.interrupt_step(&mut random, k);
            file.finish();
        }
    }
}

/// Lengths from the old to the final one, at their ends and between.
fn lengths(case: &Case) -> Vec<u64> {
    let (old, new) = (case.pending.image.length, case.answer.length);
    let more = new - old;
    let mut lengths = vec![old, new];
    for n in [1, 2, 4095, 4096, 4097, 8192, more / 2] {
        if n <= more {
            lengths.extend([old + n, new - n]);
        }
    }
    lengths
}

/// Each file with something done to it at each of these lengths, then one more attach.
fn at_each_length(seed: u64, disturb: impl Fn(&mut File, &mut Random, u64)) {
    let mut random = Random::new(seed);
    for case in &cases() {
        let mut file = File::new(case);
        for length in lengths(case) {
            file.reset();
            disturb(&mut file, &mut random, length);
            file.finish();
        }
    }
}

#[test]
fn growth_interrupted_anywhere() {
    at_each_length(13, |file, random, length| {
        file.interrupt_growth(random, length);
    });
}

#[test]
fn an_attach_of_what_an_attach_left() {
    for case in &cases() {
        let mut file = File::new(case);
        for _ in 0..3 {
            file.attach();
        }
        for k in (0..=case.answer.count).rev() {
            file.step(k);
        }
        file.finish();
    }
}

// ---- one power failure

#[test]
fn every_named_sector_torn_at_once() {
    at_each_length(14, |file, random, length| {
        file.lose_all_at(random, length);
    });
}

#[test]
fn growth_that_is_taken_back_to_the_last_flush() {
    at_each_length(15, |file, random, flushed| {
        file.interrupt_growth(random, flushed);
        file.flush();
        file.attach();
        let left = (file.work()).lost_at(random, &file.now.flushed, flushed, 1);
        file.leave(random, &left, Kind::Failure, "a power failure");
        file.finish();
        for _ in 0..4 {
            file.fail(random);
            assert!(file.now.length >= flushed, "shorter than was flushed");
        }
    });
}

#[test]
fn sectors_on_the_disk_past_a_length_that_is_not() {
    at_each_length(16, |file, random, length| {
        file.lose_all_at(random, file.case.answer.length);
        file.now.length = length;
    });
}

// ---- lists of calls

/// A step number: one of the log's, or one that is refused.
fn number(random: &mut Random, count: u64) -> u64 {
    match random.below(8) {
        0 => 0,
        1 => count + 1,
        2 => u64::MAX - random.below(2),
        _ => random.below(count + 1),
    }
}

fn call(random: &mut Random, file: &mut File) {
    let k = number(random, file.case.answer.count);
    match random.below(12) {
        0 => file.attach(),
        1 | 2 => file.interrupt_attach(random),
        3..=5 => file.step(k),
        6 | 7 => file.interrupt_step(random, k),
        8 => file.lose(random),
        9 => file.reopen(random),
        10 => file.flush(),
        _ => file.fail(random),
    }
}

const LISTS: u64 = 2_000;

#[test]
fn random_lists_of_calls() {
    let cases = cases();
    let mut files: Vec<File> = cases.iter().map(File::new).collect();
    for seed in 1..=LISTS {
        let mut random = Random::new(seed);
        let chosen = random.below(files.len() as u64) as usize;
        let file = &mut files[chosen];
        file.reset();
        for _ in 0..random.below(12) {
            call(&mut random, file);
        }
        file.finish();
    }
    let mut reached = [0; KINDS];
    for file in &files {
        for (sum, n) in reached.iter_mut().zip(file.reached) {
            *sum += n;
        }
    }
    println!(
        "attaches, steps, refused 21 and 22, interrupted growths, torn writes, lost calls, other buffers, flushes, power failures, \
         of these with growth taken back: {reached:?}"
    );
    assert!(reached.iter().all(|&n| n >= 100), "{reached:?}");
}

// ---- what is not promised

/// A file of 3 MiB that its log grows to 4 MiB, of which it names the first two sectors, with a byte that is not zero before its end.
fn grows(flushed: u64) -> Pending {
    let mut image = Image::new(4 * MIB + 4096, 3 * M, MIB, GUID);
    image.buffer[3 * MIB - 1] = 7;
    Pending::new(image, 0, &[r_entry(flushed, r1_descriptor())])
}

/// What attach leaves of it at a length, with a byte changed before: the answer's refusal and length, and the buffer.
fn attached(pending: &Pending, length: u64, at: usize) -> (u64, u64, Vec<u8>) {
    let mut buffer = pending.image.buffer.clone();
    buffer[3 * MIB..length.max(3 * M) as usize].fill(0);
    buffer[at] = 99;
    let answer = vhdx::attach(&mut buffer, length);
    (answer.refusal, answer.length, buffer)
}

#[test]
fn garbage_between_the_old_end_and_the_new_length_stays() {
    let pending = grows(3 * M);
    let length = 3 * M + 65_536;
    // in the named sectors, behind them, and from the new length on, where growth begins
    for (at, left) in [
        (3 * MIB, 0),
        (3 * MIB + 8191, 0),
        (3 * MIB + 8192, 99),
        (3 * MIB + 65_535, 99),
        (3 * MIB + 65_536, 0),
    ] {
        let (refusal, length, buffer) = attached(&pending, length, at);
        assert_eq!((refusal, length), (9, 4 * M), "{at}");
        assert_eq!(buffer[at], left, "{at}");
        assert_eq!(pending.applied().0[at], 0, "{at}");
    }
}

#[test]
fn damage_beside_a_named_sector_stays() {
    let pending = grows(3 * M);
    let at = 3 * MIB - 1;
    let (_, _, buffer) = attached(&pending, 3 * M, at);
    assert_eq!((buffer[at], pending.applied().0[at]), (99, 7));
}

#[test]
fn a_length_above_the_final_one_stays() {
    let pending = grows(3 * M);
    for (given, left) in [(4 * M, 4 * M), (4 * M + 1, 4 * M + 1)] {
        let (refusal, length, _) = attached(&pending, given, 3 * MIB);
        assert_eq!((refusal, length), (9, left));
    }
}

#[test]
fn a_length_below_that_of_the_last_flush_is_refused_or_loses_bytes() {
    let (refusal, length, _) = attached(&grows(3 * M), 3 * M - 1, 3 * MIB);
    assert_eq!(
        (refusal, length),
        (6, 3 * M - 1),
        "FlushedFileOffset says so"
    );
    let pending = grows(2 * M);
    let (refusal, length, buffer) = attached(&pending, 3 * M - 1, 3 * MIB);
    assert_eq!((refusal, length), (9, 4 * M), "it does not");
    let at = 3 * MIB - 1;
    assert_eq!((buffer[at], pending.applied().0[at]), (0, 7));
}
