//! `attach --apply`, also in pieces, and power failures: in which order it writes and flushes, and that whatever part of that reached the
//! disk, applying the log again gives what an undisturbed run gives. `close` is in `crash.rs`.
use crate::sample::{bytes, Sample};
use crate::watched::{after_power_failure, between_flushes, unflushed, Operation, Watched};
use shrunvaki_testkit::interrupted::Compared;
use shrunvaki_testkit::pending::{
    assert_same, ends_in_14, no_growth, rich, sample_file, small_blocks, Pending,
};
use shrunvaki_testkit::random::Random;
use shrunvaki_testkit::vhdx::{self, Attachment};

/// The words that a file's name is put behind.
const APPLY: [&[&str]; 2] = [&["attach", "--apply"], &["attach", "--apply", "--pieces"]];

/// For each of the commands and images.
const FAILURES: u64 = 400;

/// One failure in so many is followed by a run of the command.
const BY_THE_COMMAND: u64 = 40;

/// The old length is a multiple of 4,096 in the first alone. The last is refused by 14, with its log applied.
fn images() -> [Pending; 3] {
    [sample_file(), rich(&small_blocks().0), ends_in_14()]
}

#[test]
fn growth_is_flushed_before_the_first_sector_is_written() {
    let watched = Watched::new();
    for words in APPLY {
        for pending in images() {
            let operations = watched.operations(words, &pending);
            let [[], growth, sectors, []] = between_flushes(&operations)[..] else {
                panic!("three flushes, at the start and at the end: {operations:?}")
            };
            let (_, length) = pending.applied();
            assert_eq!(growth, [Operation::Length(length as usize)]);
            assert_only_writes(sectors);
        }
        let operations = watched.operations(words, &no_growth());
        let [[], sectors, []] = between_flushes(&operations)[..] else {
            panic!("two flushes, at the start and at the end: {operations:?}")
        };
        assert_only_writes(sectors);
    }
}

#[track_caller]
fn assert_only_writes(operations: &[Operation]) {
    let is_write = |operation: &Operation| matches!(operation, Operation::Write { .. });
    assert!(operations.len() > 1, "{operations:?}");
    assert!(operations.iter().all(is_write), "{operations:?}");
}

/// What an undisturbed attach gives: its answer, and every byte of the file.
struct Undisturbed {
    answer: Attachment,
    file: Vec<u8>,
}

impl Undisturbed {
    fn new(pending: &Pending) -> Undisturbed {
        let mut file = pending.image.buffer.clone();
        let answer = vhdx::attach(&mut file, pending.image.length);
        file.truncate(answer.length as usize);
        Undisturbed { answer, file }
    }

    /// That attaching what is left of the file gives the same, in a buffer of some length.
    fn assert_attached(&self, random: &mut Random, again: &mut Compared, left: &[u8]) {
        again.reopen(random, left, self.answer.length);
        let answer = vhdx::attach(&mut again.buffer, again.length);
        assert_eq!(answer, self.answer);
        let file = &again.buffer[..answer.length as usize];
        assert_same(file, &self.file, "attached again");
    }

    /// That the command makes the same file of it.
    fn assert_applied(&self, words: &[&str], left: Vec<u8>) {
        let sample = Sample::new(left);
        // no tables are read in pieces
        let refused = self.answer.refusal != 0 && !words.contains(&"--pieces");
        sample.run(words[0], &words[1..]).with(i32::from(refused));
        assert_same(&sample.now(), &self.file, "applied again");
    }
}

/// What a power failure leaves of a file: at any moment, or before the last flush. Now and then as if growth had not been flushed by
/// itself either.
fn left(random: &mut Random, pending: &Pending, operations: &[Operation]) -> Vec<u8> {
    let file = bytes(pending);
    let done = match random.below(4) {
        0 => return unflushed(operations, file.len()).lost(random, &file),
        1 => random.below(operations.len() as u64 + 1) as usize,
        _ => operations.len() - 1,
    };
    after_power_failure(random, file, &operations[..done])
}

#[test]
fn after_a_power_failure_it_can_be_run_again() {
    let watched = Watched::new();
    let mut random = Random::new(20_261_117);
    // shorter than in the end, and with sectors that are not as they are in the end
    let (mut shorter, mut torn) = (0, 0);
    for pending in images() {
        let undisturbed = Undisturbed::new(&pending);
        let mut again = Compared::new(&pending.image);
        for words in APPLY {
            let operations = watched.operations(words, &pending);
            for failure in 0..FAILURES {
                let left = left(&mut random, &pending, &operations);
                shorter += u64::from(left.len() < undisturbed.file.len());
                torn += u64::from(!undisturbed.file.starts_with(&left));
                undisturbed.assert_attached(&mut random, &mut again, &left);
                if failure % BY_THE_COMMAND == 0 {
                    undisturbed.assert_applied(words, left);
                }
            }
        }
    }
    println!("{shorter} shorter, {torn} torn");
    assert!(shorter >= FAILURES && torn >= 4 * FAILURES);
}
