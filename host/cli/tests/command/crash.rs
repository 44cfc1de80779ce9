//! `close` and crashes: in which order it writes and flushes, and what a killed process, a disk that fails and a power failure leave.
use crate::close::{closed, STORED, WRITTEN};
use crate::sample::{bytes, Sample};
use crate::watched::{after_power_failure, between_flushes, Operation, Watched};
use shrunvaki_testkit::image::{HEADERS, MIB, SECTOR};
use shrunvaki_testkit::interrupted::Compared;
use shrunvaki_testkit::pending::{assert_same, rich, sample_file, small_blocks, Pending};
use shrunvaki_testkit::random::Random;
use shrunvaki_testkit::vhdx;

/// Another identifier, as it is written and as the file holds it.
const OTHER: &str = "ffeeddcc-bbaa-9988-7766-554433221100";
const OTHER_STORED: [u8; 16] = [
    0xcc, 0xdd, 0xee, 0xff, 0xaa, 0xbb, 0x88, 0x99, 0x77, 0x66, 0x55, 0x44, 0x33, 0x22, 0x11, 0x00,
];

fn images() -> [Pending; 2] {
    [sample_file(), rich(&small_blocks().0)]
}

/// The words that a file's name is put behind.
const CLOSE: [&str; 3] = ["close", "--identifier", WRITTEN];

#[test]
fn the_sectors_are_flushed_before_the_header_is_written() {
    let watched = Watched::new();
    // where the header lands that was not current
    for (pending, slot) in images().into_iter().zip(HEADERS) {
        let operations = watched.operations(&CLOSE, &pending);
        let [[], growth, sectors, header, []] = between_flushes(&operations)[..] else {
            panic!("four flushes, at the start and at the end: {operations:?}")
        };
        let (_, length) = pending.applied();
        assert_eq!(growth, [Operation::Length(length as usize)]);
        let mut last = MIB;
        for operation in sectors {
            let Operation::Write { at, bytes } = operation else {
                panic!("{operation:?}")
            };
            assert!(*at >= last && bytes.len() <= SECTOR, "{operations:?}");
            last = at + bytes.len();
        }
        assert!(sectors.len() > 1, "{operations:?}");
        let bytes = closed(&pending, STORED)[slot..slot + SECTOR].to_vec();
        assert_eq!(header, [Operation::Write { at: slot, bytes }]);
    }
}

#[test]
fn killed_at_any_write_it_can_be_run_again() {
    let watched = Watched::new();
    for pending in images() {
        let writes = watched.operations(&CLOSE, &pending);
        let writes = writes
            .iter()
            .filter(|o| matches!(o, Operation::Write { .. }));
        let writes = writes.count();
        let expected = closed(&pending, STORED);
        let other = closed(&pending, OTHER_STORED);
        // of the write at which it is killed: nothing, a part of a header, all that a header says, all but a byte
        for keeping in ["0", "20", "80", "4095"] {
            for n in 1..=writes {
                let sample = Sample::new(bytes(&pending));
                let n = n.to_string();
                let killed = [("KILL_AT_WRITE", &n[..]), ("KILL_KEEPING", keeping)];
                let ran = watched.run(&CLOSE, &sample, &killed);
                assert_eq!(ran.status, None, "write {n}: {ran:?}");
                let left = Sample::new(sample.now());
                let name = format!("write {n}, {keeping} bytes");
                sample.run("close", &["--identifier", WRITTEN]).with(0);
                assert_same(&sample.now(), &expected, &name);
                let text = left.run("close", &["--identifier", OTHER]).with(0).text();
                // the last bytes of a header are the same in both slots, zeros
                let expected = match text.contains("\nlog: none;") {
                    true => &expected,
                    false => &other,
                };
                assert_same(&left.now(), expected, &name);
            }
        }
    }
}

#[test]
fn after_a_power_failure_it_can_be_run_again() {
    let watched = Watched::new();
    let mut random = Random::new(20_261_116);
    for pending in images() {
        let operations = watched.operations(&CLOSE, &pending);
        let expected = closed(&pending, STORED);
        let mut again = Compared::new(&pending.image);
        for done in 0..=operations.len() {
            for _ in 0..20 {
                let done = &operations[..done];
                let left = after_power_failure(&mut random, bytes(&pending), done);
                again.reopen(&mut random, &left, expected.len() as u64);
                let answer = vhdx::close(&mut again.buffer, again.length, &STORED);
                assert_eq!(answer.refusal, 0, "after {done:?}");
                let file = &again.buffer[..answer.length as usize];
                assert_same(file, &expected, &format!("after {done:?}"));
            }
        }
    }
}

#[test]
fn a_disk_that_fails_is_told_of() {
    let watched = Watched::new();
    let pending = sample_file();
    let expected = closed(&pending, STORED);
    let still = "the log is still in the file; closing again does the rest";
    let perhaps = "the header that ends the log may not be";
    for (variable, n, told) in [
        ("FAIL_AT_WRITE", "1", still),
        ("FAIL_AT_WRITE", "2", still),
        ("FAIL_AT_FLUSH", "3", still),
        ("FAIL_AT_WRITE", "3", perhaps),
        ("FAIL_AT_FLUSH", "4", perhaps),
    ] {
        let sample = Sample::new(bytes(&pending));
        let ran = watched.run(&CLOSE, &sample, &[(variable, n)]).with(2);
        assert!(ran.errors.contains(told), "{variable} {n}: {ran:?}");
        assert!(ran.errors.contains("Input/output error"), "{ran:?}");
        assert!(!ran.text().contains("closed just now"), "{ran:?}");
        if told == still {
            assert_same(&sample.now()[..MIB], &sample.bytes[..MIB], n);
        }
        sample.run("close", &["--identifier", WRITTEN]).with(0);
        assert_same(&sample.now(), &expected, n);
    }
}
