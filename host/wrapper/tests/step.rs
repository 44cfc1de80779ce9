//! Single steps of a log's work on real bytes: growth alone, one sector alone, refusals 21 and 22, and all steps in order. Each
//! expected answer is written from document 01, and every byte of the buffer is compared. Refusals 1 to 8 are in `refused.rs`.
use shrunvaki_testkit::image::{Entry, Image, GUID, MIB, SECTOR};
use shrunvaki_testkit::pending::{
    assert_same, data, pattern, r1, r1_with, r_entry, rich, small_blocks, usual_facts, zero,
    Pending, Replay,
};
use shrunvaki_testkit::sample::M;
use shrunvaki_testkit::tables::Disk;
use shrunvaki_testkit::vhdx::{self, Stepped};

fn done(length: u64) -> Stepped {
    Stepped { refusal: 0, length }
}

fn refused(refusal: u64, length: u64) -> Stepped {
    Stepped { refusal, length }
}

/// Step k of the image as it is: its answer, and the buffer after it.
fn step(pending: &Pending, k: u64) -> (Stepped, Vec<u8>) {
    step_at(pending, pending.image.length, k)
}

/// The same with another length of the image.
fn step_at(pending: &Pending, length: u64, k: u64) -> (Stepped, Vec<u8>) {
    let mut buffer = pending.image.buffer.clone();
    let answer = vhdx::step(&mut buffer, length, k);
    (answer, buffer)
}

/// That step k is refused and changes nothing.
#[track_caller]
fn assert_refused(pending: &Pending, k: u64, refusal: u64) {
    let (answer, buffer) = step(pending, k);
    assert_eq!(answer, refused(refusal, pending.image.length), "step {k}");
    assert_same(&buffer, &pending.image.buffer, "a refused step");
}

fn rich_log() -> Pending {
    rich(&small_blocks().0)
}

// ---- R1 to R6

#[test]
fn r1_step_by_step() {
    let pending = r1();
    let mut buffer = pending.image.buffer.clone();
    let mut expected = buffer.clone();
    assert_ne!(expected[3 * MIB..], vec![0; MIB], "garbage");
    expected[3 * MIB..].fill(0);
    assert_eq!(vhdx::step(&mut buffer, 3 * M, 0), done(4 * M));
    assert_same(&buffer, &expected, "growth");
    for k in [1, 2] {
        // spoilt, so that a write shows
        let at = 3 * MIB + (k as usize - 1) * SECTOR;
        buffer[at..at + SECTOR].fill(7);
        assert_eq!(vhdx::step(&mut buffer, 4 * M, k), done(4 * M));
        assert_same(&buffer, &expected, "one sector");
    }
    assert_eq!(vhdx::step(&mut buffer, 4 * M, 3), refused(21, 4 * M));
    assert_same(&buffer, &expected, "a refused step");
}

#[test]
fn r1_before_it_is_grown() {
    for k in [1, 2] {
        assert_refused(&r1(), k, 22);
    }
    assert_refused(&r1(), 3, 21);
}

#[test]
fn r6_grows_and_writes_nothing() {
    let image = Image::new(4 * MIB, 3 * M, MIB, GUID);
    let pending = Pending::new(image, 0, &[r_entry(3 * M, zero(1_048_576, 0))]);
    let (answer, buffer) = step(&pending, 0);
    assert_eq!(answer, done(4 * M));
    assert_same(&buffer, &pending.applied().0, "growth");
    assert_refused(&pending, 1, 21);
}

// ---- step 0

#[test]
fn step_0_grows_and_nothing_else() {
    let pending = rich_log();
    let (answer, buffer) = step(&pending, 0);
    assert_eq!(answer, done(5 * M + 7));
    let (old, new) = (pending.image.length as usize, 5 * MIB + 7);
    let mut expected = pending.image.buffer.clone();
    expected[old..new].fill(0);
    assert_same(&buffer, &expected, "growth");
}

#[test]
fn step_0_of_an_image_that_is_long_enough() {
    let pending = rich_log();
    let capacity = pending.image.buffer.len() as u64;
    for length in [5 * M + 7, 5 * M + 8, capacity] {
        let (answer, buffer) = step_at(&pending, length, 0);
        assert_eq!(answer, done(length));
        assert_same(&buffer, &pending.image.buffer, "no growth");
    }
    let (answer, buffer) = step_at(&pending, 5 * M + 6, 0);
    assert_eq!(answer, done(5 * M + 7));
    let mut expected = pending.image.buffer.clone();
    expected[5 * MIB + 6] = 0;
    assert_same(&buffer, &expected, "one byte");
}

// ---- one sector

#[test]
fn each_step_writes_its_sector_alone() {
    for pending in [r1(), r1_with(&Disk::default()), rich_log()] {
        let length = pending.replay.grown(pending.image.length);
        for k in 1..=pending.replay.count() {
            // in garbage, so that a write shows wherever it falls
            let (answer, buffer) = step_at(&pending, length, k);
            assert_eq!(answer, done(length), "step {k}");
            let mut expected = pending.image.buffer.clone();
            let (at, bytes) = &pending.replay.sectors[k as usize - 1];
            expected[*at..at + SECTOR].copy_from_slice(bytes);
            assert_same(&buffer, &expected, &format!("step {k}"));
        }
    }
}

#[test]
fn steps_do_not_wait_for_growth() {
    // the sectors that the image holds as it came
    let pending = rich_log();
    let length = pending.image.length;
    let mut reached = [0; 2];
    for k in 1..=pending.replay.count() {
        let inside = (pending.replay.offset(k) + SECTOR) as u64 <= length;
        reached[usize::from(inside)] += 1;
        if inside {
            let (answer, buffer) = step(&pending, k);
            assert_eq!(answer, done(length), "step {k}");
            let mut expected = pending.image.buffer.clone();
            pending.replay.step(&mut expected, length, k);
            assert_same(&buffer, &expected, "one sector");
        } else {
            assert_refused(&pending, k, 22);
        }
    }
    assert_eq!(reached, [9, 8], "past the length, inside it");
}

// ---- 21 and 22

#[test]
fn numbers_above_the_count() {
    for (pending, count) in [(r1(), 2), (rich_log(), 17)] {
        for k in [
            count + 1,
            count + 2,
            1 << 32,
            1 << 63,
            u64::MAX - 1,
            u64::MAX,
        ] {
            assert_refused(&pending, k, 21);
        }
    }
    // as a number of 32 bits they would be 0 and 1
    for k in [1 << 32, (1 << 32) + 1] {
        assert_refused(&r1(), k, 21);
    }
}

#[test]
fn a_sector_that_ends_past_the_length() {
    let at = 4 * M + 8192;
    let entry = Entry::new(1, 0)
        .with(zero(4 * M, 4096))
        .with(data(at, pattern(1)));
    let image = Image::new(5 * MIB, 4 * M, MIB, GUID);
    let mut pending = Pending::new(image, 0, &[entry]);
    for (length, answers) in [
        (4 * M, [22, 22]),
        (4 * M + 4095, [22, 22]),
        (4 * M + 4096, [0, 22]),
        (at, [0, 22]),
        (at + 1, [0, 22]),
        (at + 4095, [0, 22]),
        (at + 4096, [0, 0]),
        (at + 4097, [0, 0]),
    ] {
        pending.image.length = length;
        for (k, refusal) in [1, 2].into_iter().zip(answers) {
            if refusal == 22 {
                assert_refused(&pending, k, 22);
                continue;
            }
            let (answer, buffer) = step(&pending, k);
            assert_eq!(answer, done(length));
            let mut expected = pending.image.buffer.clone();
            pending.replay.step(&mut expected, length, k);
            assert_same(&buffer, &expected, "a sector inside the length");
        }
        // 21 beats 22
        assert_refused(&pending, 3, 21);
    }
}

#[test]
fn without_a_log() {
    for length in [3 * M, 3 * M + 5, 4 * M] {
        let mut entry = Entry::new(1, 0).with(zero(2 * M, 4096));
        (entry.guid, entry.last) = ([0; 16], 4 * M);
        let mut image = Image::new(4 * MIB, length, MIB, [0; 16]);
        image.entry(0, &entry);
        let pending = Pending::with_replay(image, Replay::of(&[]));
        let (answer, buffer) = step(&pending, 0);
        assert_eq!(answer, done(length));
        assert_same(&buffer, &pending.image.buffer, "nothing to do");
        for k in [1, 2, u64::MAX] {
            assert_refused(&pending, k, 21);
        }
    }
}

// ---- all steps

#[test]
fn all_steps_in_order_give_what_attach_gives() {
    let (disk, facts) = small_blocks();
    for (pending, tables) in [
        (r1(), Err(9)),
        (r1_with(&Disk::default()), Ok(usual_facts())),
        (rich(&disk), Ok(facts)),
    ] {
        let mut buffer = pending.image.buffer.clone();
        let mut length = pending.image.length;
        for k in 0..=pending.replay.count() {
            let answer = vhdx::step(&mut buffer, length, k);
            assert_eq!(answer, pending.replay.answer(length, k), "step {k}");
            assert_eq!(answer.refusal, 0, "step {k}");
            length = answer.length;
        }
        let attached = pending.attach(tables, "attach");
        assert_eq!(length, pending.answer(tables).length);
        assert_same(&buffer, &attached, "all steps");
    }
}

#[test]
fn steps_of_an_applied_log_write_their_sectors_again() {
    let pending = rich_log();
    let (applied, length) = pending.applied();
    // the first writes what a later one writes over
    let mut buffer = applied.clone();
    assert_eq!(vhdx::step(&mut buffer, length, 1), done(length));
    let mut expected = applied;
    expected[2 * MIB..2 * MIB + SECTOR].copy_from_slice(&pattern(1));
    assert_same(&buffer, &expected, "step 1 again");
}
