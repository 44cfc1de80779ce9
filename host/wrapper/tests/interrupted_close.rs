//! Interrupted closes, and power failures: after any list of closes and of steps in their order, each run to its end, refused or
//! interrupted, of flushes and of power failures, one more close gives the length and the bytes that closing the original gives. A call
//! that is lost leaves any of the sectors torn and the other header's place as it was, or all sectors whole and the new header torn or
//! not; a power failure the same of the file as it was at the last flush. Between calls the file may come into another buffer.
//!
//! Steps begin at 0, and at 0 again after each interruption; the identifier is the same throughout; a torn header is not valid; the
//! header is not on the disk before the sectors, by a flush between. Without any one of these the promise does not hold, which the last
//! tests show.
use shrunvaki_testkit::closing::{is_valid, place, Closing, Other, WRITER};
use shrunvaki_testkit::image::{Entry, Image, GUID, HEADERS, MIB};
use shrunvaki_testkit::interrupted::{Compared, Unflushed};
use shrunvaki_testkit::pending::{
    assert_same, data, growth_alone, no_growth, pattern, r1, r1_with, rich, small_blocks,
    without_a_log, Pending, Replay,
};
use shrunvaki_testkit::random::Random;
use shrunvaki_testkit::sample::M;
use shrunvaki_testkit::tables::Disk;
use shrunvaki_testkit::vhdx::{self, Closed, Plan, Stepped};

/// A file, and every byte of it once it is closed.
struct Case {
    name: &'static str,
    closing: Closing,
    closed: Vec<u8>,
}

impl Case {
    fn new(name: &'static str, closing: Closing) -> Case {
        // closing the original in a buffer of the same length
        let mut closed = closing.close(name);
        closed.truncate(closing.answer().length as usize);
        Case {
            name,
            closing,
            closed,
        }
    }
}

fn cases() -> Vec<Case> {
    let (disk, _) = small_blocks();
    vec![
        Case::new("R1", Closing::new(r1(), 0, 0, Other::NeverWritten)),
        Case::new(
            "R1 with tables",
            Closing::new(r1_with(&Disk::default()), 1, 5, Other::Older),
        ),
        Case::new("rich", Closing::new(rich(&disk), 0, 9, Other::Older)),
        Case::new(
            "no growth",
            Closing::new(no_growth(), 1, u64::MAX - 1, Other::Torn),
        ),
        Case::new(
            "growth alone",
            Closing::new(growth_alone(), 0, 7, Other::OlderWithoutALog),
        ),
        Case::new("without a log", Closing::without_a_log(without_a_log(), 0)),
        Case::new(
            "the greatest number",
            Closing::new(r1_with(&Disk::default()), 0, u64::MAX, Other::Garbage),
        ),
    ]
}

/// What calls came to.
#[derive(Clone, Copy)]
enum Kind {
    Close,
    CloseOfAClosed,
    Step,
    StepBack,
    Header,
    Refused21,
    Refused22,
    Refused23,
    InterruptedClose,
    InterruptedGrowth,
    TornSector,
    TornHeader,
    /// An interrupted write that left all of the new header.
    WholeHeader,
    LostSectors,
    LostHeader,
    Reopened,
    Flush,
    Failure,
    /// A power failure after which a file was not closed any more that had been.
    TakenBack,
}

const KINDS: usize = Kind::TakenBack as usize + 1;

/// A file between calls.
struct File<'a> {
    case: &'a Case,
    now: Compared,
    /// The step that comes next.
    next: u64,
    /// That the new header is there, whole.
    closed: bool,
    nothing_to_do: Replay,
    reached: [u64; KINDS],
}

impl<'a> File<'a> {
    fn new(case: &'a Case) -> File<'a> {
        File {
            case,
            now: Compared::new(&case.closing.pending.image),
            next: 0,
            closed: false,
            nothing_to_do: Replay::of(&[]),
            reached: [0; KINDS],
        }
    }

    /// As it came.
    fn reset(&mut self) {
        self.now.reset(&self.case.closing.pending.image);
        (self.next, self.closed) = (0, false);
    }

    fn reach(&mut self, kind: Kind) {
        self.reached[kind as usize] += 1;
    }

    /// The steps that closing the file as it is now has.
    fn steps(&self) -> &Replay {
        if self.closed {
            &self.nothing_to_do
        } else {
            &self.case.closing.steps
        }
    }

    /// The log's work, without the header.
    fn work(&self) -> Unflushed<'a> {
        let pending = &self.case.closing.pending;
        Unflushed::of(&pending.replay, pending.image.length)
    }

    /// The number of the step that writes the header, unless there is none.
    fn is_header(&self, k: u64) -> bool {
        let steps = self.steps();
        k != 0 && k == steps.count() && steps.offset(k) < MIB
    }

    /// What a step answers now.
    fn answer(&self, k: u64) -> Stepped {
        match self.case.closing.refusal {
            0 => self.steps().answer(self.now.length, k),
            refusal => Stepped {
                refusal,
                length: self.now.length,
            },
        }
    }

    /// After every call: each byte is the expected one, and none differs from the original's that may not.
    #[track_caller]
    fn check(&self, call: &str) {
        let name = format!("{}, {call}", self.case.name);
        self.now.assert_same(&name);
        self.case.closing.assert_only_named(&self.now.buffer);
    }

    /// A close that is run to its end.
    fn close(&mut self) {
        let closing = &self.case.closing;
        let Compared {
            buffer,
            expected,
            length,
            ..
        } = &mut self.now;
        let answer = vhdx::close(buffer, *length, &closing.identifier);
        let mut told = Closed {
            refusal: closing.refusal,
            length: *length,
            count: 0,
        };
        if closing.refusal == 0 && !self.closed {
            told.length = closing.steps.all(expected, *length);
            told.count = closing.pending.replay.count();
        }
        assert_eq!(answer, told, "{}", self.case.name);
        *length = answer.length;
        self.reach(match (closing.refusal, self.closed) {
            (0, false) => Kind::Close,
            (0, true) => Kind::CloseOfAClosed,
            _ => Kind::Refused23,
        });
        self.closed = closing.refusal == 0;
        self.check("close");
    }

    /// A step that is run to its end.
    fn step(&mut self, k: u64) {
        let told = self.answer(k);
        let is_header = self.is_header(k);
        let length = self.now.length;
        if told.refusal == 0 {
            let mut expected = std::mem::take(&mut self.now.expected);
            self.steps().step(&mut expected, length, k);
            self.now.expected = expected;
        }
        let identifier = &self.case.closing.identifier;
        let answer = vhdx::close_step(&mut self.now.buffer, length, identifier, k);
        assert_eq!(answer, told, "{}, step {k}", self.case.name);
        self.now.length = answer.length;
        self.reach(match answer.refusal {
            21 => Kind::Refused21,
            22 => Kind::Refused22,
            23 => Kind::Refused23,
            _ if is_header => Kind::Header,
            _ if k < self.next => Kind::StepBack,
            _ => Kind::Step,
        });
        if answer.refusal == 0 {
            self.next = k + 1;
            self.closed |= is_header;
        }
        self.check("step");
    }

    /// A step with any number, provided that it is refused.
    fn refused_step(&mut self, k: u64) {
        if self.answer(k).refusal != 0 {
            self.step(k);
        }
    }

    /// The step that comes next, or one before it: what follows that one is then done again.
    fn in_order(&self, random: &mut Random) -> u64 {
        match random.below(4) {
            0 => random.below(self.next + 1),
            _ => self.next,
        }
    }

    /// A step that is interrupted. One that is refused changes nothing.
    fn interrupt_step(&mut self, random: &mut Random, k: u64) {
        let answer = self.answer(k);
        if answer.refusal == 0 && k == 0 {
            let more = answer.length - self.now.length;
            let length = self.now.length + random.below(more + 1);
            self.now.interrupt_growth(random, length);
            self.reach(Kind::InterruptedGrowth);
        } else if answer.refusal == 0 {
            self.tear(random, k);
        }
        self.next = 0;
        self.check("an interrupted step");
    }

    fn tear(&mut self, random: &mut Random, k: u64) {
        let (at, bytes) = self.steps().sectors[k as usize - 1].clone();
        let is_header = self.is_header(k);
        let slot = self.case.closing.slot.clone();
        let before = self.now.buffer[slot.clone()].to_vec();
        if is_header && random.one_in(4) {
            self.now.put(at, &bytes);
        } else {
            self.now.tear(random, at, &bytes);
        }
        if !is_header {
            self.reach(Kind::TornSector);
            return;
        }
        assert_eq!(at, slot.start);
        let after = &self.now.buffer[slot];
        if *after == bytes {
            self.closed = true;
            self.reach(Kind::WholeHeader);
        } else {
            assert!(*after == before || !is_valid(after), "a valid mixture");
            self.reach(Kind::TornHeader);
        }
    }

    /// A close that is interrupted: its first steps are done, and the next is interrupted or not begun.
    fn interrupt_close(&mut self, random: &mut Random) {
        self.next = 0;
        if self.case.closing.refusal == 0 {
            let steps = self.steps().count() + 1;
            let done = random.below(steps + 1);
            for k in 0..done {
                self.step(k);
            }
            if done < steps && !random.one_in(4) {
                self.interrupt_step(random, done);
            }
        }
        self.next = 0;
        self.reach(Kind::InterruptedClose);
    }

    /// Takes up a file in another buffer. It is closed where the new header is there, or none is to be written.
    fn take_up(&mut self, random: &mut Random, file: &[u8]) {
        let closing = &self.case.closing;
        let least = closing.pending.replay.grown(file.len() as u64);
        self.now.reopen(random, file, least);
        let header = (closing.steps.sectors).get(closing.pending.replay.sectors.len());
        let is_there = header.is_none_or(|(at, bytes)| file[*at..].starts_with(bytes));
        self.closed = closing.refusal == 0 && is_there;
    }

    /// What may be left of a file, in another buffer.
    fn leave(&mut self, random: &mut Random, file: &[u8]) {
        self.take_up(random, file);
        self.next = 0;
        if !self.closed && self.case.closing.refusal == 0 {
            match random.one_in(2) {
                true => self.lose_sectors(random),
                false => self.lose_header(random),
            }
        }
    }

    /// Any of the sectors is torn, and the other header's place is as it was.
    fn lose_sectors(&mut self, random: &mut Random) {
        let left = self.work().lost(random, self.now.file());
        self.take_up(random, &left);
        self.reach(Kind::LostSectors);
    }

    /// All sectors are whole, and the header is as it was or as an interrupted write leaves it.
    fn lose_header(&mut self, random: &mut Random) {
        let replay = &self.case.closing.pending.replay;
        self.now.length = replay.all(&mut self.now.expected, self.now.length);
        self.now.buffer.clone_from(&self.now.expected);
        if !random.one_in(4) {
            self.tear(random, self.steps().count());
        }
        self.reach(Kind::LostHeader);
    }

    /// A call that is lost: its writes were done in any order, but for the header's, or not.
    fn lose(&mut self, random: &mut Random) {
        let file = self.now.file().to_vec();
        self.leave(random, &file);
        self.check("a lost call");
    }

    /// The same file in another buffer.
    fn reopen(&mut self, random: &mut Random) {
        let file = self.now.file().to_vec();
        self.take_up(random, &file);
        self.reach(Kind::Reopened);
        self.check("another buffer");
    }

    fn flush(&mut self) {
        self.now.flush();
        self.reach(Kind::Flush);
    }

    /// A power failure: of all that was done since the last flush any part is taken back, and what is on the disk then stays there.
    fn fail(&mut self, random: &mut Random) {
        let closed = self.closed;
        let flushed = std::mem::take(&mut self.now.flushed);
        self.leave(random, &flushed);
        self.now.flush();
        self.reach(Kind::Failure);
        if closed && !self.closed {
            self.reach(Kind::TakenBack);
        }
        self.check("a power failure");
    }

    /// One more close, undisturbed: length and bytes are those of closing the original, and no work is left.
    fn finish(&mut self) {
        self.close();
        let name = self.case.name;
        let (buffer, length) = (&self.now.buffer, self.now.length);
        assert_eq!(length, self.case.closing.answer().length, "{name}");
        assert_same(&buffer[..length as usize], &self.case.closed, name);
        if self.case.closing.refusal == 0 {
            let plan = vhdx::plan(buffer, length);
            assert_eq!(plan, Plan::Apply { length, count: 0 }, "{name}");
        }
    }
}

// ---- one interruption

#[test]
fn every_step_of_a_close_torn() {
    let mut random = Random::new(21);
    for case in &cases() {
        let mut file = File::new(case);
        for k in 0..=case.closing.steps.count() {
            for _ in 0..if file.is_header(k) { 8 } else { 1 } {
                file.reset();
                for done in 0..k {
                    file.step(done);
                }
                file.interrupt_step(&mut random, k);
                file.finish();
            }
        }
    }
}

#[test]
fn a_header_torn_at_every_byte() {
    // what has been written of the new header lies before a byte, or from it on
    let case = Case::new("no log", Closing::new(growth_alone(), 0, 7, Other::Older));
    let (at, new) = case.closing.steps.sectors[0].clone();
    let mut file = case.closing.pending.image.buffer.clone();
    let old = file[place(1)].to_vec();
    let length = vhdx::close_step(&mut file, 4 * M - 1, &WRITER, 0).length;
    let mut valid = 0;
    for stop in (0..100).chain([511, 512, 2048, 4094, 4095, 4096]) {
        for (front, back) in [(&new, &old), (&old, &new)] {
            let torn = [&front[..stop], &back[stop..]].concat();
            assert!(torn == new || torn == old || !is_valid(&torn), "{stop}");
            valid += u64::from(is_valid(&torn));
            file[at..at + torn.len()].copy_from_slice(&torn);
            let mut closed = file.clone();
            let answer = vhdx::close(&mut closed, length, &WRITER);
            assert_eq!((answer.refusal, answer.length), (0, 4 * M), "{stop}");
            assert_same(&closed[..4 * MIB], &case.closed, "closed again");
        }
    }
    assert!((4..20).contains(&valid), "{valid} of them are whole");
}

/// Lengths that an interrupted close may leave.
fn lengths(case: &Case) -> Vec<u64> {
    let (old, new) = (
        case.closing.pending.image.length,
        case.closing.answer().length,
    );
    let mut lengths = vec![old, old + 1, (old + new) / 2, new - 1, new];
    lengths.retain(|length| (old..=new).contains(length) && case.closing.refusal == 0);
    lengths
}

/// Each file with something done to it at each of these lengths, then one more close.
fn at_each_length(seed: u64, disturb: impl Fn(&mut File, &mut Random, u64)) {
    let mut random = Random::new(seed);
    for case in &cases() {
        let mut file = File::new(case);
        for length in lengths(case) {
            file.reset();
            disturb(&mut file, &mut random, length);
            file.finish();
        }
    }
}

#[test]
fn growth_interrupted_anywhere() {
    at_each_length(23, |file, random, length| {
        file.now.interrupt_growth(random, length);
    });
}

// ---- one power failure

#[test]
fn every_sector_of_a_close_torn_at_once() {
    at_each_length(24, |file, random, length| {
        let left = (file.work()).lost_at(random, file.now.file(), length, 1);
        file.take_up(random, &left);
        file.check("every sector torn");
    });
}

#[test]
fn a_power_failure_on_either_side_of_the_flush_before_the_header() {
    let mut random = Random::new(25);
    for case in &cases() {
        let mut file = File::new(case);
        for (flushes, header) in [(false, false), (true, false), (true, true)] {
            for _ in 0..8 {
                file.reset();
                while !file.is_header(file.next) && file.answer(file.next).refusal == 0 {
                    file.step(file.next);
                }
                if flushes {
                    file.flush();
                }
                if header && file.is_header(file.next) {
                    file.step(file.next);
                }
                file.fail(&mut random);
                file.finish();
            }
        }
    }
}

// ---- lists of calls

/// Any step number: one of closing's, or one that never was.
fn number(random: &mut Random, steps: u64) -> u64 {
    match random.below(8) {
        0 => u64::MAX - random.below(2),
        1 => steps + 1,
        _ => random.below(steps + 3),
    }
}

fn call(random: &mut Random, file: &mut File) {
    match random.below(20) {
        0 => file.close(),
        1 | 2 => file.interrupt_close(random),
        3 | 4 => {
            let k = file.in_order(random);
            file.interrupt_step(random, k);
        }
        5..=7 => {
            let k = number(random, file.case.closing.steps.count());
            file.refused_step(k);
        }
        8 | 9 => {
            // up to the header, which long logs would seldom come to else
            while !file.is_header(file.next) && file.answer(file.next).refusal == 0 {
                file.step(file.next);
            }
            if random.one_in(2) {
                file.interrupt_step(random, file.next);
            }
        }
        10 => file.lose(random),
        11 => file.reopen(random),
        12 => file.flush(),
        13 | 14 => file.fail(random),
        _ => {
            let k = file.in_order(random);
            file.step(k);
        }
    }
}

const LISTS: u64 = 1_200;

#[test]
fn random_lists_of_calls() {
    let cases = cases();
    let mut files: Vec<File> = cases.iter().map(File::new).collect();
    for seed in 1..=LISTS {
        let mut random = Random::new(seed.wrapping_mul(0x9e37_79b9_7f4a_7c15));
        let chosen = random.below(files.len() as u64) as usize;
        let file = &mut files[chosen];
        file.reset();
        // sectors past the end, before the file is grown
        if random.one_in(2) {
            let k = number(&mut random, file.case.closing.steps.count());
            file.refused_step(k);
        }
        for _ in 0..random.below(12) {
            call(&mut random, file);
        }
        file.finish();
    }
    let mut reached = [0; KINDS];
    for file in &files {
        for (sum, n) in reached.iter_mut().zip(file.reached) {
            *sum += n;
        }
    }
    println!(
        "closes, of closed files, steps, steps back, headers, refused 21, 22 and 23, interrupted closes, interrupted growths, \
         torn sectors, torn headers, whole headers, lost sectors, lost headers, other buffers, flushes, power failures, of these of closed \
         files: {reached:?}"
    );
    assert!(reached.iter().all(|&n| n >= 40), "{reached:?}");
}

// ---- what is not promised

/// Steps of a file by their numbers, then a close: the length and the file.
fn after(closing: &Closing, steps: &[u64]) -> Vec<u8> {
    let mut buffer = closing.pending.image.buffer.clone();
    let mut length = closing.pending.image.length;
    for &k in steps {
        let answer = vhdx::close_step(&mut buffer, length, &closing.identifier, k);
        assert_eq!(answer.refusal, 0, "step {k}");
        length = answer.length;
    }
    let answer = vhdx::close(&mut buffer, length, &closing.identifier);
    assert_eq!(answer.refusal, 0);
    buffer.truncate(answer.length as usize);
    buffer
}

#[test]
fn the_header_before_the_sectors_loses_the_log() {
    let case = Case::new("R1", Closing::new(r1(), 0, 1, Other::Older));
    assert_same(&after(&case.closing, &[0, 1, 2, 3]), &case.closed, "order");
    let lost = after(&case.closing, &[3]);
    assert_eq!((lost.len(), case.closed.len()), (3 * MIB, 4 * MIB));
    // a sector skipped
    let mut entry = Entry::new(1, 0);
    entry.descriptors = vec![data(2 * M, pattern(1)), data(3 * M, pattern(2))];
    let pending = Pending::new(Image::new(4 * MIB, 4 * M, MIB, GUID), 0, &[entry]);
    let case = Case::new("two", Closing::new(pending, 0, 1, Other::Older));
    let skipped = after(&case.closing, &[0, 2, 3]);
    assert_eq!(skipped.len(), case.closed.len());
    assert!(skipped[2 * MIB] == 0 && case.closed[2 * MIB] == pattern(1)[0]);
}

#[test]
fn without_a_flush_before_the_header_a_power_failure_may_lose_the_log() {
    let closing = Closing::new(rich(&small_blocks().0), 0, 9, Other::Older);
    let original = closing.pending.image.buffer.clone();
    let case = Case::new("rich", closing);
    // all but one sector is on the disk, the header too
    let mut file = case.closed.clone();
    let sector = 3 * MIB..3 * MIB + 4096;
    file[sector.clone()].copy_from_slice(&original[sector.clone()]);
    let length = file.len() as u64;
    let mut lost = file.clone();
    let answer = vhdx::close(&mut lost, length, &WRITER);
    assert_eq!((answer.refusal, answer.count), (0, 0), "no log is left");
    assert_same(&lost[sector.clone()], &original[sector], "the sector");
    assert!(lost != case.closed);
    // all but the header
    let slot = case.closing.slot.clone();
    file[slot.clone()].copy_from_slice(&original[slot]);
    vhdx::close(&mut file, length, &WRITER);
    assert_same(&file, &case.closed, "closed again");
}

#[test]
fn a_step_back_obliges_to_do_again_what_follows() {
    // one sector, named twice
    let mut entry = Entry::new(1, 0);
    entry.descriptors = vec![data(2 * M, pattern(1)), data(2 * M, pattern(2))];
    let pending = Pending::new(Image::new(3 * MIB, 3 * M, MIB, GUID), 0, &[entry]);
    let case = Case::new("twice", Closing::new(pending, 0, 1, Other::Older));
    let good = after(&case.closing, &[0, 1, 2, 1, 2, 3]);
    assert_same(&good, &case.closed, "done again");
    let bad = after(&case.closing, &[0, 1, 2, 1, 3]);
    assert_same(&bad[2 * MIB..][..4096], &pattern(1), "the first is left");
    assert_same(&case.closed[2 * MIB..][..4096], &pattern(2), "the second");
}

#[test]
fn another_identifier_is_not_taken_once_the_header_is_written() {
    let closing = Closing::new(r1(), 0, 1, Other::Older);
    let mut buffer = closing.close("once");
    let other = Closing::with(closing.pending.clone(), 0, 1, [7; 16]);
    vhdx::close(&mut buffer, 4 * M, &[7; 16]);
    assert_eq!(buffer[place(1)][16..32], WRITER);
    assert_eq!(other.close("by another")[place(1)][16..32], [7; 16]);
}

#[test]
fn a_header_torn_into_a_copy_of_the_current_one() {
    let closing = Closing::new(r1(), 0, 1, Other::Older);
    let mut buffer = closing.pending.image.buffer.clone();
    buffer.copy_within(place(0), HEADERS[1]);
    assert!(is_valid(&buffer[place(1)]));
    let answer = vhdx::close(&mut buffer, 3 * M, &WRITER);
    assert_eq!(answer.refusal, 3, "two valid headers with equal numbers");
}
