//! Lists of calls, each run to its end or interrupted, and of power failures, on files with logs drawn at random: after every list one
//! more attach gives what an attach of the original gives, and after lists of closes one more close what closing the original gives. A
//! torn write leaves any bytes in its sector, interrupted growth any length up to the final one and garbage past it. A call that is lost
//! leaves both at once, in any of the sectors, and a power failure the same of the file as it was at the last flush, in a buffer of
//! another capacity. Steps of closing are done in their order, from 0 on again after each interruption.
use crate::pair::Pair;
use crate::questions::number;
use shrunvaki_testkit::closing::WRITER;
use shrunvaki_testkit::drawn::draw::{capacity, Draw};
use shrunvaki_testkit::drawn::files::{bases, Base};
use shrunvaki_testkit::drawn::seeds;
use shrunvaki_testkit::image::{Image, HEADERS, SECTOR};
use shrunvaki_testkit::interrupted::Unflushed;
use shrunvaki_testkit::pending::assert_same;
use shrunvaki_testkit::random::Random;
use shrunvaki_testkit::vhdx::{Attachment, Extent};
use std::ops::Range;
use vhdx_model::{self as model, Plan, Sector};

const LISTS: u64 = 1_500;
const LISTS_OF_CLOSES: u64 = 300;

/// How often lists met what interrupts them: growth, a write, the header's, a whole attach or close; and lost calls, buffers of another
/// capacity, flushes and power failures.
#[derive(Default, Debug)]
struct Met {
    growths: u64,
    writes: u64,
    headers: u64,
    calls: u64,
    lost: u64,
    reopened: u64,
    flushes: u64,
    failures: u64,
}

impl Met {
    /// Of those that every list may meet, how often the rarest was.
    fn least(&self) -> u64 {
        let met = [
            self.growths,
            self.writes,
            self.calls,
            self.lost,
            self.reopened,
            self.flushes,
            self.failures,
        ];
        met.into_iter().min().unwrap_or(0)
    }
}

/// A file as it came, and what an attach of it gives.
struct Original {
    image: Image,
    capacity: u64,
    plan: Plan,
    answer: Attachment,
    applied: Vec<u8>,
}

impl Original {
    /// Draws a file with a log that can be applied, in the memory of two buffers that are not needed any more.
    fn draw(random: &mut Random, base: &Base, mut image: Image, mut applied: Vec<u8>) -> Original {
        loop {
            base.copy_to(&mut image);
            let capacity = capacity(random, base);
            Draw { base, capacity }.log(random, &mut image);
            if let Ok(plan) = model::plan(&image.buffer[..capacity as usize], image.length) {
                applied.clone_from(&image.buffer);
                let answer = model::attach(&mut applied[..capacity as usize], image.length);
                return Original {
                    image,
                    capacity,
                    plan,
                    answer,
                    applied,
                };
            }
        }
    }

    /// The log's work, each sector as it is in the end.
    fn work(&self) -> Unflushed<'_> {
        let places = self.plan.sectors().map(Sector::extent);
        let write = |place: Extent| {
            let at = place.offset as usize;
            (at, &self.applied[at..at + SECTOR])
        };
        Unflushed {
            length: self.plan.length,
            writes: places.map(write).collect(),
        }
    }

    /// "The file differs from the original only in sectors that the applied sequence names and in bytes past the old end", and
    /// where else it may.
    #[track_caller]
    fn assert_only_named(&self, buffer: &[u8], and: Option<Extent>) {
        let sectors = self.plan.sectors().map(Sector::extent);
        let mut named: Vec<Extent> = sectors.chain(and).collect();
        named.sort_by_key(|extent| extent.offset);
        let end = self.image.length as usize;
        let mut from = 0;
        for extent in named {
            let at = (extent.offset as usize).clamp(from, end.max(from));
            self.assert_same(buffer, from..at);
            from = from.max((extent.offset + extent.length) as usize);
        }
        self.assert_same(buffer, from..end.max(from));
    }

    #[track_caller]
    fn assert_same(&self, buffer: &[u8], part: Range<usize>) {
        let original = &self.image.buffer[part.clone()];
        assert_same(&buffer[part], original, "what the log does not name");
    }
}

/// What is surely on the disk of a file: what it was when it was last flushed.
struct Disk<'a> {
    original: &'a Original,
    flushed: Vec<u8>,
}

impl<'a> Disk<'a> {
    fn new(original: &'a Original, pair: &Pair) -> Disk<'a> {
        let flushed = pair.file().to_vec();
        Disk { original, flushed }
    }

    /// Another buffer, a flush, a lost call or a power failure, where `lost` says what is left of a file. Answers whether a call that
    /// was on the way is over.
    fn disturb(
        &mut self,
        random: &mut Random,
        pair: &mut Pair,
        met: &mut Met,
        lost: impl Fn(&mut Random, &[u8]) -> Vec<u8>,
    ) -> bool {
        let least = self.original.plan.length;
        match random.below(4) {
            0 => {
                let file = pair.file().to_vec();
                pair.reopen(random, &file, least);
                met.reopened += 1;
                false
            }
            1 => {
                self.flushed = pair.file().to_vec();
                met.flushes += 1;
                false
            }
            2 => {
                let left = lost(random, pair.file());
                pair.reopen(random, &left, least);
                met.lost += 1;
                true
            }
            _ => {
                self.flushed = lost(random, &self.flushed);
                pair.reopen(random, &self.flushed, least);
                met.failures += 1;
                true
            }
        }
    }
}

/// A step that is interrupted. One that is refused changes nothing.
fn interrupt_step(random: &mut Random, pair: &mut Pair, k: u64, met: &mut Met) {
    let Some(plan) = pair.plan() else { return };
    if k == 0 {
        let length = pair.length + random.below(plan.length - pair.length + 1);
        let (from, to) = (pair.length as usize, length as usize);
        let mut rest = vec![0; pair.buffer().len() - from];
        random.fill(&mut rest[to - from..]);
        pair.put(from, &rest);
        pair.length = length;
        met.growths += 1;
        return;
    }
    let extent = plan.sector(k).map(|sector| sector.extent());
    let Some(at) = extent.filter(|e| e.offset + e.length <= pair.length) else {
        return;
    };
    let mut torn = [0; SECTOR];
    random.fill(&mut torn);
    // part of the sector may be as it was
    let kept = random.pick(&[0, 1, 512, 4095]);
    let at = at.offset as usize + kept;
    pair.put(at, &torn[kept..]);
    met.writes += 1;
}

/// An attach that is interrupted: its first steps are done, and the next is interrupted or not begun.
fn interrupt_attach(random: &mut Random, pair: &mut Pair, met: &mut Met) {
    let steps = pair.plan().map_or(0, |plan| plan.count) + 1;
    let done = match random.below(4) {
        0 => steps,
        _ => random.below(steps.min(12)),
    };
    for k in 0..done.min(40) {
        pair.step(k);
    }
    if done < steps && !random.one_in(4) {
        interrupt_step(random, pair, done, met);
    }
    met.calls += 1;
}

fn call(random: &mut Random, pair: &mut Pair, disk: &mut Disk, met: &mut Met) {
    let k = number(random, pair);
    match random.below(12) {
        0 => drop(pair.attach()),
        1 | 2 => interrupt_attach(random, pair, met),
        3 | 4 => drop(pair.step(k)),
        5..=7 => interrupt_step(random, pair, k, met),
        _ => {
            let work = disk.original.work();
            disk.disturb(random, pair, met, |random, file| work.lost(random, file));
        }
    }
}

#[test]
fn interrupted_lists_of_calls() {
    let bases = bases();
    let mut pair = Pair::default();
    let mut met = Met::default();
    let mut memory = Some((bases[0].image.clone(), Vec::new()));
    let all = seeds::each(1..=LISTS, |random| {
        let chosen = random.below(bases.len() as u64) as usize;
        let (image, applied) = memory.take().expect("as the list before left it");
        let original = Original::draw(random, &bases[chosen], image, applied);
        let file = &original.image;
        pair.load_with(&file.buffer, original.capacity, file.length);
        let mut disk = Disk::new(&original, &pair);
        for _ in 0..random.below(9) {
            call(random, &mut pair, &mut disk, &mut met);
            original.assert_only_named(pair.buffer(), None);
        }
        assert_eq!(pair.attach(), original.answer, "as of the original");
        let end = original.answer.length as usize;
        let name = "every byte of the file";
        assert_same(&pair.buffer()[..end], &original.applied[..end], name);
        memory = Some((original.image, original.applied));
    });
    pair.tally.print("interrupted lists");
    println!("  {met:?}");
    if all {
        assert!(met.least() >= LISTS / 4, "{met:?}");
        pair.tally.assert_reached(0..=0, LISTS / 2);
        pair.tally.assert_reached(12..=12, LISTS / 100);
        pair.tally.assert_reached(21..=22, LISTS / 20);
    }
}

/// A file that is being closed: the header that closing writes, where, and which step comes next.
struct Closing {
    slot: Extent,
    header: Vec<u8>,
    next: u64,
}

impl Closing {
    /// Of an original, whose closed form the model gives.
    fn new(original: &Original, closed: &[u8]) -> Closing {
        let differs =
            |&at: &usize| closed[at..at + SECTOR] != original.image.buffer[at..at + SECTOR];
        let at = HEADERS.into_iter().find(differs).expect("a new header");
        Closing {
            slot: Extent {
                offset: at as u64,
                length: SECTOR as u64,
            },
            header: closed[at..at + SECTOR].to_vec(),
            next: 0,
        }
    }

    fn place(&self) -> usize {
        self.slot.offset as usize
    }

    fn is_closed(&self, file: &[u8]) -> bool {
        file[self.place()..].starts_with(&self.header)
    }

    /// Some steps from the next one on, often up to the header.
    fn steps(&mut self, random: &mut Random, pair: &mut Pair) {
        let header = pair.plan().map_or(1, |plan| plan.count + 1);
        let end = match random.below(2) {
            0 => header,
            _ => self.next + random.below(20),
        };
        while self.next < end.min(40) && pair.close_step(&WRITER, self.next).refusal == 0 {
            self.next += 1;
        }
    }

    /// The new header up to a byte, and what was there or anything behind it.
    fn torn_header(&self, random: &mut Random, file: &[u8]) -> Vec<u8> {
        let mut torn = file[self.place()..][..SECTOR].to_vec();
        if random.one_in(2) {
            random.fill(&mut torn);
        }
        let stop = random.pick(&[0, 4, 16, 60, 64, 512, SECTOR]);
        torn[..stop].copy_from_slice(&self.header[..stop]);
        torn
    }

    /// What a close that is lost may leave of a file: the other header's place as it was, or all sectors whole.
    fn lost(&self, random: &mut Random, original: &Original, file: &[u8]) -> Vec<u8> {
        if self.is_closed(file) {
            return file.to_vec();
        }
        if random.one_in(2) {
            return original.work().lost(random, file);
        }
        let mut left = original.applied[..original.plan.length as usize].to_vec();
        let header = self.torn_header(random, file);
        left[self.place()..][..SECTOR].copy_from_slice(&header);
        left
    }

    /// The next step, interrupted.
    fn interrupt(&mut self, random: &mut Random, pair: &mut Pair, met: &mut Met) {
        let header = pair.plan().map(|plan| plan.count + 1);
        if !self.is_closed(pair.file()) && header == Some(self.next) {
            let torn = self.torn_header(random, pair.buffer());
            pair.put(self.place(), &torn);
            met.headers += 1;
        } else {
            interrupt_step(random, pair, self.next, met);
        }
        self.next = 0;
    }

    fn call(&mut self, random: &mut Random, pair: &mut Pair, disk: &mut Disk, met: &mut Met) {
        match random.below(12) {
            0 => drop(pair.close(&WRITER)),
            1..=3 => self.steps(random, pair),
            4 => drop(pair.close_step(&WRITER, u64::MAX)),
            5 => self.interrupt(random, pair, met),
            6..=9 => {
                let original = disk.original;
                let lost = |random: &mut Random, file: &[u8]| self.lost(random, original, file);
                if disk.disturb(random, pair, met, lost) {
                    self.next = 0;
                }
            }
            _ => {
                self.next = 0;
                self.steps(random, pair);
                self.interrupt(random, pair, met);
                met.calls += 1;
            }
        }
    }
}

#[test]
fn interrupted_lists_of_closes() {
    let bases = bases();
    let mut pair = Pair::default();
    let mut met = Met::default();
    let mut memory = Some((bases[0].image.clone(), Vec::new()));
    let all = seeds::each(1..=LISTS_OF_CLOSES, |random| {
        let chosen = random.below(bases.len() as u64) as usize;
        let (image, closed) = memory.take().expect("as the list before left it");
        let mut original = Original::draw(random, &bases[chosen], image, closed);
        let file = &original.image;
        pair.load_with(&file.buffer, original.capacity, file.length);
        // closing what attach left is closing the original
        let closed = &mut original.applied[..original.capacity as usize];
        let length = model::close(closed, original.answer.length, &WRITER).length;
        let mut closing = Closing::new(&original, &original.applied);
        let mut disk = Disk::new(&original, &pair);
        for _ in 0..random.below(10) {
            closing.call(random, &mut pair, &mut disk, &mut met);
            original.assert_only_named(pair.buffer(), Some(closing.slot));
        }
        assert_eq!(pair.close(&WRITER).length, length, "as of the original");
        let end = length as usize;
        let name = "every byte of the file";
        assert_same(&pair.buffer()[..end], &original.applied[..end], name);
        memory = Some((original.image, original.applied));
    });
    pair.tally.print("interrupted lists of closes");
    println!("  {met:?}");
    if all {
        let least = met.least().min(met.headers);
        assert!(least >= LISTS_OF_CLOSES / 10, "{met:?}");
        pair.tally.assert_reached(21..=21, LISTS_OF_CLOSES / 10);
    }
}
