//! Files that change between two pieces: it ends, with requests that hold what every request holds. What these are is asserted
//! where the machine is fed, in the test kit.
use shrunvaki_testkit::drawn::damage::{Case, Damage};
use shrunvaki_testkit::drawn::draw::Draw;
use shrunvaki_testkit::drawn::seeds;
use shrunvaki_testkit::image::{Image, SECTOR};
use shrunvaki_testkit::model::{plan_of, File, Plan};
use shrunvaki_testkit::pieces::{assert_as_model, feed, read_at, Course, End, Feeder, Request};
use shrunvaki_testkit::random::Random;

const CASES: u64 = 2_000;

/// How runs ended whose file changed.
#[derive(Default, Debug)]
struct Met {
    done: u64,
    /// Before anything but reads was asked, and after it.
    refused_early: u64,
    refused_late: u64,
}

impl Met {
    fn of(course: &Course, end: End) -> Met {
        let mut met = Met::default();
        match end {
            End::Done { .. } => met.done = 1,
            End::Refused(_) if course.began() => met.refused_late = 1,
            End::Refused(_) => met.refused_early = 1,
        }
        met
    }

    fn add(&mut self, other: Met) {
        self.done += other.done;
        self.refused_early += other.refused_early;
        self.refused_late += other.refused_late;
    }
}

/// A file that changes before some of the requests.
struct Changing<'a> {
    random: &'a mut Random,
    case: &'a mut Case<'a>,
    /// As it was, with another log, and another file.
    others: [&'a [u8]; 3],
    times: Vec<u64>,
    /// Whether what is asked is done.
    writes: bool,
    /// What was planned, where the file changed only after that.
    plan: Option<Plan>,
}

impl Changing<'_> {
    fn change(&mut self, course: &Course) {
        if !self.times.contains(&course.requests()) {
            return;
        }
        match self.random.below(8) {
            0 => self.flip(),
            1 => self.exchange(),
            2..=4 => {
                let other = self.random.pick(&self.others);
                read_at(other, 0, &mut self.case.image.buffer);
            }
            // fields, mostly with checksums that agree again
            _ => self.case.damage(self.random),
        }
    }

    /// Some bits of the log's first and last sectors, where entries are, or anywhere.
    fn flip(&mut self) {
        let log = self.case.image.log_offset as u64;
        let near = [log, log + self.case.image.log_length as u64 - 65536, 65536];
        let from = self.random.pick(&near);
        for _ in 0..1 + self.random.below(8) {
            let at = (from + self.random.below(65536)) as usize;
            self.case.image.buffer[at] ^= 1 << self.random.below(8);
        }
    }

    /// Two sectors of the log.
    fn exchange(&mut self) {
        let log = self.case.image.log_mut();
        let sectors = (log.len() / SECTOR) as u64;
        let at = |random: &mut Random| random.below(sectors) as usize * SECTOR;
        let (a, b) = (at(self.random), at(self.random));
        let first = log[a..a + SECTOR].to_vec();
        log.copy_within(b..b + SECTOR, a);
        log[b..b + SECTOR].copy_from_slice(&first);
    }
}

impl Feeder for Changing<'_> {
    fn read(&mut self, course: &Course, offset: u64, piece: &mut [u8]) {
        self.change(course);
        read_at(&self.case.image.buffer, offset, piece);
    }

    fn work(&mut self, course: &Course, request: Request) -> bool {
        if let Some(plan) = &self.plan {
            assert!(course.writes <= plan.count, "more than planned");
            if let Request::Grow(length) = request {
                assert_eq!(length, plan.length, "as planned");
            }
        }
        if let Request::Write { offset, bytes, .. } = request {
            let buffer = &mut self.case.image.buffer;
            let at = offset as usize;
            if self.writes && at + SECTOR <= buffer.len() {
                buffer[at..at + SECTOR].copy_from_slice(&bytes);
            }
        }
        self.change(course);
        true
    }
}

/// Runs with a file that changes up to three times: at any request, or only once its work is planned.
fn run(random: &mut Random, damage: &Damage, memory: &mut [Image; 3], once_planned: bool) -> Met {
    let [image, relogged, other] = memory;
    let mut drawn = damage.sound(random, image);
    let (base, capacity, length) = (drawn.base, drawn.capacity, drawn.length);
    let original = drawn.case.image.buffer.clone();
    base.copy_to(relogged);
    Draw { base, capacity }.log(random, relogged);
    damage.sound(random, other);
    let (faithful, end) = assert_as_model(&original, length, capacity, |_| {});
    assert!(end.is_some(), "little to do");
    let first = match (once_planned, faithful.reads_before_work) {
        (false, _) => 0,
        (true, Some(reads)) => reads + 1,
        // nothing is planned
        (true, None) => return Met::default(),
    };
    let times = 1 + random.below(3);
    let left = faithful.requests() - first + 1;
    let file = File::with_length(&original, length);
    let mut file = Changing {
        times: (0..times).map(|_| first + random.below(left)).collect(),
        writes: random.one_in(2),
        random,
        case: &mut drawn.case,
        others: [&original, &relogged.buffer, &other.buffer],
        plan: once_planned.then(|| plan_of(file, capacity).expect("planned")),
    };
    let (course, end) = feed(length, capacity, &mut file);
    let end = end.expect("an end");
    if let (Some(plan), End::Done { length, count }) = (&file.plan, end) {
        assert_eq!((length, count), (plan.length, plan.count), "as planned");
    }
    Met::of(&course, end)
}

fn runs(once_planned: bool) -> (Met, bool) {
    let damage = Damage::new();
    let mut memory = [(); 3].map(|()| damage.memory());
    let mut met = Met::default();
    let all = seeds::each(1..=CASES, |random| {
        met.add(run(random, &damage, &mut memory, once_planned));
    });
    println!("{met:?}");
    (met, all)
}

#[test]
fn files_that_change_at_any_time() {
    let (met, all) = runs(false);
    if all {
        let least = met.done.min(met.refused_early).min(met.refused_late);
        assert!(least >= 30, "{met:?}");
    }
}

#[test]
fn files_that_change_once_their_work_is_planned() {
    let (met, all) = runs(true);
    if all {
        assert_eq!(met.refused_early, 0, "{met:?}");
        assert!(met.done.min(met.refused_late) >= CASES / 50, "{met:?}");
    }
}
