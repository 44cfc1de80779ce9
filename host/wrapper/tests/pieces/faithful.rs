//! Files that do not change meanwhile: requests and end are the model's, and what they do to the file is what attach does.
use shrunvaki_testkit::drawn::damage::Damage;
use shrunvaki_testkit::drawn::rings::{crowd, empty, full, SECTORS};
use shrunvaki_testkit::drawn::seeds;
use shrunvaki_testkit::files::{of_qemu, pending, refused};
use shrunvaki_testkit::image::{Entry, Image, GUID, HEADERS, MIB};
use shrunvaki_testkit::model::{self, File};
use shrunvaki_testkit::pending::{assert_same, data, pattern, zero};
use shrunvaki_testkit::pieces::{apply, assert_as_model, final_length, End};
use shrunvaki_testkit::sample::{M, TIB};
use shrunvaki_testkit::vhdx::{self, Plan};

const CASES: u64 = 3_000;
const RINGS: u64 = 1_000;

/// What is not written out here: a buffer this long is compared with attach's.
const LONGEST: u64 = 64 * M;

/// How often files were refused by each number; 0 is none.
#[derive(Default, Debug)]
struct Tally([u64; 9]);

impl Tally {
    fn add(&mut self, end: Option<End>) {
        match end {
            Some(End::Refused(number)) => self.0[number as usize] += 1,
            Some(End::Done { .. }) => self.0[0] += 1,
            None => {}
        }
    }
}

/// The end, and with it the file that the requests leave, held to plan and attach in a buffer of the capacity.
#[track_caller]
fn assert_as_attach(buffer: &[u8], length: u64, capacity: u64) -> Option<End> {
    let inside = length.min(buffer.len() as u64) as usize;
    let bytes = &buffer[..inside];
    if capacity > LONGEST {
        return assert_as_model(bytes, length, capacity, |_| {}).1;
    }
    // a length above the capacity is refused before anything is read
    let end_of_file = length.min(capacity) as usize;
    let mut file = bytes.to_vec();
    file.resize(end_of_file, 0);
    // past the file's end the buffer holds what growth has to clear
    let mut whole = file.clone();
    whole.resize(capacity as usize, 0xee);
    let (_, end) = assert_as_model(bytes, length, capacity, |request| apply(&mut file, request));
    let planned = vhdx::plan(&whole, length);
    let attached = vhdx::attach(&mut whole, length);
    match (end, planned) {
        (Some(End::Refused(number)), Plan::Refused(planned)) => {
            assert_eq!((number, number), (planned, attached.refusal));
        }
        (Some(End::Done { length, count }), Plan::Apply { .. }) => {
            assert_eq!(planned, Plan::Apply { length, count });
            assert_eq!((attached.length, attached.count), (length, count));
            assert_same(&file, &whole[..length as usize], "the file");
        }
        (None, _) => {}
        other => panic!("{other:?}"),
    }
    end
}

/// Capacities at the limits of refusals 1 and 8.
fn capacities(buffer: &[u8], length: u64) -> Vec<u64> {
    let longest = final_length(buffer, length, u64::MAX);
    let mut capacities = vec![0, length, 128 * TIB, 128 * TIB + 1, u64::MAX];
    capacities.extend(length.checked_sub(1));
    capacities.extend(longest.into_iter().flat_map(|length| [length - 1, length]));
    capacities
}

#[test]
fn every_sample_in_every_capacity() {
    for sample in pending().into_iter().chain(of_qemu()) {
        let (buffer, length) = (&sample.buffer, sample.length);
        println!("{}", sample.name);
        let longest = final_length(buffer, length, u64::MAX);
        for capacity in capacities(buffer, length) {
            let end = assert_as_attach(buffer, length, capacity);
            let number = match longest {
                _ if length > capacity => 1,
                Some(longest) if longest > capacity => 8,
                None => 5,
                Some(_) => 0,
            };
            let ended = match end.expect("little to do") {
                End::Refused(number) => number,
                End::Done { .. } => 0,
            };
            assert_eq!(ended, number, "{} in {capacity}", sample.name);
        }
    }
}

#[test]
fn every_refusal_from_several_causes() {
    for (number, sample) in refused() {
        println!("{number}: {}", sample.name);
        let capacity = sample.buffer.len() as u64;
        let end = assert_as_attach(&sample.buffer, sample.length, capacity);
        assert_eq!(end, Some(End::Refused(number)));
        for capacity in capacities(&sample.buffer, sample.length) {
            assert_as_attach(&sample.buffer, sample.length, capacity);
        }
    }
}

#[test]
fn damaged_files() {
    let damage = Damage::new();
    let mut image = damage.memory();
    let mut tally = Tally::default();
    let all = seeds::each(1..=CASES, |random| {
        let damaged = damage.draw(random, &mut image);
        let (capacity, length) = (damaged.capacity, damaged.length);
        let buffer = &damaged.case.image.buffer;
        tally.add(assert_as_attach(
            &buffer[..capacity as usize],
            length,
            capacity,
        ));
        let other = random.pick(&capacities(buffer, length));
        tally.add(assert_as_attach(buffer, length, other));
    });
    println!("{tally:?}");
    if all {
        assert!(
            tally.0.iter().all(|&times| times >= CASES / 100),
            "{tally:?}"
        );
    }
}

#[test]
fn crowded_rings() {
    let empty = empty();
    let mut image = empty.clone();
    let mut tally = Tally::default();
    let all = seeds::each(1..=RINGS, |random| {
        image.buffer.copy_from_slice(&empty.buffer);
        crowd(random, &mut image);
        let capacity = image.buffer.len() as u64;
        tally.add(assert_as_attach(&image.buffer, image.length, capacity));
    });
    println!("{tally:?}");
    if all {
        assert!(
            tally.0[0] >= RINGS / 2 && tally.0[5] >= RINGS / 100,
            "{tally:?}"
        );
    }
}

#[test]
fn rings_that_sequences_fill() {
    for start in [0, 1, SECTORS / 2, SECTORS - 1] {
        for entries in [SECTORS - 1, SECTORS] {
            let image = full(start, u64::MAX - 255, entries);
            let capacity = image.buffer.len() as u64;
            let end = assert_as_attach(&image.buffer, image.length, capacity);
            let count = entries as u64;
            let length = image.length;
            assert_eq!(end, Some(End::Done { length, count }), "{start}");
        }
    }
    // one entry round the ring's end that fills it
    let mut one = Entry::new(9, 77);
    one.descriptors = (0..SECTORS as u64 - 2)
        .map(|i| data(2 * M + i * 4096, pattern(i as u8)))
        .collect();
    let mut image = Image::new(3 * MIB, 3 * M, MIB, GUID);
    image.entry(77, &one);
    let end = assert_as_attach(&image.buffer, image.length, 3 * M);
    let (length, count) = (3 * M, SECTORS as u64 - 2);
    assert_eq!(end, Some(End::Done { length, count }));
}

#[test]
fn the_shortest_files() {
    // a log of no bytes lies at the end of the first MiB
    let image = Image::new(MIB + 1, M, 0, [0; 16]);
    for length in [0, 1, M - 1, M, M + 1] {
        let expected = match length {
            M.. => End::Done { length, count: 0 },
            _ => End::Refused(1),
        };
        for capacity in [length, length + 1, M + 1] {
            let end = assert_as_attach(&image.buffer, length, capacity);
            assert_eq!(end, Some(expected), "{length} in {capacity}");
        }
    }
}

#[test]
fn files_that_no_memory_holds() {
    let descriptors = [
        data(128 * TIB - 8192, pattern(1)),
        zero(64 * TIB, 8192),
        data(2 * M, pattern(2)),
    ];
    let mut entry = Entry::new(1, 3);
    entry.descriptors = descriptors.to_vec();
    let mut image = Image::new(3 * MIB, 3 * M, MIB, GUID);
    image.entry(3, &entry);
    let end = |length, capacity| assert_as_model(&image.buffer, length, capacity, |_| {}).1;
    let done = |length| Some(End::Done { length, count: 4 });
    let refused = |number| Some(End::Refused(number));
    let longest = 128 * TIB - 4096;
    for (length, capacity, expected) in [
        (3 * M, longest - 1, refused(8)),
        (3 * M, longest, done(longest)),
        (3 * M, u64::MAX, done(longest)),
        (128 * TIB, 128 * TIB, done(128 * TIB)),
        (128 * TIB, 128 * TIB - 1, refused(1)),
        (128 * TIB + 1, 128 * TIB, refused(1)),
        (128 * TIB + 1, u64::MAX, refused(8)),
        (u64::MAX, u64::MAX, refused(8)),
    ] {
        assert_eq!(end(length, capacity), expected, "{length} in {capacity}");
    }
    // a log that is far behind the first bytes holds zeros here
    for (id, expected) in [
        (GUID, refused(5)),
        (
            [0; 16],
            Some(End::Done {
                length: 101 * TIB,
                count: 0,
            }),
        ),
    ] {
        let mut far = Image::new(MIB, M, MIB, id);
        far.log_offset = (100 * TIB) as usize;
        far.header(HEADERS[0], 1, id);
        let (_, end) = assert_as_model(&far.buffer, 101 * TIB, 128 * TIB, |_| {});
        assert_eq!(end, expected);
    }
}

/// Growth and the first writes of work that nobody waits for, and how little is read for it.
#[test]
fn work_that_nobody_waits_for() {
    let mut image = Image::new(3 * MIB, 3 * M, MIB, GUID);
    image.entry(0, &Entry::new(1, 0).with(zero(2 * M, 127 * TIB)));
    let (course, end) = assert_as_model(&image.buffer, 3 * M, 128 * TIB, |_| {});
    assert_eq!(end, None);
    assert!(course.writes >= 20_000, "{} writes", course.writes);
    let planned = model::plan_of(File::new(&image.buffer), 128 * TIB).expect("no refusal");
    assert_eq!(planned.count, 127 * TIB / 4096);
}
