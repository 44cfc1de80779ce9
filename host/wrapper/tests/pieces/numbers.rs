//! Machines that are kept elsewhere between two requests, as they were or altered.
use shrunvaki::vhdx::pieces::{NoMachine, Pieces, Request, SectorKind, LONGEST_PIECE};
use shrunvaki::vhdx::raw;
use shrunvaki_testkit::drawn::fields::interesting;
use shrunvaki_testkit::drawn::seeds;
use shrunvaki_testkit::files::{pending, Sample};
use shrunvaki_testkit::model::{self, File};
use shrunvaki_testkit::pieces::{read_at, Answer, End, Machine, LONGEST};
use shrunvaki_testkit::random::Random;

const CASES: u64 = 5_000;
const CAPACITY: u64 = 1 << 40;

/// A machine with the request that it made last.
struct Kept {
    numbers: raw::Machine,
    request: Request,
    sector: [u8; 4096],
}

/// The machine of a sample at each of its requests.
fn every_machine(sample: &Sample) -> Vec<Kept> {
    let mut pieces = Pieces::start(sample.length, CAPACITY);
    let mut kept = Vec::new();
    let mut piece = vec![0; LONGEST];
    loop {
        let request = pieces.request();
        if matches!(request, Request::Done { .. } | Request::Refused(_)) {
            return kept;
        }
        kept.push(Kept {
            numbers: *pieces.numbers(),
            request,
            sector: *pieces.sector(),
        });
        let length = match request {
            Request::Read { offset, length } => {
                read_at(sample.bytes(), offset, &mut piece[..length]);
                length
            }
            _ => 0,
        };
        pieces.next(&piece[..length]);
    }
}

#[test]
fn machines_kept_elsewhere_go_on() {
    for sample in pending() {
        println!("{}", sample.name);
        let model = model::Pieces::new(File::new(sample.bytes()), CAPACITY);
        let mut expected = model.requests();
        let mut piece = vec![0; LONGEST];
        let mut pieces = Pieces::start(sample.length, CAPACITY);
        let end = loop {
            let length = match pieces.request() {
                Request::Read { offset, length } => {
                    read_at(sample.bytes(), offset, &mut piece[..length]);
                    length
                }
                Request::Grow { length } => {
                    assert_eq!(expected.next(), Some(model::Request::Grow(length)));
                    0
                }
                Request::Write { offset, kind } => {
                    let write = model::Request::Write {
                        offset,
                        bytes: pieces.sector().to_vec(),
                        data: kind == SectorKind::Data,
                    };
                    assert_eq!(expected.next(), Some(write));
                    0
                }
                Request::Done { length, count } => break End::Done { length, count },
                Request::Refused(refusal) => break End::Refused(refusal.number()),
            };
            pieces.next(&piece[..length]);
            // put away, and taken up again unless it has ended
            let again = Pieces::from_numbers(pieces.numbers(), pieces.request(), pieces.sector());
            match pieces.request() {
                Request::Done { .. } | Request::Refused(_) => {
                    assert_eq!(again.err(), Some(NoMachine));
                }
                _ => pieces = again.expect("a machine"),
            }
        };
        assert_eq!(end, model.end());
        assert_eq!(expected.next(), None);
    }
}

#[test]
fn numbers_and_requests_that_no_machine_has() {
    let kept = every_machine(&pending()[0]).swap_remove(0);
    for numbers in [[0; 64], [u64::MAX; 64], [1; 64]] {
        assert!(Machine::with(numbers).is_none(), "{numbers:?}");
        let made = Pieces::from_numbers(&numbers, kept.request, &kept.sector);
        assert_eq!(made.err(), Some(NoMachine));
    }
    let read = |length| Request::Read { offset: 0, length };
    for (length, ok) in [
        (1, true),
        (LONGEST_PIECE, true),
        (LONGEST_PIECE + 1, false),
        (usize::MAX, false),
    ] {
        let made = Pieces::from_numbers(&kept.numbers, read(length), &kept.sector);
        assert_eq!(made.is_ok(), ok, "{length}");
    }
    assert_eq!(NoMachine.to_string(), "no machine has these numbers");
}

/// Alters numbers, most often those that are in use.
fn alter(random: &mut Random, numbers: &mut raw::Machine) {
    let used: Vec<usize> = (0..64).filter(|&i| numbers[i] != 0).collect();
    for _ in 0..random.pick(&[1, 1, 1, 2, 3, 8, 64]) {
        let slot = if random.one_in(8) || used.is_empty() {
            random.below(64) as usize
        } else {
            random.pick(&used)
        };
        numbers[slot] = match random.below(4) {
            0 => numbers[slot] ^ 1 << random.below(64),
            1 => numbers[slot].wrapping_add(random.pick(&[1, 4096, u64::MAX])),
            2 => random.pick(&numbers[..]),
            _ => interesting(random, numbers[slot]),
        };
    }
}

/// Feeds a machine with a file's bytes, and with zeros where the file has none. Whether it ends, as far as anybody waits for it:
/// altered numbers may stand for a long ring or for much to write.
fn ends(machine: &mut Machine, bytes: &[u8], first: Request) -> bool {
    let mut piece = vec![0; LONGEST];
    let mut length = match first {
        Request::Read { offset, length } => {
            read_at(bytes, offset, &mut piece[..length]);
            length
        }
        _ => 0,
    };
    for _ in 0..20_000 {
        length = match machine.next(&piece[..length]) {
            Answer::Read { offset, length } => {
                read_at(bytes, offset, &mut piece[..length]);
                length
            }
            Answer::Work(_) => 0,
            Answer::End(_) => return true,
            Answer::NoMachine => panic!("became none: {:?}", machine.numbers),
        };
    }
    false
}

/// How many of the altered machines were none, ended, and did not while anybody waited.
#[derive(Default, Debug)]
struct Met {
    none: u64,
    ended: u64,
    unfinished: u64,
}

/// Altered numbers are no machine's, or make a machine that goes on and ends. What that asks for is its own affair.
#[test]
fn altered_numbers() {
    let samples = pending();
    let machines: Vec<Vec<Kept>> = samples.iter().map(every_machine).collect();
    let mut met = Met::default();
    let all = seeds::each(1..=CASES, |random| {
        let chosen = random.below(samples.len() as u64) as usize;
        let kept = &machines[chosen][random.below(machines[chosen].len() as u64) as usize];
        let mut numbers = kept.numbers;
        alter(random, &mut numbers);
        let mut machine = Machine::with(numbers);
        let is_none = machine.is_none();
        let made = Pieces::from_numbers(&numbers, kept.request, &kept.sector);
        assert_eq!(made.is_err(), is_none, "{numbers:?}");
        *match is_none {
            true => &mut met.none,
            false if ends(&mut machine, samples[chosen].bytes(), kept.request) => &mut met.ended,
            false => &mut met.unfinished,
        } += 1;
    });
    println!("{met:?}");
    if all {
        assert!(met.none >= CASES / 20, "{met:?}");
        assert!(met.unfinished <= CASES / 10, "{met:?}");
    }
}
