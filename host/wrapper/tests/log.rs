//! The log's plan on real bytes: document 01's R1 to R6, every clause of a valid entry broken alone, awkward rings, and
//! ranges at the limits. Each expected answer is written from document 01.
use shrunvaki_testkit::api::{self, Sector};
use shrunvaki_testkit::image::{seal, Descriptor, Entry, Image, GUID, MIB, SECTOR};
use shrunvaki_testkit::pending::{pattern, zero};
use shrunvaki_testkit::vhdx::{self, Plan};

const M: u64 = MIB as u64;

fn plan(image: &Image) -> Plan {
    vhdx::plan(&image.buffer, image.length)
}

/// The plan's sectors: offset and bytes, read where the walk says they are.
fn sectors(image: &Image) -> Vec<(u64, Vec<u8>)> {
    let Plan::Apply { count, .. } = plan(image) else {
        panic!("refused: {:?}", plan(image))
    };
    assert_eq!(
        api::sector(&image.buffer, image.length, count),
        None,
        "one sector too many"
    );
    let log = image.log();
    (0..count)
        .map(
            |k| match api::sector(&image.buffer, image.length, k).expect("one sector too few") {
                Sector::Zeros { offset } => (offset, vec![0; SECTOR]),
                Sector::Data {
                    offset,
                    descriptor,
                    sector,
                } => {
                    let (d, s) = (descriptor as usize, sector as usize);
                    let mut bytes = log[d + 8..d + 16].to_vec();
                    bytes.extend(&log[s + 8..s + 4092]);
                    bytes.extend(&log[d + 4..d + 8]);
                    (offset, bytes)
                }
            },
        )
        .collect()
}

/// An entry that writes one sector of zeros, at a place that tells its number.
fn numbered(number: u64, tail_sector: usize) -> Entry {
    Entry::new(number, tail_sector).with(zero(2 * M + number % 256 * 4096, 4096))
}

/// The numbers of the entries that the plan writes sectors of.
fn numbers(image: &Image) -> Vec<u64> {
    sectors(image)
        .iter()
        .map(|(offset, _)| (offset - 2 * M) / 4096)
        .collect()
}

// ---- R1 to R6

fn r(capacity: usize, flushed: u64, descriptor: Descriptor) -> Plan {
    let mut entry = Entry::new(1, 0).with(descriptor);
    entry.last = 4 * M;
    entry.flushed = flushed;
    let mut image = Image::new(capacity, 3 * M, MIB, GUID);
    image.entry(0, &entry);
    plan(&image)
}

#[test]
fn r1_to_r6() {
    let usual = || zero(3_145_728, 8_192);
    assert_eq!(
        r(4 * MIB, 3 * M, usual()),
        Plan::Apply {
            length: 4_194_304,
            count: 2
        },
        "R1"
    );
    assert_eq!(r(4_194_303, 3 * M, usual()), Plan::Refused(8), "R2");
    assert_eq!(r(4 * MIB, 3_145_729, usual()), Plan::Refused(6), "R3");
    assert_eq!(
        r(4 * MIB, 3 * M, zero(1_044_480, 4_096)),
        Plan::Refused(7),
        "R4"
    );
    assert_eq!(
        r(4 * MIB, 3 * M, zero(1_048_576, 4_096)),
        Plan::Refused(7),
        "R5"
    );
    assert_eq!(
        r(4 * MIB, 3 * M, zero(1_048_576, 0)),
        Plan::Apply {
            length: 4 * M,
            count: 0
        },
        "R6"
    );
}

// ---- a valid entry, and each of its clauses broken alone

/// Three sectors: a header with a zero and two data descriptors, and two data sectors. The number needs both halves.
fn three_sectors() -> Vec<u8> {
    Entry::new((3 << 32) + 7, 2)
        .with(zero(2 * M, 4096))
        .with(Descriptor::Data {
            offset: 2 * M + 4096,
            bytes: pattern(1),
        })
        .with(Descriptor::Data {
            offset: 2 * M + 8192,
            bytes: pattern(2),
        })
        .bytes()
}

fn with_bytes(bytes: &[u8]) -> Image {
    let mut image = Image::small();
    image.lay(2, bytes);
    image
}

#[test]
fn a_valid_entry_is_planned_with_its_bytes() {
    let image = with_bytes(&three_sectors());
    assert_eq!(
        plan(&image),
        Plan::Apply {
            length: 3 * M,
            count: 3
        }
    );
    let expected = vec![
        (2 * M, vec![0; SECTOR]),
        (2 * M + 4096, pattern(1)),
        (2 * M + 8192, pattern(2)),
    ];
    assert_eq!(sectors(&image), expected);
}

/// Where its header and descriptors repeat the number.
const NUMBER_PLACES: [usize; 4] = [16, 64 + 24, 96 + 24, 128 + 24];

/// Breaks a clause of the entry with these bytes.
type Break = fn(&mut Vec<u8>);

#[test]
fn every_clause_broken_alone_is_refused() {
    let clauses: &[(&str, Break)] = &[
        ("signature", |e| e[3] = b'E'),
        ("EntryLength below the sum", |e| {
            e[8..12].copy_from_slice(&8192u32.to_le_bytes())
        }),
        ("EntryLength above the sum", |e| {
            e[8..12].copy_from_slice(&16384u32.to_le_bytes());
            e.resize(16384, 0);
        }),
        ("Tail not a multiple of 4,096", |e| e[12] = 1),
        ("Tail at the log's length", |e| {
            e[12..16].copy_from_slice(&(MIB as u32).to_le_bytes())
        }),
        ("number 0, repeated everywhere", |e| {
            for at in NUMBER_PLACES {
                e[at..at + 8].fill(0);
            }
            for at in [4096, 8192] {
                e[at + 4..at + 8].fill(0);
                e[at + 4092..at + 4096].fill(0);
            }
        }),
        ("number of a zero descriptor", |e| e[64 + 24] ^= 1),
        ("number of a data descriptor", |e| e[128 + 31] ^= 1),
        ("SequenceHigh", |e| e[8192 + 4] ^= 1),
        ("SequenceLow", |e| e[8192 + 4092] ^= 1),
        ("data sector's signature", |e| e[4096] = b'D'),
        ("descriptor that is neither", |e| e[64] = b'Z'),
        ("ZeroLength", |e| e[64 + 8] = 1),
        ("FileOffset of a zero descriptor", |e| e[64 + 16] = 1),
        ("FileOffset of a data descriptor", |e| e[96 + 17] |= 2),
        ("LogGuid's first byte", |e| e[32] ^= 1),
        ("LogGuid's last byte", |e| e[47] ^= 128),
        ("DescriptorCount beyond the log", |e| e[24..28].fill(255)),
    ];
    for (name, break_it) in clauses {
        let mut bytes = three_sectors();
        break_it(&mut bytes);
        let length = u32::from_le_bytes(bytes[8..12].try_into().expect("4 bytes"));
        seal(&mut bytes[..length as usize]);
        assert_eq!(plan(&with_bytes(&bytes)), Plan::Refused(5), "{name}");
    }
    for at in [4, 7, 60, 4095, 4096 + 100, 12287] {
        let mut bytes = three_sectors();
        bytes[at] ^= 16;
        assert_eq!(
            plan(&with_bytes(&bytes)),
            Plan::Refused(5),
            "checksum, byte {at}"
        );
    }
}

#[test]
fn what_01_does_not_name_is_not_tested() {
    let mut bytes = three_sectors();
    bytes[28..32].fill(255); // reserved in the header
    bytes[64 + 4..64 + 8].fill(255); // reserved in the zero descriptor
    bytes[200..4096].fill(255); // padding
    seal(&mut bytes);
    assert_eq!(
        plan(&with_bytes(&bytes)),
        Plan::Apply {
            length: 3 * M,
            count: 3
        }
    );
}

#[test]
fn descriptors_fill_sectors() {
    for (count, front) in [(0, 1), (126, 1), (127, 2), (254, 2), (255, 3)] {
        let mut entry = Entry::new(9, 0);
        entry.descriptors = vec![zero(2 * M, 4096); count];
        assert_eq!(entry.sectors(), (front, 0));
        let mut image = Image::small();
        image.entry(0, &entry);
        assert_eq!(
            plan(&image),
            Plan::Apply {
                length: 3 * M,
                count: count as u64
            },
            "{count} descriptors"
        );
    }
}

#[test]
fn an_entry_as_long_as_the_log() {
    let mut entry = Entry::new(1, 200);
    entry.descriptors = (0..254)
        .map(|i| Descriptor::Data {
            offset: 2 * M + i * 4096,
            bytes: pattern(i as u8),
        })
        .collect();
    assert_eq!(entry.sectors(), (2, 254));
    let mut image = Image::small();
    image.entry(200, &entry);
    let expected: Vec<_> = (0..254)
        .map(|i| (2 * M + i * 4096, pattern(i as u8)))
        .collect();
    assert_eq!(sectors(&image), expected);
    // one sector more than the log has
    entry.descriptors.push(zero(2 * M, 4096));
    assert_eq!(entry.sectors(), (3, 254));
    let mut image = Image::small();
    image.entry(200, &entry);
    assert_eq!(plan(&image), Plan::Refused(5));
}

// ---- sequences

fn ring_of(entries: &[(usize, Entry)]) -> Image {
    let mut image = Image::small();
    for (sector, entry) in entries {
        image.entry(*sector, entry);
    }
    image
}

/// Numbered entries: the sector of each, its number, and the sector of its Tail.
fn chain(entries: &[(usize, u64, usize)]) -> Image {
    let mut image = Image::small();
    for &(sector, number, tail) in entries {
        image.entry(sector, &numbered(number, tail));
    }
    image
}

#[test]
fn a_sequence_that_fills_the_ring() {
    for start in [0, 1, 100, 255] {
        let mut image = Image::small();
        for i in 0..256 {
            image.entry((start + i) % 256, &numbered(1 + i as u64, start));
        }
        let expected: Vec<u64> = (1..=256).map(|n| n % 256).collect();
        assert_eq!(numbers(&image), expected, "from sector {start}");
    }
}

#[test]
fn an_entry_round_the_rings_end() {
    let mut entry = Entry::new(8, 254);
    for i in 0..3 {
        entry = entry.with(Descriptor::Data {
            offset: 2 * M + i * 4096,
            bytes: pattern(i as u8),
        });
    }
    let mut image = ring_of(&[(254, entry), (2, numbered(9, 254))]);
    let mut expected: Vec<_> = (0..3)
        .map(|i| (2 * M + i * 4096, pattern(i as u8)))
        .collect();
    expected.push((2 * M + 9 * 4096, vec![0; SECTOR]));
    assert_eq!(sectors(&image), expected);
    // the same with a descriptor area that goes round it
    let mut entry = Entry::new(8, 255);
    entry.descriptors = vec![zero(2 * M, 4096); 300];
    image = ring_of(&[(255, entry)]);
    assert_eq!(
        plan(&image),
        Plan::Apply {
            length: 3 * M,
            count: 300
        }
    );
}

#[test]
fn the_greatest_head_number_then_the_lowest_offset() {
    let image = chain(&[(10, 5, 10), (50, 6, 50), (90, 4, 90)]);
    assert_eq!(numbers(&image), [6]);
    let low = Entry::new(7, 20).with(zero(2 * M + 4096, 4096));
    let high = Entry::new(7, 60).with(zero(2 * M + 8192, 4096));
    assert_eq!(numbers(&ring_of(&[(20, low), (60, high)])), [1]);
    // of equal heads the offset of the first entry counts, not that of the head
    let first = Entry::new(6, 0).with(zero(2 * M + 4096, 4096));
    let image = ring_of(&[
        (255, numbered(6, 255)),
        (0, numbered(7, 255)),
        (10, first),
        (11, numbered(7, 10)),
    ]);
    assert_eq!(numbers(&image), [1, 7]);
}

#[test]
fn the_greatest_number_has_no_successor() {
    let mut zero_number = numbered(0, 0);
    zero_number.number = 0;
    let image = ring_of(&[(0, numbered(u64::MAX, 0)), (1, zero_number)]);
    assert_eq!(numbers(&image), [255]);
    let image = chain(&[(0, u64::MAX - 1, 0), (1, u64::MAX, 0), (2, 1, 0)]);
    assert_eq!(numbers(&image), [254, 255]);
}

#[test]
fn tails() {
    let two = Entry::new(5, 0).with(Descriptor::Data {
        offset: 2 * M + 5 * 4096,
        bytes: pattern(5),
    });
    // inside an entry: no sequence has 6 as its head
    assert_eq!(
        numbers(&ring_of(&[(0, two.clone()), (2, numbered(6, 1))])),
        [5]
    );
    // elsewhere, and past the head
    assert_eq!(
        numbers(&ring_of(&[(0, two.clone()), (2, numbered(6, 100))])),
        [5]
    );
    assert_eq!(
        numbers(&ring_of(&[(0, two.clone()), (2, numbered(6, 3))])),
        [5]
    );
    // the middle of a chain
    assert_eq!(
        numbers(&ring_of(&[
            (0, two),
            (2, numbered(6, 0)),
            (3, numbered(7, 2))
        ])),
        [6, 7]
    );
    // an entry's own Tail counts although it is not the head's: at the log's length, and not a whole sector
    for tail in [MIB as u32, 1] {
        let mut first = numbered(5, 0);
        first.tail = tail;
        let image = ring_of(&[(0, first), (1, numbered(6, 0))]);
        assert_eq!(plan(&image), Plan::Refused(5), "Tail {tail}");
    }
    // no entry's Tail is right
    assert_eq!(plan(&chain(&[(0, 5, 1), (1, 6, 2)])), Plan::Refused(5));
}

#[test]
fn stale_and_torn_entries() {
    // a stale entry next to the first one, its number two below
    assert_eq!(numbers(&chain(&[(0, 3, 0), (1, 5, 1), (2, 6, 1)])), [5, 6]);
    // a stale entry that goes on with the chain is in it only if the Tail says so
    assert_eq!(numbers(&chain(&[(0, 4, 0), (1, 5, 1), (2, 6, 1)])), [5, 6]);
    // the last entry is torn: the sequence before it
    let mut image = chain(&[(0, 5, 0), (1, 6, 0), (2, 7, 0)]);
    image.log_mut()[2 * SECTOR + 100] ^= 1;
    assert_eq!(numbers(&image), [5, 6]);
    // numbers that fall, stand still or rise by two
    for other in [4, 5, 7] {
        let image = chain(&[(0, 5, 0), (1, other, 0)]);
        assert_eq!(numbers(&image), [5], "5 then {other}");
    }
}

// ---- without a log

#[test]
fn without_a_log() {
    assert_eq!(
        plan(&Image::new(4 * MIB, 3 * M, 0, GUID)),
        Plan::Refused(5),
        "log length 0"
    );
    assert_eq!(plan(&Image::small()), Plan::Refused(5), "a log of zeros");
    let mut image = Image::new(4 * MIB, 3 * M, MIB, [0; 16]);
    let mut entry = numbered(1, 0);
    entry.guid = [0; 16];
    entry.last = 4 * M;
    image.entry(0, &entry);
    assert_eq!(
        plan(&image),
        Plan::Apply {
            length: 3 * M,
            count: 0
        },
        "valid entries under a zero identifier"
    );
    assert_eq!(sectors(&image), []);
    for length in [3 * M + 1, 4 * M - 1] {
        image.length = length;
        assert_eq!(plan(&image), Plan::Apply { length, count: 0 });
    }
}

// ---- refusals 6 to 8, each over the whole sequence

#[test]
fn the_head_decides_6_and_the_growth() {
    let (mut first, mut head) = (numbered(5, 0), numbered(6, 0));
    (first.flushed, first.last) = (4 * M, 9 * M);
    (head.flushed, head.last) = (3 * M, 3 * M + 5);
    let image = ring_of(&[(0, first), (1, head.clone())]);
    assert_eq!(
        plan(&image),
        Plan::Apply {
            length: 3 * M + 5,
            count: 2
        }
    );
    head.flushed = 3 * M + 1;
    assert_eq!(
        plan(&ring_of(&[(0, numbered(5, 0)), (1, head)])),
        Plan::Refused(6)
    );
}

fn one(descriptors: &[Descriptor]) -> Plan {
    let mut entry = Entry::new(1, 0);
    entry.descriptors = descriptors.to_vec();
    plan(&ring_of(&[(0, entry)]))
}

#[test]
fn every_sector_of_a_range_is_asked_7() {
    assert_eq!(
        one(&[zero(MIB as u64 - 8192, 8192)]),
        Plan::Refused(7),
        "last sectors of the first MiB"
    );
    assert_eq!(one(&[zero(0, 3 * M)]), Plan::Refused(7));
    assert_eq!(
        one(&[zero(2 * M - 4096, 8192)]),
        Plan::Refused(7),
        "the log's last sector"
    );
    assert_eq!(
        one(&[zero(2 * M, 4096)]),
        Plan::Apply {
            length: 3 * M,
            count: 1
        },
        "behind the log"
    );
    assert_eq!(
        one(&[Descriptor::Data {
            offset: M,
            bytes: pattern(0)
        }]),
        Plan::Refused(7)
    );
    assert_eq!(
        one(&[zero(2 * M, 4096), zero(4096, 4096)]),
        Plan::Refused(7),
        "a later descriptor"
    );
    assert_eq!(
        one(&[zero(4096, 0), zero(M, 0)]),
        Plan::Apply {
            length: 3 * M,
            count: 0
        },
        "of no length"
    );
}

#[test]
fn growth_and_8() {
    assert_eq!(
        one(&[zero(4 * M - 4096, 4096)]),
        Plan::Apply {
            length: 4 * M,
            count: 1
        }
    );
    assert_eq!(one(&[zero(4 * M, 4096)]), Plan::Refused(8));
    assert_eq!(
        one(&[zero(4 * M, 0)]),
        Plan::Apply {
            length: 3 * M,
            count: 0
        }
    );
    // a range that ends at, or past, 2^64
    let top = u64::MAX - 4095;
    assert_eq!(one(&[zero(top, 4096)]), Plan::Refused(8));
    assert_eq!(one(&[zero(top, 8192)]), Plan::Refused(8));
    assert_eq!(
        one(&[zero(top, 2 * M)]),
        Plan::Refused(8),
        "the range does not come round"
    );
    assert_eq!(one(&[zero(top, 8192), zero(M, 4096)]), Plan::Refused(7));
    assert_eq!(one(&[zero(M, top), zero(2 * M, 4096)]), Plan::Refused(7));
    assert_eq!(
        one(&[zero(2 * M, top), zero(2 * M, top), zero(2 * M, top)]),
        Plan::Refused(8)
    );
}

#[test]
fn a_sector_named_twice_counts_twice() {
    assert_eq!(
        one(&[zero(2 * M, 8192), zero(2 * M, 4096)]),
        Plan::Apply {
            length: 3 * M,
            count: 3
        }
    );
}

#[test]
fn the_header_refuses_first() {
    let mut image = Image::small();
    image.buffer[0] = b'V';
    assert_eq!(plan(&image), Plan::Refused(2));
    assert_eq!(vhdx::plan(&image.buffer, 4 * M + 1), Plan::Refused(1));
    assert_eq!(vhdx::plan(&image.buffer, M - 1), Plan::Refused(1));
    assert_eq!(vhdx::plan(&[], 0), Plan::Refused(1));
    assert_eq!(api::sector(&image.buffer, image.length, 0), None);
}
