//! Pieces of another length than was asked for are not taken, and nothing comes after the end.
use shrunvaki::vhdx::pieces::{Pieces, Request, SectorKind, LONGEST_PIECE};
use shrunvaki_testkit::files::{of_qemu, pending, refused};
use shrunvaki_testkit::image::SECTOR;
use shrunvaki_testkit::model::{self, File};
use shrunvaki_testkit::pieces::{read_at, End};

/// That pieces of these lengths are not taken.
#[track_caller]
fn assert_not_taken(pieces: &mut Pieces, lengths: impl IntoIterator<Item = usize>) {
    let (request, numbers) = (pieces.request(), *pieces.numbers());
    let sector = *pieces.sector();
    let piece = [0x5a; LONGEST_PIECE + 1000];
    for length in lengths {
        assert_eq!(pieces.next(&piece[..length]), request, "{length} bytes");
        assert_eq!(pieces.request(), request, "{length} bytes");
        assert_eq!(*pieces.numbers(), numbers, "{length} bytes");
        assert_eq!(*pieces.sector(), sector, "{length} bytes");
    }
}

/// Tries to feed pieces of wrong lengths at every request, and compares with the model what is asked nevertheless.
#[track_caller]
fn assert_same_in_spite_of(bytes: &[u8], length: u64, capacity: u64) {
    let expected = model::Pieces::new(File::with_length(bytes, length), capacity);
    let mut expected_requests = expected.requests();
    let mut pieces = Pieces::start(length, capacity);
    let long = [
        1,
        SECTOR,
        LONGEST_PIECE,
        LONGEST_PIECE + 1,
        LONGEST_PIECE + 1000,
    ];
    let mut piece = vec![0; LONGEST_PIECE];
    let end = loop {
        match pieces.request() {
            Request::Read { offset, length } => {
                let lengths = long.into_iter().chain([0, length - 1, length + 1]);
                assert_not_taken(&mut pieces, lengths.filter(|&n| n != length));
                read_at(bytes, offset, &mut piece[..length]);
                pieces.next(&piece[..length]);
            }
            Request::Grow { length } => {
                let asked = model::Request::Grow(length);
                assert_eq!(expected_requests.next(), Some(asked));
                assert_not_taken(&mut pieces, long);
                pieces.next(&[]);
            }
            Request::Write { offset, kind } => {
                let asked = model::Request::Write {
                    offset,
                    bytes: pieces.sector().to_vec(),
                    data: kind == SectorKind::Data,
                };
                assert_eq!(expected_requests.next(), Some(asked));
                assert_not_taken(&mut pieces, long);
                pieces.next(&[]);
            }
            Request::Done { length, count } => break End::Done { length, count },
            Request::Refused(refusal) => break End::Refused(refusal.number()),
        }
    };
    assert_eq!(end, expected.end());
    assert_eq!(expected_requests.next(), None);
    assert_eq!(*pieces.numbers(), [0; 64], "after the end");
    assert_not_taken(&mut pieces, long.into_iter().chain([0]));
}

#[test]
fn pieces_of_a_wrong_length_are_not_taken() {
    for sample in pending().into_iter().chain(of_qemu()) {
        println!("{}", sample.name);
        assert_same_in_spite_of(sample.bytes(), sample.length, 1 << 40);
    }
    for (number, sample) in refused() {
        println!("{number}: {}", sample.name);
        let capacity = sample.buffer.len() as u64;
        assert_same_in_spite_of(sample.bytes(), sample.length, capacity);
    }
}
