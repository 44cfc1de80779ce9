//! Refusals 1 to 8 of attach and step on real bytes, each from several causes: no byte of the buffer changes, the length is the
//! given one, the count 0. Each expected answer is written from document 01.
use shrunvaki_testkit::image::{seal, Entry, Image, GUID, HEADERS, MIB, SECTOR};
use shrunvaki_testkit::pending::{
    assert_same, data, pattern, r1_descriptor, r1_with, r_entry, usual_facts, zero, Pending,
};
use shrunvaki_testkit::sample::{M, TIB};
use shrunvaki_testkit::tables::Disk;
use shrunvaki_testkit::vhdx::{self, Attachment, Facts, Stepped};

/// Attaches an image that is refused, and asks for steps: as many as R1 has, more, and the greatest number.
#[track_caller]
fn refused_at(buffer: &[u8], length: u64, refusal: u64, name: &str) {
    let mut copy = buffer.to_vec();
    let answer = Attachment {
        refusal,
        length,
        count: 0,
        facts: Facts::default(),
    };
    assert_eq!(vhdx::attach(&mut copy, length), answer, "{name}");
    assert_same(&copy, buffer, name);
    for k in [0, 1, 2, 3, u64::MAX] {
        let stepped = vhdx::step(&mut copy, length, k);
        assert_eq!(stepped, Stepped { refusal, length }, "{name}, step {k}");
    }
    assert_same(&copy, buffer, name);
}

#[track_caller]
fn refused(pending: &Pending, refusal: u64, name: &str) {
    refused_at(&pending.image.buffer, pending.image.length, refusal, name);
}

/// A file that attach accepts and grows by a MiB.
fn good() -> Pending {
    r1_with(&Disk::default())
}

/// The same with a change to its bytes.
fn with(change: impl FnOnce(&mut Image)) -> Pending {
    let mut pending = good();
    change(&mut pending.image);
    pending
}

/// The same with a change to its header, sealed again.
fn with_header(change: impl FnOnce(&mut [u8])) -> Pending {
    with(|image| {
        let header = &mut image.buffer[HEADERS[0]..HEADERS[0] + SECTOR];
        change(header);
        seal(header);
    })
}

#[test]
fn the_file_that_the_changes_are_made_to_is_accepted() {
    good().attach(Ok(usual_facts()), "unchanged");
    with_header(|_| ()).attach(Ok(usual_facts()), "sealed again");
}

// ---- 1: the length

#[test]
fn a_length_above_the_buffers_or_below_1_mib() {
    let pending = good();
    let capacity = pending.image.buffer.len() as u64;
    let above = [capacity + 1, capacity + M, 1 << 63, u64::MAX - 1, u64::MAX];
    let below = [0, 1, 65536, M - 1];
    for length in above.into_iter().chain(below) {
        let name = format!("length {length}");
        refused_at(&pending.image.buffer, length, 1, &name);
    }
}

#[test]
fn a_buffer_that_no_image_fits_in() {
    let pending = good();
    for capacity in [0, 1, 4096, MIB - 1] {
        let buffer = &pending.image.buffer[..capacity];
        let here = capacity as u64;
        for length in [0, here, here + 1, M, u64::MAX] {
            refused_at(buffer, length, 1, &format!("{length} of {capacity}"));
        }
    }
    // 1 MiB is enough to be read: the log lies outside it
    refused_at(&pending.image.buffer[..MIB], M, 4, "1 MiB");
}

// ---- 2: the signature

#[test]
fn any_byte_of_the_signature() {
    for at in 0..8 {
        for bit in [1, 0x20, 0x80] {
            refused(&with(|image| image.buffer[at] ^= bit), 2, "a bit of it");
        }
    }
    refused(&with(|image| image.buffer[..8].fill(0)), 2, "zeros");
    // 2 beats 3
    let both = with(|image| image.buffer[..MIB].fill(0));
    refused(&both, 2, "nothing in the first MiB");
}

// ---- 3: the current header

#[test]
fn no_valid_header() {
    for at in [0, 3, 4, 7, 8, 48, 68, 4095] {
        let pending = with(|image| image.buffer[HEADERS[0] + at] ^= 1);
        refused(&pending, 3, &format!("byte {at} of the only header"));
    }
    let pending = with_header(|header| header[..4].copy_from_slice(b"Head"));
    refused(&pending, 3, "signature, sealed again");
    // the second's place is the second's
    let pending = with(|image| {
        let header = image.buffer[HEADERS[0]..HEADERS[0] + SECTOR].to_vec();
        image.buffer[HEADERS[0]..HEADERS[0] + SECTOR].fill(0);
        image.buffer[HEADERS[1] + SECTOR..HEADERS[1] + 2 * SECTOR].copy_from_slice(&header);
    });
    refused(&pending, 3, "a header elsewhere");
}

#[test]
fn two_headers_with_equal_numbers() {
    for number in [1, 0, u64::MAX] {
        for guid in [GUID, [0; 16]] {
            let pending = with(|image| {
                image
                    .header(HEADERS[0], number, GUID)
                    .header(HEADERS[1], number, guid);
            });
            refused(&pending, 3, &format!("both {number}"));
        }
    }
}

// ---- 4: a field of the current header

/// A change to a header's bytes.
type Field = fn(&mut [u8]);

#[test]
fn every_rule_of_a_header() {
    let fields: [(&str, Field); 17] = [
        ("Version 0", |h| h[66] = 0),
        ("Version 2", |h| h[66] = 2),
        ("Version 257", |h| h[67] = 1),
        ("LogVersion 1", |h| h[64] = 1),
        ("LogVersion 256", |h| h[65] = 1),
        ("log length 1", |h| h[68..72].copy_from_slice(&[1, 0, 0, 0])),
        ("log length 1 MiB + 4,096", |h| h[69] = 0x10),
        ("log length 2^32 - 1", |h| h[68..72].fill(0xff)),
        ("log offset 0", |h| h[72..80].fill(0)),
        ("log offset 1 MiB + 1", |h| h[72] = 1),
        ("log offset 1 MiB - 4,096", |h| {
            h[72..80].copy_from_slice(&(M - 4096).to_le_bytes())
        }),
        ("log offset 1 MiB + 4,096", |h| h[73] = 0x10),
        ("log at the image's end", |h| h[74] = 0x30),
        ("log longer than the image", |h| h[70] = 0x30),
        ("log offset 2^63", |h| h[79] = 0x80),
        ("log ends at 2^64", |h| {
            h[72..80].copy_from_slice(&(u64::MAX - M + 1).to_le_bytes())
        }),
        ("log's end wraps", |h| {
            h[72..80].copy_from_slice(&(u64::MAX - M + 1).to_le_bytes());
            h[70] = 0x20;
        }),
    ];
    for (name, change) in fields {
        refused(&with_header(change), 4, name);
        // also with a log identifier of zero, which excuses LogVersion alone
        let pending = with_header(|header| {
            change(header);
            header[48..64].fill(0);
        });
        if !name.starts_with("LogVersion") {
            refused(&pending, 4, &format!("{name}, without a log"));
        }
    }
}

#[test]
fn a_log_of_more_than_64_mib() {
    for (mib, refusal) in [(64, 5), (65, 4)] {
        let length = (mib + 2) * MIB;
        let image = Image::new(length, length as u64, mib * MIB, GUID);
        refused_at(
            &image.buffer,
            image.length,
            refusal,
            &format!("{mib} MiB of zeros"),
        );
    }
}

#[test]
fn the_current_headers_fields_alone_are_tested() {
    let two = |broken: usize, other: u64| {
        with(|image| {
            image.header(HEADERS[0], 7, GUID);
            image.header(HEADERS[1], other, GUID);
            let header = &mut image.buffer[HEADERS[broken]..HEADERS[broken] + SECTOR];
            header[66] = 2;
            seal(header);
        })
    };
    refused(&two(0, 6), 4, "the first is current");
    refused(&two(1, 8), 4, "the second is current");
    two(0, 8).attach(Ok(usual_facts()), "the second is current");
    two(1, 6).attach(Ok(usual_facts()), "the first is current");
}

// ---- 5: no log sequence

#[test]
fn no_log_sequence() {
    let in_log = |at: usize| with(|image| image.log_mut()[at] ^= 1);
    for at in [0, 4, 8, 12, 16, 24, 32, 48, 64, 72, 80, 88, 4095] {
        refused(&in_log(at), 5, &format!("byte {at} of the entry"));
    }
    let pending = with(|image| image.log_mut().fill(0));
    refused(&pending, 5, "a log of zeros");
    let pending = with_header(|header| header[48] ^= 1);
    refused(&pending, 5, "another identifier");
    let pending = with_header(|header| header[68..72].fill(0));
    refused(&pending, 5, "a log of length 0");
    let mut entry = r_entry(3 * M, r1_descriptor());
    entry.tail = 4096;
    let pending = with(|image| {
        image.entry(0, &entry);
    });
    refused(&pending, 5, "a Tail elsewhere");
    let mut entry = r_entry(3 * M, data(2 * M, pattern(1)));
    entry.number = 9;
    let pending = with(|image| {
        image.entry(0, &entry);
        image.log_mut()[SECTOR + 9] ^= 1;
    });
    refused(&pending, 5, "a torn data sector");
}

// ---- 6 to 8: the work

/// R's file with one entry, in a buffer of a capacity.
#[track_caller]
fn work(capacity: usize, entry: Entry, refusal: u64, name: &str) {
    let mut image = Image::new(capacity, 3 * M, MIB, GUID);
    image.tables(&Disk::default()).entry(0, &entry);
    image.buffer[3 * MIB..].fill(0x5a);
    refused_at(&image.buffer, image.length, refusal, name);
}

#[test]
fn r2_to_r5() {
    let usual = r1_descriptor;
    work(4_194_303, r_entry(3 * M, usual()), 8, "R2");
    work(4 * MIB, r_entry(3_145_729, usual()), 6, "R3");
    let low = zero(1_044_480, 4_096);
    work(4 * MIB, r_entry(3 * M, low), 7, "R4");
    let in_log = zero(1_048_576, 4_096);
    work(4 * MIB, r_entry(3 * M, in_log), 7, "R5");
}

#[test]
fn a_length_below_flushed_file_offset() {
    for flushed in [3 * M + 1, 4 * M, 4 * M + 1, 1 << 63, u64::MAX] {
        let name = format!("FlushedFileOffset {flushed}");
        work(4 * MIB, r_entry(flushed, r1_descriptor()), 6, &name);
        // 6 beats 7 and 8
        work(4 * MIB, r_entry(flushed, zero(0, 4096)), 6, &name);
        work(3 * MIB, r_entry(flushed, r1_descriptor()), 6, &name);
    }
}

#[test]
fn a_sector_in_the_first_mib_or_in_the_log() {
    for offset in [0, 65536, M - 4096, M, M + 4096, 2 * M - 4096] {
        let name = format!("at {offset}");
        work(4 * MIB, r_entry(3 * M, zero(offset, 4096)), 7, &name);
        let descriptor = data(offset, pattern(3));
        work(4 * MIB, r_entry(3 * M, descriptor), 7, &name);
        // 7 beats 8
        work(3 * MIB, r_entry(3 * M, zero(offset, 4096)), 7, &name);
    }
    // the last sector of many, and one of a later descriptor
    work(4 * MIB, r_entry(3 * M, zero(0, M + 4096)), 7, "many");
    let entry = r_entry(3 * M, r1_descriptor()).with(zero(2 * M - 4096, 8192));
    work(4 * MIB, entry, 7, "a later descriptor");
    // of a later entry: nothing of the first is written
    let mut entries = [
        r_entry(3 * M, data(2 * M, pattern(1))),
        r_entry(3 * M, zero(M, 4096)),
    ];
    entries[1].number = 2;
    let mut image = Image::new(4 * MIB, 3 * M, MIB, GUID);
    image.entry(0, &entries[0]).entry(2, &entries[1]);
    refused_at(&image.buffer, image.length, 7, "a later entry");
}

#[test]
fn a_final_length_above_the_buffers_or_128_tib() {
    let last = |last: u64| {
        let mut entry = r_entry(3 * M, r1_descriptor());
        entry.last = last;
        entry
    };
    for n in [4 * M + 1, 128 * TIB, 128 * TIB + 1, 1 << 63, u64::MAX] {
        work(4 * MIB, last(n), 8, &format!("LastFileOffset {n}"));
    }
    let top = u64::MAX - 4095;
    let far: [(u64, u64); 7] = [
        (4 * M, 4096),
        (4 * M - 4096, 8192),
        (128 * TIB, 4096),
        (top, 4096),
        (top, 8192),
        (2 * M, top),
        (top, top),
    ];
    for (offset, length) in far {
        let name = format!("{length} at {offset}");
        work(4 * MIB, r_entry(3 * M, zero(offset, length)), 8, &name);
        // behind a sector that could be written
        let entry = r_entry(3 * M, data(2 * M, pattern(1))).with(zero(offset, length));
        work(4 * MIB, entry, 8, &name);
        if length == 4096 {
            let descriptor = data(offset, pattern(1));
            work(4 * MIB, r_entry(3 * M, descriptor), 8, &name);
        }
    }
    // a buffer without room for the growth, one byte and all of it
    for capacity in [4 * MIB - 1, 3 * MIB + 8192, 3 * MIB + 1, 3 * MIB] {
        let name = format!("capacity {capacity}");
        work(capacity, r_entry(3 * M, r1_descriptor()), 8, &name);
    }
}
