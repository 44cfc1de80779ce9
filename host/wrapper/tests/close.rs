//! Closing a log on real bytes, at once and by steps: the new header byte by byte, either of the two as the current one, logs that
//! are closed already, and refusals 21 to 23. Each expected answer is written from documents 01 and 02, and every byte of the
//! buffer is compared, past the image's end too.
use shrunvaki::vhdx::{self as wrapped, Refusal};
use shrunvaki_testkit::causes::{good, FILES};
use shrunvaki_testkit::closing::{
    full_header, is_valid, place, set_headers, Closing, Other, OTHERS, WRITER,
};
use shrunvaki_testkit::image::{crc32c, seal, Entry, Image, GUID, HEADERS, MIB};
use shrunvaki_testkit::pending::{
    assert_same, data, ends_in_14, growth_alone, no_growth, pattern, r1, r1_with, rich,
    sample_file, small_blocks, usual_facts, zero, Pending, Replay,
};
use shrunvaki_testkit::sample::M;
use shrunvaki_testkit::tables::Disk;
use shrunvaki_testkit::vhdx::{self, Closed, Plan, Stepped};

fn stepped(refusal: u64, length: u64) -> Stepped {
    Stepped { refusal, length }
}

/// Closes an image, and asks for steps, all of which are answered with this refusal and change nothing.
#[track_caller]
fn refused(image: &Image, refusal: u64, name: &str) {
    let (mut buffer, length) = (image.buffer.clone(), image.length);
    let answer = Closed {
        refusal,
        length,
        count: 0,
    };
    assert_eq!(vhdx::close(&mut buffer, length, &WRITER), answer, "{name}");
    for k in [0, 1, 2, 3, 4, u64::MAX] {
        let answer = vhdx::close_step(&mut buffer, length, &WRITER, k);
        assert_eq!(answer, stepped(refusal, length), "{name}, step {k}");
    }
    assert_same(&buffer, &image.buffer, name);
}

/// Closes an image that has nothing to close: it succeeds and changes nothing, and there is only step 0.
#[track_caller]
fn nothing_to_do(buffer: &[u8], length: u64, identifier: &[u8; 16], name: &str) {
    let mut copy = buffer.to_vec();
    let answer = Closed {
        refusal: 0,
        length,
        count: 0,
    };
    let closed = vhdx::close(&mut copy, length, identifier);
    assert_eq!(closed, answer, "{name}");
    for (k, refusal) in [(0, 0), (1, 21), (2, 21), (1 << 32, 21), (u64::MAX, 21)] {
        let answer = vhdx::close_step(&mut copy, length, identifier, k);
        assert_eq!(answer, stepped(refusal, length), "{name}, step {k}");
    }
    assert_same(&copy, buffer, name);
}

fn rich_log() -> Pending {
    rich(&small_blocks().0)
}

/// Files of many kinds, each closed from another number.
fn closings() -> Vec<Closing> {
    vec![
        Closing::new(r1(), 0, 1, Other::NeverWritten),
        Closing::new(r1_with(&Disk::default()), 1, 1 << 32, Other::Older),
        Closing::new(rich_log(), 0, u64::MAX - 1, Other::Torn),
        Closing::new(rich_log(), 1, (1 << 32) - 1, Other::Garbage),
        Closing::new(no_growth(), 1, 255, Other::OlderWithoutALog),
        Closing::new(growth_alone(), 0, 0, Other::NeverWritten),
    ]
}

// ---- the new header

#[test]
fn every_field_of_the_new_header() {
    let mut pending = r1();
    full_header(&mut pending.image, 0, 0x0102_0304_0506_07ff, GUID);
    let old = pending.image.buffer[place(0)].to_vec();
    let mut buffer = pending.image.buffer.clone();
    let answer = vhdx::close(&mut buffer, 3 * M, b"0123456789abcdef");
    let expected = Closed {
        refusal: 0,
        length: 4 * M,
        count: 2,
    };
    assert_eq!(answer, expected);
    let new = &buffer[place(1)];
    assert_eq!(new[..4], *b"head");
    assert_eq!(new[8..16], [0, 8, 6, 5, 4, 3, 2, 1], "number");
    assert_eq!(new[16..32], *b"0123456789abcdef", "file-write identifier");
    assert_eq!(new[32..48], old[32..48], "data-write identifier");
    assert_eq!(new[48..64], [0; 16], "log identifier");
    assert_eq!(new[64..66], [0, 0], "LogVersion");
    assert_eq!(new[66..68], [1, 0], "Version");
    assert_eq!(new[68..72], [0, 0, 16, 0], "log length");
    assert_eq!(new[72..80], [0, 0, 16, 0, 0, 0, 0, 0], "log offset");
    assert_same(&new[80..], &old[80..], "what is reserved");
    let sum = crc32c(&[&new[..4], &[0; 4], &new[8..]]);
    assert_eq!(new[4..8], sum.to_le_bytes(), "checksum");
    assert_ne!(new[4..8], old[4..8], "made anew");
    // the rest is the original's with its log applied
    let mut rest = pending.applied().0;
    rest[place(1)].copy_from_slice(new);
    assert_same(&buffer, &rest, "the rest");
}

#[test]
fn either_header_and_whatever_is_where_the_other_is() {
    for other in OTHERS {
        for current in [0, 1] {
            for number in [1, 7, 255, 65_535, u64::from(u32::MAX), 1 << 63] {
                let closing = Closing::new(r1(), current, number, other);
                let name = format!("{number} in {current}, {other:?}");
                let buffer = closing.close(&name);
                assert!(is_valid(&buffer[closing.slot.clone()]), "{name}");
            }
        }
    }
    // a header that is newer than a log: its number decides, not its place
    let mut pending = r1();
    full_header(&mut pending.image, 0, 9, [0; 16]);
    full_header(&mut pending.image, 1, 10, GUID);
    Closing::with(pending, 1, 10, WRITER).close("the second has the log");
}

#[test]
fn the_last_number_that_can_be_closed() {
    for current in [0, 1] {
        let closing = Closing::new(r1(), current, u64::MAX - 1, Other::Older);
        let buffer = closing.close("2^64 - 2");
        assert_eq!(buffer[closing.slot.clone()][8..16], [0xff; 8]);
        nothing_to_do(&buffer, 4 * M, &WRITER, "2^64 - 1, closed");
    }
}

#[test]
fn any_identifier() {
    let old: [u8; 16] = pattern(3)[16..32].try_into().expect("16 bytes");
    let mut pending = r1();
    full_header(&mut pending.image, 0, 3, GUID);
    assert_eq!(pending.image.buffer[place(0)][16..32], old);
    for identifier in [[0; 16], [0xff; 16], old, GUID, WRITER] {
        let closing = Closing::with(pending.clone(), 0, 3, identifier);
        let buffer = closing.close("any identifier");
        assert_eq!(buffer[place(1)][16..32], identifier);
    }
}

#[test]
fn a_longer_log_elsewhere() {
    let mut image = Image::with_log_at(2 * MIB, 5 * MIB, 5 * M, 3 * MIB, GUID);
    image.buffer[MIB..2 * MIB].fill(3);
    let pending = Pending::new(image, 700, &[Entry::new(1, 700).with(zero(M, 8192))]);
    for current in [0, 1] {
        Closing::new(pending.clone(), current, 5, Other::Garbage).close("a log elsewhere");
    }
}

// ---- what closing does beside the header

#[test]
fn files_of_many_kinds() {
    for closing in closings() {
        let buffer = closing.close("at once");
        closing.assert_only_named(&buffer);
    }
}

#[test]
fn nothing_past_the_final_length_changes() {
    let closing = Closing::new(rich_log(), 0, 1, Other::Older);
    let original = &closing.pending.image.buffer;
    let end = 5 * MIB + 7;
    assert_ne!(original[end..], vec![0; original.len() - end], "garbage");
    let buffer = closing.close("rich");
    assert_same(&buffer[end..], &original[end..], "past the end");
}

#[test]
fn tables_are_not_read() {
    // attach refuses both
    for (pending, refusal) in [(r1(), 9), (ends_in_14(), 14)] {
        pending.attach(Err(refusal), "refused");
        Closing::new(pending, 0, 4, Other::NeverWritten).close("closed");
    }
}

#[test]
fn closing_what_was_attached_gives_the_same() {
    for closing in closings() {
        let (mut buffer, length) = closing.pending.applied();
        let answer = vhdx::close(&mut buffer, length, &WRITER);
        assert_eq!(answer, closing.answer());
        assert_same(&buffer, &closing.closed().0, "attached, then closed");
    }
}

#[test]
fn a_closed_log_stays_closed() {
    for closing in closings() {
        let length = closing.answer().length;
        let buffer = closing.close("once");
        for identifier in [WRITER, [0; 16], [9; 16]] {
            nothing_to_do(&buffer, length, &identifier, "twice");
        }
        let plan = vhdx::plan(&buffer, length);
        assert_eq!(plan, Plan::Apply { length, count: 0 });
        assert!(vhdx::step(&mut buffer.clone(), length, 1).refusal == 21);
    }
}

#[test]
fn attach_finds_the_same_facts_and_no_log() {
    let (disk, facts) = small_blocks();
    for (pending, tables) in [
        (r1(), Err(9)),
        (r1_with(&Disk::default()), Ok(usual_facts())),
        (rich(&disk), Ok(facts)),
        (sample_file(), Ok(facts)),
        (ends_in_14(), Err(14)),
    ] {
        let closing = Closing::new(pending, 1, 4, Other::Older);
        closing.pending.attach(tables, "the original");
        let before = closing.pending.answer(tables);
        let buffer = closing.close("closed");
        let mut attached = buffer.clone();
        let after = vhdx::attach(&mut attached, before.length);
        assert_eq!(after, vhdx::Attachment { count: 0, ..before });
        assert_same(&attached, &buffer, "attach has nothing to do");
    }
}

// ---- no log, and refusals 1 to 8 and 23

#[test]
fn a_log_identifier_of_zero() {
    for number in [1, 2, u64::MAX] {
        for (current, other) in [
            (0, Other::NeverWritten),
            (1, Other::Older),
            (0, Other::Torn),
        ] {
            for length in [3 * M, 3 * M + 5, 4 * M] {
                // what would be a log with another identifier
                let mut entry = Entry::new(1, 0).with(zero(2 * M, 4096));
                (entry.guid, entry.last) = ([0; 16], 4 * M);
                let mut image = Image::new(4 * MIB, length, MIB, [0; 16]);
                image.entry(0, &entry);
                set_headers(&mut image, current, number, [0; 16], other);
                let pending = Pending::with_replay(image, Replay::of(&[]));
                let name = format!("{number} in {current}, {other:?}, {length}");
                nothing_to_do(&pending.image.buffer, length, &WRITER, &name);
            }
        }
    }
    // LogVersion is excused, as attach excuses it
    let mut image = Image::new(3 * MIB, 3 * M, MIB, [0; 16]);
    image.buffer[HEADERS[0] + 64] = 1;
    seal(&mut image.buffer[place(0)]);
    nothing_to_do(&image.buffer, 3 * M, &WRITER, "LogVersion 1");
}

#[test]
fn the_greatest_number() {
    for current in [0, 1] {
        for other in [Other::NeverWritten, Other::Garbage, Other::Older] {
            for pending in [r1(), rich_log(), no_growth(), growth_alone()] {
                let closing = Closing::new(pending, current, u64::MAX, other);
                let name = format!("{current}, {other:?}");
                refused(&closing.pending.image, 23, &name);
            }
        }
    }
    // attach and its steps do not mind
    let closing = Closing::new(r1(), 0, u64::MAX, Other::Older);
    closing.pending.attach(Err(9), "attach");
}

#[test]
fn refusals_1_to_8_and_their_place_before_23() {
    for number in [1, u64::MAX] {
        let mut reached = [0; 9];
        for (refusal, name, change) in FILES {
            let mut image = good();
            image.header(HEADERS[0], number, GUID);
            change(&mut image);
            refused(&image, *refusal, &format!("{name}, number {number}"));
            reached[*refusal as usize] += 1;
        }
        assert!(reached[1..].iter().all(|&n| n >= 3), "{reached:?}");
    }
    let mut image = good();
    image.header(HEADERS[0], u64::MAX, GUID);
    refused(&image, 23, "none of them");
}

#[test]
fn refusals_1_to_8_of_a_file_without_a_log() {
    let mut reached = [0; 9];
    for (refusal, name, change) in FILES {
        // 5 to 8 are of a log, and so is LogVersion
        if *refusal > 4 || *name == "LogVersion" {
            continue;
        }
        let mut image = good();
        image.header(HEADERS[0], 1, [0; 16]);
        change(&mut image);
        refused(&image, *refusal, &format!("{name}, without a log"));
        reached[*refusal as usize] += 1;
    }
    assert!(reached[1..5].iter().all(|&n| n >= 3), "{reached:?}");
}

// ---- steps

#[test]
fn all_steps_in_order_give_what_close_gives() {
    for closing in closings() {
        let (mut buffer, mut length) = (
            closing.pending.image.buffer.clone(),
            closing.pending.image.length,
        );
        let mut expected = buffer.clone();
        let count = closing.answer().count;
        for k in 0..=count + 1 {
            let answer = vhdx::close_step(&mut buffer, length, &WRITER, k);
            let told = closing.step(&mut expected, length, k);
            assert_eq!((answer, answer.refusal), (told, 0), "step {k}");
            assert_same(&buffer, &expected, &format!("step {k}"));
            length = answer.length;
        }
        assert_eq!(length, closing.answer().length);
        assert_same(&buffer, &closing.close("at once"), "all steps");
    }
}

#[test]
fn steps_up_to_the_last_sector_are_attachs() {
    let closing = Closing::new(rich_log(), 0, 1, Other::Older);
    let image = &closing.pending.image;
    for length in [image.length, closing.answer().length] {
        for k in 0..=17 {
            let [mut attached, mut closed] = [image.buffer.clone(), image.buffer.clone()];
            let expected = vhdx::step(&mut attached, length, k);
            let answer = vhdx::close_step(&mut closed, length, &WRITER, k);
            assert_eq!(answer, expected, "step {k}");
            assert_same(&closed, &attached, "a step of each");
        }
    }
}

#[test]
fn each_step_alone() {
    // no step asks whether those before it were done; 22 is of sectors past the given length alone
    let mut reached = [0; 3];
    for closing in closings() {
        let (given, grown) = (closing.pending.image.length, closing.answer().length);
        let count = closing.answer().count;
        for length in [given, grown] {
            for k in 0..=count + 1 {
                let answer = closing.step_alone(length, k);
                if k == count + 1 {
                    assert_eq!(answer, stepped(0, length), "the header");
                    reached[2] += 1;
                } else {
                    assert!(matches!(answer.refusal, 0 | 22), "step {k}");
                    reached[usize::from(answer.refusal == 22)] += 1;
                }
            }
        }
    }
    assert!(reached.iter().all(|&n| n >= 10), "{reached:?}");
}

#[test]
fn numbers_above_the_headers() {
    for closing in closings() {
        let count = closing.answer().count;
        let lengths = [closing.pending.image.length, closing.answer().length];
        for length in lengths {
            for k in [
                count + 2,
                count + 3,
                1 << 32,
                (1 << 32) + count + 1,
                1 << 63,
                u64::MAX - 1,
                u64::MAX,
            ] {
                assert_eq!(closing.step_alone(length, k), stepped(21, length));
            }
        }
    }
}

#[test]
fn a_sector_that_ends_past_the_length() {
    let at = 4 * M + 8192;
    let entry = Entry::new(1, 0)
        .with(zero(4 * M, 4096))
        .with(data(at, pattern(1)));
    let image = Image::new(5 * MIB, 4 * M, MIB, GUID);
    let closing = Closing::new(Pending::new(image, 0, &[entry]), 1, 8, Other::Older);
    for (length, refusals) in [
        (4 * M, [22, 22]),
        (4 * M + 4095, [22, 22]),
        (4 * M + 4096, [0, 22]),
        (at + 4095, [0, 22]),
        (at + 4096, [0, 0]),
        (at + 4097, [0, 0]),
    ] {
        for (k, refusal) in (1..).zip(refusals) {
            assert_eq!(closing.step_alone(length, k), stepped(refusal, length));
        }
        assert_eq!(closing.step_alone(length, 3), stepped(0, length));
        assert_eq!(closing.step_alone(length, 4), stepped(21, length));
    }
}

#[test]
fn the_header_of_the_shortest_file() {
    // a log of 1 MiB behind the first MiB is all of it: the entry has nothing to write
    let image = Image::new(2 * MIB, 2 * M, MIB, GUID);
    let pending = Pending::new(image, 0, &[Entry::new(1, 0)]);
    for current in [0, 1] {
        let closing = Closing::new(pending.clone(), current, 6, Other::Older);
        closing.close("2 MiB");
        assert_eq!(closing.step_alone(2 * M, 1), stepped(0, 2 * M));
        assert_eq!(closing.step_alone(2 * M, 2), stepped(21, 2 * M));
    }
}

#[test]
fn the_final_length_is_judged_at_every_step() {
    let closing = Closing::new(rich_log(), 0, 1, Other::Older);
    let Image { buffer, length, .. } = &closing.pending.image;
    let final_length = 5 * MIB + 7;
    for capacity in [final_length - 1, final_length] {
        for k in (0..=19).chain([u64::MAX]) {
            let given = &buffer[..capacity];
            let mut after = given.to_vec();
            let answer = vhdx::close_step(&mut after, *length, &WRITER, k);
            if capacity < final_length {
                assert_eq!(answer, stepped(8, *length), "step {k}");
                assert_same(&after, given, "refused");
            } else {
                assert_eq!(answer, closing.step_answer(*length, k), "step {k}");
            }
        }
    }
}

#[test]
fn a_step_after_the_header_finds_no_log() {
    // of each kind: growth, a sector, the header itself, one that never was
    for closing in closings() {
        let length = closing.pending.image.length;
        let mut buffer = closing.pending.image.buffer.clone();
        let header = closing.answer().count + 1;
        let answer = vhdx::close_step(&mut buffer, length, &WRITER, header);
        assert_eq!(answer, stepped(0, length));
        nothing_to_do(&buffer, length, &WRITER, "the header alone");
        let again = vhdx::close_step(&mut buffer, length, &WRITER, header);
        assert_eq!(again, stepped(21, length));
    }
}

// ---- the wrapper's types

#[test]
fn an_image_is_closed() {
    let closing = Closing::new(sample_file(), 1, 2, Other::Older);
    let (closed, length) = closing.closed();
    let given = closing.pending.image.length;
    let mut buffer = closing.pending.image.buffer.clone();
    let mut image = wrapped::Image::new(&mut buffer, given);
    let answer = image.close(&WRITER);
    assert_eq!(answer, Ok(wrapped::Closed { length, count: 258 }));
    assert_eq!(image.length(), length);
    let again = image.close(&[1; 16]);
    assert_eq!(again, Ok(wrapped::Closed { length, count: 0 }));
    assert_eq!(image.close_step(&WRITER, 0), Ok(length));
    assert_eq!(image.close_step(&WRITER, 1), Err(refusal(21)));
    let attachment = image.attach();
    assert_eq!((attachment.length, attachment.count), (length, 0));
    assert_same(&buffer, &closed, "closed");
}

#[test]
fn an_image_is_closed_step_by_step() {
    let closing = Closing::new(sample_file(), 0, 2, Other::Older);
    let (closed, length) = closing.closed();
    let given = closing.pending.image.length;
    let mut buffer = closing.pending.image.buffer.clone();
    let mut image = wrapped::Image::new(&mut buffer, given);
    assert_eq!(image.close_step(&WRITER, 2), Err(refusal(22)));
    assert_eq!(image.length(), given);
    for k in 0..=259 {
        assert_eq!(image.close_step(&WRITER, k), Ok(length), "step {k}");
        assert_eq!(image.length(), length);
    }
    assert_same(&buffer, &closed, "closed");
}

#[test]
fn an_image_that_cannot_be_closed() {
    let closing = Closing::new(r1(), 0, u64::MAX, Other::Older);
    let mut buffer = closing.pending.image.buffer.clone();
    let mut image = wrapped::Image::new(&mut buffer, 3 * M);
    assert_eq!(image.close(&WRITER), Err(refusal(23)));
    assert_eq!(image.close_step(&WRITER, 0), Err(refusal(23)));
    assert_eq!(image.length(), 3 * M);
    let mut none = wrapped::Image::new(&mut [], u64::MAX);
    assert_eq!(none.close(&WRITER), Err(refusal(1)));
    assert_eq!(none.length(), u64::MAX);
}

fn refusal(number: u64) -> Refusal {
    Refusal::new(number).expect("a refusal")
}
