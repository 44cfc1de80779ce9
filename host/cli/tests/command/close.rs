//! `close`: what it does to the file and says of it, and when it does nothing. Crashes are in `crash.rs`, what it has in common with
//! `attach --apply` in `apply.rs`.
use crate::changing::change_when_judged;
use crate::sample::{bytes, Sample};
use shrunvaki_testkit::image::{put64, seal, Entry, Image, GUID, HEADERS, MIB, SECTOR};
use shrunvaki_testkit::json::Json;
use shrunvaki_testkit::pending::{r1, rich, sample_file, small_blocks, Pending};
use std::fs::File;
use std::os::unix::fs::FileExt;

/// An identifier as it is written, and as the file holds it.
pub const WRITTEN: &str = "00112233-4455-6677-8899-aabbccddeeff";
pub const STORED: [u8; 16] = [
    0x33, 0x22, 0x11, 0x00, 0x55, 0x44, 0x77, 0x66, 0x88, 0x99, 0xaa, 0xbb, 0xcc, 0xdd, 0xee, 0xff,
];

/// The file with its log closed, by the descriptors and the bytes of a header alone.
pub fn closed(pending: &Pending, identifier: [u8; 16]) -> Vec<u8> {
    let (mut bytes, length) = pending.applied();
    bytes.truncate(length as usize);
    // where an image here has a second header, that is the current one
    let [first, second] = HEADERS;
    let (current, other) = match bytes[second] {
        0 => (first, second),
        _ => (second, first),
    };
    let mut header = bytes[current..current + SECTOR].to_vec();
    let number = u64::from_le_bytes(header[8..16].try_into().expect("8 bytes"));
    put64(&mut header, 8, number + 1);
    header[16..32].copy_from_slice(&identifier);
    header[48..64].fill(0);
    seal(&mut header);
    bytes[other..other + SECTOR].copy_from_slice(&header);
    bytes
}

/// A log whose only entry names no sector and no growth.
fn without_sectors() -> Pending {
    let mut image = Image::new(4 * MIB, 4 * MIB as u64, MIB, GUID);
    image.tables(&small_blocks().0);
    Pending::new(image, 0, &[Entry::new(1, 0)])
}

/// Images to close, and the status of an attach afterwards: R1 has no tables.
fn images() -> [(Pending, i32); 4] {
    let (disk, _) = small_blocks();
    [
        (sample_file(), 0),
        (rich(&disk), 0),
        (r1(), 1),
        (without_sectors(), 0),
    ]
}

#[test]
fn it_applies_the_log_and_ends_it() {
    for (pending, status) in images() {
        let sample = Sample::new(bytes(&pending));
        let ran = sample.run("close", &["--identifier", WRITTEN]).with(0);
        let text = ran.text();
        let count = pending.replay.count();
        let announced = format!(
            "closing: {count} sectors, then one header with the identifier {WRITTEN}; the file "
        );
        assert!(text.starts_with(&announced), "{text}");
        for line in [
            format!("\nfile: {}\n", sample.path),
            format!("\nlog: closed just now, {count} sectors written; "),
            format!("\nfile-write identifier: {WRITTEN}\n"),
            "\nlength of the file: ".to_string(),
            "\nallocated on the host: ".to_string(),
        ] {
            assert!(text.contains(&line), "{line}: {text}");
        }
        let expected = closed(&pending, STORED);
        assert!(sample.now() == expected, "not what closing makes it");

        // and again, also with another identifier
        let again = sample.run("close", &[]).with(0).text();
        let nothing = format!("file: {}\nlog: none; nothing was changed\n", sample.path);
        assert!(again.starts_with(&nothing), "{again}");
        assert!(!again.contains("identifier"), "{again}");
        assert!(sample.now() == expected, "closed twice");
        let attached = sample.run("attach", &["--apply"]).with(status).text();
        assert!(attached.contains("\nlog: none\n"), "{attached}");
        assert!(sample.now() == expected, "the log was applied again");
    }
}

#[test]
fn the_same_as_json() {
    for (pending, _) in images() {
        let sample = Sample::new(bytes(&pending));
        let ran = sample.run("close", &["--json", "--identifier", WRITTEN]);
        assert!(ran.errors.starts_with("closing: "), "{ran:?}");
        let expected = closed(&pending, STORED);
        assert!(sample.now() == expected);
        let length = expected.len().to_string();
        let json = Json::parse(&ran.with(0).text());
        json.assert_has(&[
            ("format_version", "1"),
            ("file", &format!("\"{}", sample.path)),
            ("log", "\"closed"),
            ("identifier", &format!("\"{WRITTEN}")),
            ("given_length", &pending.image.length.to_string()),
            ("capacity", &(pending.image.length + (1 << 30)).to_string()),
            ("length", &length),
            ("sectors", &pending.replay.count().to_string()),
            ("refusal", "null"),
        ]);
        assert!(json.number("allocated") > 0);

        let ran = sample.run("close", &["--json"]).with(0);
        assert!(ran.errors.is_empty(), "{ran:?}");
        let json = sample.json("close", &[], 0);
        json.assert_has(&[
            ("log", "\"none"),
            ("identifier", "null"),
            ("given_length", &length),
            ("length", &length),
            ("sectors", "0"),
            ("refusal", "null"),
        ]);
        assert!(sample.now() == expected);
    }
}

/// That closing is refused by a number and changes nothing.
#[track_caller]
fn assert_refused(sample: &Sample, more: &[&str], number: u64) {
    let text = sample.run("close", more).with(1).text();
    assert!(text.starts_with("file: "), "{text}");
    assert!(text.contains(&format!("\nrefused: {number}: ")), "{text}");
    assert!(text.contains("\nwhat to do: "), "{text}");
    let json = sample.json("close", more, 1);
    assert_eq!(json.number("refusal.number"), number);
    let length = sample.bytes.len().to_string();
    json.assert_has(&[
        ("log", "null"),
        ("identifier", "null"),
        ("length", &length),
        ("sectors", "0"),
    ]);
    sample.assert_unchanged();
}

#[test]
fn a_refused_file_is_not_touched() {
    assert_refused(&Sample::new(vec![]), &[], 1);
    assert_refused(&Sample::new(vec![0; MIB]), &[], 2);
    let mut no_header = bytes(&sample_file());
    no_header[MIB / 16..MIB / 4].fill(0);
    assert_refused(&Sample::new(no_header), &[], 3);
    let mut no_sequence = bytes(&sample_file());
    no_sequence[MIB..2 * MIB].fill(0);
    assert_refused(&Sample::new(no_sequence), &[], 5);
    assert_refused(&Sample::pending(), &["--capacity", "5242879"], 8);
}

#[test]
fn the_greatest_sequence_number_is_refused_where_a_log_is_pending() {
    let mut pending = sample_file();
    pending.image.header(HEADERS[1], u64::MAX, GUID);
    let sample = Sample::new(bytes(&pending));
    assert_refused(&sample, &[], 23);
    // what is refused asks for no work
    assert_refused(&sample, &["--max-sectors", "1"], 23);
    // 8 comes first, and the log can be applied
    assert_refused(&sample, &["--capacity", "5242879"], 8);
    sample.run("attach", &[]).with(0);
    pending.image.header(HEADERS[1], u64::MAX, [0; 16]);
    let sample = Sample::new(bytes(&pending));
    let text = sample.run("close", &[]).with(0).text();
    assert!(
        text.contains("\nlog: none; nothing was changed\n"),
        "{text}"
    );
    sample.assert_unchanged();
}

#[test]
fn an_identifier_is_written_in_either_case_and_in_braces_or_not() {
    let expected = closed(&sample_file(), STORED);
    let upper = WRITTEN.to_uppercase();
    for given in [
        &["--identifier", WRITTEN][..],
        &["--identifier", &upper],
        &["--identifier", &format!("{{{WRITTEN}}}")],
        &[&format!("--identifier={{{upper}}}")],
    ] {
        let sample = Sample::pending();
        let text = sample.run("close", given).with(0).text();
        assert!(text.contains(&format!("identifier: {WRITTEN}\n")), "{text}");
        assert!(sample.now() == expected, "{given:?}");
    }
}

#[test]
fn without_an_identifier_a_random_one_is_drawn_and_printed() {
    let drawn = [0; 3].map(|_| {
        let sample = Sample::pending();
        let ran = sample.run("close", &["--json"]).with(0);
        let json = Json::parse(&ran.text());
        let identifier = json.text("identifier").to_string();
        // known before anything is written
        assert!(ran.errors.contains(&identifier), "{ran:?}");
        assert_eq!(&identifier[14..15], "4", "of version 4");
        assert!("89ab".contains(&identifier[19..20]), "{identifier}");
        let repeated = Sample::pending();
        repeated
            .run("close", &["--identifier", &identifier])
            .with(0);
        assert!(repeated.now() == sample.now(), "a run that is repeated");
        identifier
    });
    assert!(drawn[0] != drawn[1] && drawn[1] != drawn[2], "{drawn:?}");
}

#[test]
fn a_file_that_changes_after_it_was_judged_is_not_written_to() {
    // the header that is not current, which no page that was only read holds; the current one; the log
    for place in [HEADERS[0], HEADERS[1], MIB] {
        let change = |file: &File| file.write_all_at(b"changed", place as u64 + 100);
        let told = "changed while it was read";
        change_when_judged(&["close"], &bytes(&sample_file()), change, told).assert_unchanged();
    }
}
