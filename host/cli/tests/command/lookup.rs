//! `lookup` and `map`: where sectors are.
use crate::sample::{child, disk_with, Sample};
use shrunvaki_testkit::image::MIB;
use shrunvaki_testkit::pending::small_blocks;
use shrunvaki_testkit::sample::{entry, M};
use std::fs;

#[test]
fn lookups() {
    let sample = Sample::pending();
    let ran = sample
        .run("lookup", &["0", "2047", "2048", "131071"])
        .with(0);
    assert_eq!(
        ran.text(),
        "sector 0: in the file at 4194304\nsector 2047: in the file at 5242368\nsector 2048: zero\nsector 131071: zero\n"
    );
    let json = sample.json("lookup", &["1", "131072", "18446744073709551615"], 1);
    json.assert_has(&[
        ("sectors.0.sector", "1"),
        ("sectors.0.where", "\"file"),
        ("sectors.0.offset", "4194816"),
        ("sectors.1.where", "\"refused"),
        ("sectors.1.refusal.number", "17"),
        ("sectors.2.sector", "18446744073709551615"),
        ("sectors.2.refusal.number", "17"),
    ]);
    sample.assert_unchanged();
}

#[test]
fn a_map_has_the_longest_runs() {
    // blocks 0 and 1 lie one behind the other, 2 does not follow, 3 is zero, 4 has a reserved state, 5 ends past the file
    let entries = [
        entry(4, 6),
        entry(5, 6),
        entry(4, 6),
        entry(0, 2),
        entry(0, 5),
        entry(99, 6),
    ];
    let sample = disk_with(&small_blocks().0, &entries, 6 * MIB);
    let text = sample.run("map", &[]).with(1).text();
    let lines = [
        "first count where",
        "0 4096 file 4194304",
        "4096 2048 file 4194304",
        "6144 2048 zero",
        "8192 2048 refused 18",
        "10240 2048 refused 19",
        "12288 118784 zero",
    ];
    assert_eq!(text.lines().collect::<Vec<_>>(), lines);
    let json = sample.json("map", &["--from", "1", "--count", "3000"], 0);
    json.assert_has(&[
        ("runs.0.first", "1"),
        ("runs.0.count", "3000"),
        ("runs.0.where", "\"file"),
        ("runs.0.offset", "4194816"),
    ]);
    assert!(!json.has("runs.1.first"), "{json:?}");
    let text = sample
        .run("map", &["--from=131070", "--count=5"])
        .with(1)
        .text();
    assert_eq!(
        text,
        "first count where\n131070 2 zero\n131072 3 refused 17\n"
    );
    // 4K sectors of the disk's
    let text = sample.run("map", &["--count", "4k"]).with(0).text();
    assert_eq!(text, "first count where\n0 4096 file 4194304\n");
}

#[test]
fn sectors_past_the_disks_end_are_refused() {
    let sample = Sample::pending();
    let last = u64::MAX.to_string();
    for (from, more, run) in [
        ("131072", &[][..], "131072 1 refused 17"),
        (&last, &[], "18446744073709551615 1 refused 17"),
        (
            &last,
            &["--count", "1"],
            "18446744073709551615 1 refused 17",
        ),
        // no number is above this one
        (
            &last,
            &["--count", &last],
            "18446744073709551615 1 refused 17",
        ),
        (
            "131072",
            &["--count", &last],
            "131072 18446744073709420544 refused 17",
        ),
    ] {
        let words = [&["--from", from], more].concat();
        let text = sample.run("map", &words).with(1).text();
        assert_eq!(text, format!("first count where\n{run}\n"), "{words:?}");
        let words = [&["--sector", from], more].concat();
        let ran = sample.run("cat", &words).with(1);
        let told = format!("stopped at sector {from}: refused: 17: ");
        assert!(
            ran.bytes.is_empty() && ran.errors.contains(&told),
            "{ran:?}"
        );
    }
    // nothing is asked for, and nothing is refused
    let text = sample.run("map", &["--from", &last, "--count", "0"]);
    assert_eq!(text.with(0).text(), "first count where\n");
}

#[test]
fn a_map_with_a_parent() {
    // block 0 is partially present: sectors 3 and 4 and, in the next byte of the bitmap, 8; block 1 is in the parent; block 2 in the file
    let mut sample = disk_with(&child(), &[entry(4, 7), entry(0, 0), entry(5, 6)], 7 * MIB);
    let ratio = 4096;
    let bitmap = 3 * MIB + 8 * ratio;
    sample.bytes[bitmap..bitmap + 8].copy_from_slice(&entry(6, 6).to_le_bytes());
    sample.bytes[6 * MIB..6 * MIB + 2].copy_from_slice(&[0b0001_1000, 1]);
    sample.bytes[6 * MIB + 2..7 * MIB].fill(0);
    fs::write(&sample.path, &sample.bytes).expect("the file");
    let text = sample.run("map", &[]).with(0).text();
    let lines = [
        "first count where".to_string(),
        "0 3 parent".to_string(),
        format!("3 2 file {}", 4 * M + 3 * 512),
        "5 3 parent".to_string(),
        format!("8 1 file {}", 4 * M + 8 * 512),
        "9 4087 parent".to_string(),
        format!("4096 2048 file {}", 5 * M),
        "6144 124928 parent".to_string(),
    ];
    assert_eq!(text.lines().collect::<Vec<_>>(), lines);
    // bytes up to the first sector of the parent's
    let ran = sample
        .run("cat", &["--sector", "3", "--count", "9"])
        .with(3);
    assert!(ran.bytes == sample.bytes[4 * MIB + 3 * 512..4 * MIB + 5 * 512]);
    assert_eq!(
        ran.errors,
        "shrunvaki: stopped at sector 5: in the parent\n"
    );
    let json = sample.json("cat", &["--sector", "4", "--count", "2"], 3);
    assert_eq!(json.text("hex").len(), 2 * 512);
    json.assert_has(&[("stopped.sector", "5"), ("stopped.where", "\"parent")]);
}
