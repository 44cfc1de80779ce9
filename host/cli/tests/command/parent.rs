//! `parent`: what the parent locator says.
use crate::sample::{child, disk_with, Sample};
use shrunvaki_testkit::image::MIB;
use shrunvaki_testkit::tables::{locator, Disk};

#[test]
fn parents() {
    let sample = disk_with(&child(), &[], 4 * MIB);
    // what could command a terminal is spelled out, and so is the backslash that spells it
    let text = sample.run("parent", &[]).with(0).text();
    assert_eq!(
        text,
        "parent_linkage: {1}\nrelative_path: ..\\\\base\\u{1b}[31m.vhdx\n"
    );
    assert_eq!(
        sample.run("parent", &["parent_linkage"]).with(0).text(),
        "{1}\n"
    );
    let ran = sample.run("parent", &["volume_path"]).with(0);
    assert_eq!(ran.text(), "");
    assert!(ran.errors.contains("no value under volume_path"), "{ran:?}");
    let json = sample.json("parent", &[], 0);
    json.assert_has(&[
        ("has_parent", "true"),
        ("values.parent_linkage", "\"{1}"),
        ("values.parent_linkage2", "null"),
        ("values.relative_path", "\"..\\base\u{1b}[31m.vhdx"),
        ("values.volume_path", "null"),
        ("values.absolute_win32_path", "null"),
        ("value_bytes", "{}"),
    ]);
    let none = Sample::pending();
    let ran = none.run("parent", &[]).with(0);
    assert!(
        ran.text().is_empty() && ran.errors.contains("has no parent"),
        "{ran:?}"
    );
}

/// A disk whose relative path is these characters.
fn child_of(path: &str) -> Sample {
    let mut disk = child();
    let item = disk.items.len() - 1;
    disk.items[item] = Disk::with_parent(locator(&[("relative_path", path)]))
        .items
        .pop()
        .expect("the locator");
    disk_with(&disk, &[], 4 * MIB)
}

#[test]
fn values_that_look_alike_are_told_apart() {
    let paths = [
        "a\nb",
        "a\\nb",
        "a\u{202e}b",
        "a\u{2066}b",
        "a\u{200b}b",
        "ab",
        "a\u{feff}b",
        "a\u{fffd}b",
    ];
    let mut texts: Vec<String> = paths
        .iter()
        .map(|path| {
            let sample = child_of(path);
            let json = sample.json("parent", &["relative_path"], 0);
            assert_eq!(json.text("values.relative_path"), *path);
            let raw = sample.run("parent", &["--json"]).text();
            assert!(
                raw.trim_end().is_ascii() || path.contains('\u{fffd}'),
                "{raw}"
            );
            sample.run("parent", &["relative_path"]).with(0).text()
        })
        .collect();
    // half of a pair, which is no text
    let mut half = child_of("ab");
    let at = half
        .bytes
        .windows(4)
        .position(|w| w == b"a\0b\0")
        .expect("the value");
    half.bytes[at + 2..at + 4].copy_from_slice(&[0, 0xd8]);
    std::fs::write(&half.path, &half.bytes).expect("the file");
    texts.push(half.run("parent", &["relative_path"]).with(0).text());
    let json = half.json("parent", &["relative_path"], 0);
    json.assert_has(&[
        ("values.relative_path", "\"a\u{fffd}"),
        ("value_bytes.relative_path", "\"610000d8"),
    ]);
    for text in &texts {
        assert_eq!(text.matches('\n').count(), 1, "{text:?}");
        assert!(
            text.chars().all(|c| c == '\n' || !c.is_control()),
            "{text:?}"
        );
        assert_eq!(
            texts.iter().filter(|other| *other == text).count(),
            1,
            "{texts:?}"
        );
    }
}
