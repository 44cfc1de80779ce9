//! Misuse, help, and the demonstration.
use crate::sample::{shrunvaki, Sample};
use shrunvaki_testkit::json::Json;

#[test]
fn misuse() {
    let sample = Sample::pending();
    let file = sample.path.as_str();
    let guid = "00112233-4455-6677-8899-aabbccddeeff";
    let cases: [&[&str]; 44] = [
        &[],
        &["attack", file],
        &["attach"],
        &["attach", file, "more"],
        &["attach", file, "--capacity"],
        &["attach", file, "--capacity", "-10"],
        &["attach", file, "--capacity=1e9"],
        &["attach", file, "--frobnicate"],
        &["attach", file, "--json=yes"],
        &["lookup", file],
        &["lookup", file, "-1"],
        &["lookup", file, "18446744073709551616"],
        &["lookup", file, "0", "--apply"],
        &["map", file, "--sector", "1"],
        &["cat", file, "--from", "1"],
        &["parent", file, "a", "b"],
        &["attach", file, "--wait"],
        &["attach", file, "--capacity", "16777216T"],
        &["attach", file, "--capacity", "K"],
        &["map", file, "--force"],
        &["cat", file, "--max-sectors", "1.5M"],
        &["demo", file],
        &["demo", "--capacity", "9"],
        &["help", "me"],
        &["close"],
        &["close", file, "more"],
        &["close", file, "--apply"],
        &["close", file, "--force"],
        &["close", file, "--identifier"],
        &["close", file, "--identifier="],
        &["close", file, "--identifier", "0"],
        &["close", file, "--identifier", &guid[1..]],
        &["close", file, "--identifier", &guid.replace('-', "")],
        &["close", file, "--identifier", &guid.replace('f', "g")],
        &["close", file, "--identifier", &format!("{{{guid}")],
        &["attach", file, "--identifier", guid],
        &["attach", file, "--apply", "--identifier", guid],
        &["attach", file, "--pieces=yes"],
        &["close", file, "--pieces"],
        &["lookup", file, "0", "--pieces"],
        &["map", file, "--pieces"],
        &["parent", file, "--pieces"],
        &["cat", file, "--pieces"],
        &["demo", "--pieces"],
    ];
    for words in cases {
        let ran = shrunvaki(words).with(2);
        assert!(ran.bytes.is_empty(), "{words:?}");
        assert!(
            ran.errors.contains("Try 'shrunvaki --help'."),
            "{words:?}: {}",
            ran.errors
        );
    }
    sample.assert_unchanged();
}

#[test]
fn help_and_version() {
    for words in [&["--help"][..], &["-h"], &["help"]] {
        let text = shrunvaki(words).with(0).text();
        for command in [
            "attach",
            "--apply",
            "close",
            "lookup",
            "map",
            "parent",
            "cat",
            "demo",
            "--max-sectors",
            "Exit status",
        ] {
            assert!(text.contains(command), "{words:?}: {command}");
        }
    }
    for command in ["attach", "close", "lookup", "map", "parent", "cat", "demo"] {
        let text = shrunvaki(&[command, "--help"]).with(0).text();
        assert!(text.starts_with(&format!("shrunvaki {command}")), "{text}");
        assert_eq!(shrunvaki(&["help", command]).with(0).text(), text);
        assert!(text.lines().all(|line| line.len() <= 80), "{text}");
    }
    let attach = shrunvaki(&["attach", "--help"]).text();
    assert!(attach.contains("\n  --pieces "), "{attach}");
    let close = shrunvaki(&["close", "--help"]).text();
    for words in ["--identifier", "--wait", "9 to 15", "23", "run again"] {
        assert!(close.contains(words), "{words}: {close}");
    }
    assert_eq!(
        shrunvaki(&["--version"]).with(0).text(),
        "shrunvaki 0.1.0\n"
    );
}

#[test]
fn the_demonstration() {
    let text = shrunvaki(&["demo"]).with(0).text();
    for line in [
        "size to charge: 64 MiB (67,108,864 bytes)",
        "log: pending, 258 sectors to write; the file grows to 5 MiB (5,242,880 bytes)",
        "log: applied just now; it stays in the file until shrunvaki close ends it",
        "The same to a copy that saw no crash. The two files are equal, byte for byte.",
        "sector 0: in the file at 4194304",
        "The first bytes of block 0",
    ] {
        assert!(text.lines().any(|l| l == line), "{line}\n{text}");
    }
    let json = Json::parse(&shrunvaki(&["demo", "--json"]).with(0).text());
    json.assert_has(&[
        ("attach.sectors", "258"),
        ("sectors_before_the_crash", "100"),
        ("same_as_undisturbed", "true"),
        ("block_0", "\"The first bytes of block 0"),
    ]);
}
