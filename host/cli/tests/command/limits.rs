//! Logs that ask for much, and processes that may have little.
use crate::sample::{as_nobody, in_shell, shrunvaki, zeroing, Sample, PROGRAM};
use shrunvaki_testkit::command::run;
use shrunvaki_testkit::image::{Entry, Image, GUID, MIB};
use std::fs::{self, File};
use std::os::unix::fs::PermissionsExt;
use std::path::Path;
use std::process::Command;

const M: u64 = MIB as u64;

/// A file of 9 MiB whose log zeros the same 512 MiB behind it so many times.
fn hostile(times: usize) -> Sample {
    let mut image = Image::new(9 * MIB, 9 * M, 8 * MIB, GUID);
    image.entry(0, &zeroing(9 * M, 512 * M, times));
    Sample::new(image.buffer)
}

#[test]
fn eight_billion_sectors_are_not_written() {
    let sample = hostile(65536);
    let commands: [&[&str]; 7] = [
        &["attach"],
        &["attach", "--apply"],
        &["close"],
        &["lookup", "0"],
        &["map"],
        &["parent"],
        &["cat"],
    ];
    for words in commands {
        // without a limit this takes hours
        let all = [&["60", PROGRAM, words[0], &sample.path], &words[1..]].concat();
        let ran = run("timeout", &all).with(4);
        assert!(ran.bytes.is_empty(), "{words:?}");
        assert!(
            ran.errors.contains("asks for 8,590,065,664 sectors"),
            "{ran:?}"
        );
        assert!(ran.errors.contains("--max-sectors"), "{ran:?}");
        let json = sample.json(words[0], &words[1..], 4);
        json.assert_has(&[
            ("error.kind", "\"too much work"),
            ("error.sectors", "8590065664"),
            ("error.max_sectors", "1048576"),
        ]);
        sample.assert_unchanged();
    }
}

#[test]
fn the_limit_is_the_users() {
    // 258 sectors, and 1 MiB of growth
    let sample = Sample::pending();
    for command in ["attach", "map", "cat"] {
        sample.run(command, &["--max-sectors", "513"]).with(4);
        sample.run(command, &["--max-sectors", "514"]).with(0);
    }
    sample
        .run("attach", &["--apply", "--max-sectors=513"])
        .with(4);
    sample.run("close", &["--max-sectors=513"]).with(4);
    sample.assert_unchanged();
    sample
        .run("attach", &["--apply", "--max-sectors=514"])
        .with(0);
    // it has grown
    sample.run("attach", &["--max-sectors", "258"]).with(0);
    sample.run("attach", &["--max-sectors", "257"]).with(4);
    sample.run("close", &["--max-sectors", "257"]).with(4);
    sample.run("close", &["--max-sectors", "258"]).with(0);
    // a refusal comes first, whatever the limit is
    sample
        .run("attach", &["--max-sectors", "0", "--capacity", "0"])
        .with(1);
    Sample::new(vec![0; MIB])
        .run("attach", &["--max-sectors=0"])
        .with(1);
}

#[test]
fn in_pieces_sectors_are_counted_up_to_the_limit_before_anything_is_written() {
    for more in [&["--pieces"][..], &["--apply", "--pieces"]] {
        let sample = hostile(65536);
        // without a limit this takes hours
        let words = [&["60", PROGRAM, "attach", &sample.path], more].concat();
        let ran = run("timeout", &words).with(4);
        let told = "asks for at least 1,048,577 sectors to be written";
        assert!(ran.errors.contains(told), "{ran:?}");
        assert!(ran.bytes.is_empty(), "{ran:?}");
        sample.assert_unchanged();
        // 258 sectors, and 1 MiB of growth
        let sample = Sample::pending();
        for limit in ["0", "255", "256", "513"] {
            let json = sample.json("attach", &[more, &["--max-sectors", limit]].concat(), 4);
            json.assert_has(&[
                ("error.kind", "\"too much work"),
                ("error.sectors", "null"),
                ("error.max_sectors", limit),
            ]);
            sample.assert_unchanged();
        }
        let refused = ["--max-sectors", "0", "--capacity", "0"];
        sample.run("attach", &[more, &refused].concat()).with(1);
        let allowed = ["--max-sectors", "514"];
        sample.run("attach", &[more, &allowed].concat()).with(0);
    }
}

#[test]
fn growth_is_work_too() {
    let mut image = Image::new(3 * MIB, 3 * M, MIB, GUID);
    let mut entry = Entry::new(1, 0);
    entry.last = 60 << 40;
    image.entry(0, &entry);
    let sample = Sample::new(image.buffer);
    let text = sample.run("attach", &[]).with(1).text();
    assert!(text.contains("refused: 8"), "{text}");
    let words = ["60", PROGRAM, "attach", &sample.path, "--capacity", "64T"];
    run("timeout", &words).with(4);
    run("timeout", &[&words[..], &["--pieces"]].concat()).with(4);
}

#[test]
fn without_a_thread_there_is_no_progress_and_no_panic() {
    let sample = Sample::pending();
    let folder = Path::new(&sample.path).parent().expect("its folder");
    fs::set_permissions(folder, fs::Permissions::from_mode(0o755)).expect("its mode");
    let alone = "ulimit -u 1; exec \"$0\" \"$@\"";
    let mut command = Command::new("bash");
    command.args(["-c", alone, PROGRAM, "attach", &sample.path]);
    let ran = as_nobody(&mut command).with(0);
    assert!(ran.text().contains("size to charge: 64 MiB"), "{ran:?}");
    // the demonstration cannot watch for signals then
    let mut command = Command::new("bash");
    as_nobody(command.args(["-c", alone, PROGRAM, "demo"])).with(0);
}

#[test]
fn a_capacity_that_the_process_may_not_have() {
    let sample = Sample::pending();
    let limited = |words: &[&str]| in_shell("ulimit -v 500000; exec \"$0\" \"$@\"", words);
    let ran = limited(&["attach", &sample.path]).with(2);
    for words in ["the file's length and 1 GiB", "ulimit -v", "--capacity"] {
        assert!(ran.errors.contains(words), "{ran:?}");
    }
    limited(&["attach", &sample.path, "--capacity", "8M"]).with(0);
    let ran = limited(&["attach", &sample.path, "--capacity", "1G"]).with(2);
    assert!(ran.errors.contains("give less with --capacity"), "{ran:?}");
    let file = File::options().write(true).open(&sample.path);
    file.expect("the file")
        .set_len(1 << 30)
        .expect("a long file");
    let ran = limited(&["map", &sample.path]).with(2);
    assert!(
        ran.errors
            .contains("the file is longer than this process may have"),
        "{ran:?}"
    );
    assert!(ran.errors.contains("in pieces"), "{ran:?}");
    shrunvaki(&["map", &sample.path]).with(0);
}

#[test]
fn in_pieces_next_to_no_memory_is_needed() {
    let sample = Sample::pending();
    let file = File::options().write(true).open(&sample.path);
    file.expect("the file")
        .set_len(1 << 30)
        .expect("a long file");
    let limited = |words: &[&str]| in_shell("ulimit -v 20000; exec \"$0\" \"$@\"", words);
    let asked = limited(&["attach", &sample.path, "--pieces"]).with(0);
    assert!(asked.errors.is_empty(), "{asked:?}");
    // and unasked too, where the file cannot be mapped
    let unasked = limited(&["attach", &sample.path]).with(0);
    assert_eq!(unasked.text(), asked.text());
    let told = "longer than this process may map, 1 GiB (1,073,741,824 bytes); the log's work is done in pieces, as with --pieces\n";
    assert!(unasked.errors.ends_with(told), "{unasked:?}");
    assert_eq!(unasked.errors.lines().count(), 1, "{unasked:?}");
}
