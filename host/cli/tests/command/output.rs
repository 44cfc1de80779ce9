//! Where the answer goes, and where it cannot go.
use crate::sample::{in_shell, shrunvaki, Sample, PROGRAM};
use shrunvaki_testkit::command::{end, folder, run};
use shrunvaki_testkit::json::Json;
use std::fs::{self, File};
use std::io::{self, Write};
use std::os::unix::process::ExitStatusExt;
use std::process::Command;
use std::thread;
use std::time::Duration;

#[test]
fn output_that_cannot_be_written() {
    // what cannot be announced is not done
    let sample = Sample::pending();
    for words in [
        &["demo"][..],
        &["attach", "--apply", &sample.path],
        &["attach", "--apply", "--pieces", &sample.path],
        &["close", &sample.path],
    ] {
        let full = File::options().write(true).open("/dev/full");
        let full = full.expect("the device that is always full");
        let ran = end(Command::new(PROGRAM).args(words).stdout(full)).with(2);
        assert!(ran.errors.contains("cannot write the output"), "{ran:?}");
    }
    sample.assert_unchanged();
}

#[test]
fn a_closed_output_is_an_error() {
    let sample = Sample::pending();
    let file = sample.path.as_str();
    for words in [
        &["attach", file][..],
        &["attach", "--apply", file],
        &["close", file],
        &["attach", "--json", file],
        &["map", file],
        &["cat", file],
        &["demo"],
        &["--help"],
    ] {
        let ran = in_shell("exec \"$0\" \"$@\" >&-", words).with(2);
        assert!(ran.errors.contains("standard output is closed"), "{ran:?}");
        // nowhere is somewhere
        if !words.contains(&"--apply") && !words.contains(&"close") {
            in_shell("exec \"$0\" \"$@\" > /dev/null", words).with(0);
        }
    }
    sample.assert_unchanged();
    // nobody who could read an error is no reason to stop
    in_shell("exec \"$0\" \"$@\" 2>&-", &["attach", file]).with(0);
}

#[test]
fn errors_as_json() {
    let sample = Sample::pending();
    for (words, told) in [
        (&["attach", "--json", "/missing"][..], "No such file"),
        (&["--json"], "a command is missing"),
        (&["attack", "--json"], "there is no command"),
        (
            &["map", &sample.path, "--count", "x", "--json"],
            "--count is a whole number",
        ),
        (&["attach", "--nonsense", "--json"], "there is no option"),
    ] {
        let ran = shrunvaki(words).with(2);
        let json = Json::parse(&ran.text());
        json.assert_has(&[("format_version", "1"), ("error.kind", "\"failed")]);
        assert!(json.text("error.message").contains(told), "{json:?}");
        assert!(ran.errors.contains(told), "{ran:?}");
    }
    // a file of that name does not ask for JSON
    let ran = shrunvaki(&["attach", "--", "--json", "more"]).with(2);
    assert!(ran.bytes.is_empty(), "{ran:?}");
}

#[test]
fn a_signal_ends_the_demonstration_and_its_folder() {
    for (signal, number) in [("HUP", 1), ("INT", 2), ("TERM", 15)] {
        let folder = folder("signal");
        let entries = || fs::read_dir(folder.path()).expect("the folder").count();
        // a pipe that is full, so that the demonstration waits in the middle
        let (_reader, mut writer) = io::pipe().expect("a pipe");
        writer.write_all(&[b' '; 65536]).expect("a full pipe");
        // the tests may have been started by nohup, whose children ignore SIGHUP
        let mut child = Command::new("env")
            .args(["--default-signal=HUP,INT,TERM", PROGRAM, "demo"])
            .env("TMPDIR", folder.path())
            .stdout(writer)
            .spawn()
            .expect("the command");
        for _ in 0..1000 {
            if entries() > 0 {
                break;
            }
            thread::sleep(Duration::from_millis(10));
        }
        thread::sleep(Duration::from_millis(200));
        assert!(
            child.try_wait().expect("its state").is_none(),
            "it has not waited"
        );
        run("kill", &["-s", signal, &child.id().to_string()]).with(0);
        let status = child.wait().expect("its end");
        assert_eq!(status.signal(), Some(number), "{status}");
        assert_eq!(entries(), 0, "{signal}: the folder is still there");
    }
}
