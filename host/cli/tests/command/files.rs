//! Files that cannot be read, are exchanged, or have awkward names.
use crate::sample::{as_nobody, bytes, shrunvaki, zeroing, Sample, PROGRAM};
use shrunvaki_testkit::command::{end, folder, run, write};
use shrunvaki_testkit::image::{Image, GUID, MIB};
use shrunvaki_testkit::json::Json;
use shrunvaki_testkit::pending::{sample_file, small_blocks};
use std::ffi::OsStr;
use std::fs::{self, File};
use std::io::Read;
use std::os::unix::ffi::OsStrExt;
use std::os::unix::fs::{FileExt, PermissionsExt};
use std::os::unix::process::ExitStatusExt;
use std::path::Path;
use std::process::{Command, Stdio};
use std::sync::atomic::{AtomicBool, Ordering};
use std::thread;
use std::time::Duration;

const M: u64 = MIB as u64;

#[test]
fn files_that_cannot_be_read() {
    let folder = folder("command");
    let folder_name = folder.path().to_str().expect("text");
    let missing = format!("{folder_name}/missing.vhdx");
    let pipe = format!("{folder_name}/pipe");
    run("mkfifo", &[&pipe]).with(0);
    for (path, told) in [
        (folder_name, "is a directory"),
        (missing.as_str(), "No such file"),
        (pipe.as_str(), "is not a regular file"),
        ("/dev/null", "is not a regular file"),
        ("", "No such file"),
    ] {
        for words in [
            &["attach", path][..],
            &["attach", "--apply", path],
            &["attach", "--pieces", path],
            &["attach", "--apply", "--pieces", path],
            &["close", path],
            &["map", path],
            &["cat", path],
        ] {
            let ran = shrunvaki(words).with(2);
            assert!(ran.errors.contains(told), "{words:?}: {}", ran.errors);
            let ran = shrunvaki(&[words, &["--json"]].concat()).with(2);
            let json = Json::parse(&ran.text());
            assert_eq!(json.number("format_version"), 1);
            assert!(json.text("error.message").contains(told), "{json:?}");
        }
    }
}

#[test]
fn a_file_that_may_not_be_read_or_written() {
    let sample = Sample::pending();
    let file = sample.path.as_str();
    let allow = |mode| {
        fs::set_permissions(file, fs::Permissions::from_mode(mode)).expect("its mode");
        // its folder is this user's alone
        let folder = Path::new(file).parent().expect("its folder");
        fs::set_permissions(folder, fs::Permissions::from_mode(0o755)).expect("its mode");
    };
    let ask = |words: &[&str]| as_nobody(Command::new(PROGRAM).args(words));
    allow(0o444);
    ask(&["attach", file]).with(0);
    for words in [
        &["attach", "--apply", file][..],
        &["attach", "--apply", "--pieces", file],
        &["close", file],
    ] {
        let ran = ask(words).with(2);
        assert!(ran.errors.contains("Permission denied"), "{ran:?}");
    }
    allow(0o000);
    let ran = ask(&["attach", file]).with(2);
    assert!(ran.errors.contains("Permission denied"), "{ran:?}");
}

#[test]
fn a_path_that_becomes_a_pipe_does_not_make_it_wait() {
    let folder = folder("command");
    let file = write(&folder, "disk.vhdx", &bytes(&sample_file()));
    let (pipe, path, next) = (
        folder.file("pipe"),
        folder.file("path"),
        folder.file("next"),
    );
    run("mkfifo", &[&pipe]).with(0);
    fs::hard_link(&file, &path).expect("a link");
    let done = AtomicBool::new(false);
    thread::scope(|scope| {
        scope.spawn(|| {
            while !done.load(Ordering::Relaxed) {
                for other in [&pipe, &file] {
                    fs::hard_link(other, &next).expect("a link");
                    fs::rename(&next, &path).expect("exchanged");
                }
            }
        });
        // an assertion in between would leave the other thread running
        let mut ended = Vec::new();
        for _ in 0..400 {
            let mut command = Command::new("timeout");
            command.args([
                "20".as_ref(),
                PROGRAM.as_ref(),
                "attach".as_ref(),
                path.as_os_str(),
            ]);
            ended.push(end(&mut command));
        }
        done.store(true, Ordering::Relaxed);
        for ran in &ended {
            let not_regular = ran.errors.contains("is not a regular file");
            assert!(
                ran.status == Some(0) || (ran.status == Some(2) && not_regular),
                "{ran:?}"
            );
        }
        let attached = ended.iter().filter(|ran| ran.status == Some(0)).count();
        assert!(
            (1..ended.len()).contains(&attached),
            "{attached} of {}",
            ended.len()
        );
    });
}

/// A file with a long log, and where the offset stands that the last of its descriptors writes to.
fn long_log() -> (Sample, u64) {
    const DESCRIPTORS: usize = 40;
    let entry = zeroing(4 * M, 8 * M, DESCRIPTORS);
    let mut image = Image::new(4 * MIB, 4 * M, MIB, GUID);
    image.tables(&small_blocks().0).entry(0, &entry);
    let offset = M + 64 + 32 * (DESCRIPTORS as u64 - 1) + 16;
    (Sample::new(image.buffer), offset)
}

#[test]
fn a_file_that_is_changed_while_it_is_read_does_no_harm() {
    let (sample, at) = long_log();
    let file = File::options().write(true).open(&sample.path);
    let file = file.expect("the file");
    let done = AtomicBool::new(false);
    thread::scope(|scope| {
        scope.spawn(|| {
            // far outside the buffer, and what it was; with the second the entry is valid
            while !done.load(Ordering::Relaxed) {
                for (offset, pause) in [(1 << 46, 2), (4 * M, 4)] {
                    file.write_all_at(&u64::to_le_bytes(offset), at)
                        .expect("written");
                    thread::sleep(Duration::from_millis(pause));
                }
            }
        });
        // an assertion in between would leave the other thread running
        let mut ended = Vec::new();
        for _ in 0..60 {
            ended.push(sample.run("attach", &[]));
        }
        for more in [&["--apply"][..], &["--pieces"], &["--apply", "--pieces"]] {
            for _ in 0..20 {
                ended.push(sample.run("attach", more));
            }
        }
        done.store(true, Ordering::Relaxed);
        for ran in &ended {
            assert!(ran.status.is_some(), "ended by a signal");
            let told = ran.text() + &ran.errors;
            let expected = [
                "size to charge: 64 MiB",
                "size to charge: not known",
                "refused: 5: ",
                "refused: 8: ",
                "changed while it was read",
                "changed while its log was applied",
            ];
            assert!(expected.iter().any(|words| told.contains(words)), "{ran:?}");
        }
        let attached = ended.iter().filter(|ran| ran.status == Some(0)).count();
        assert!(
            (1..ended.len()).contains(&attached),
            "{attached} of {}",
            ended.len()
        );
    });
}

#[test]
fn a_lease_does_not_keep_a_file_from_being_read() {
    // ended by the signal that asks it to give up the lease
    const LEASE: &str = r#"
import fcntl, sys
F_WRLCK = 1
file = open(sys.argv[1], "r+b")
fcntl.fcntl(file, fcntl.F_SETLEASE, F_WRLCK)
print("leased", flush=True)
sys.stdin.read()
"#;
    let sample = Sample::pending();
    let mut holder = Command::new("python3")
        .args(["-c", LEASE, &sample.path])
        .stdin(Stdio::piped())
        .stdout(Stdio::piped())
        .spawn()
        .expect("python3");
    let mut line = [0; 7];
    let output = holder.stdout.as_mut().expect("its output");
    output.read_exact(&mut line).expect("a lease");
    sample.run("attach", &[]).with(0);
    let ended = holder.wait().expect("its end");
    assert!(ended.signal().is_some(), "it had no lease: {ended}");
}

#[test]
fn names_of_files() {
    let folder = folder("command");
    let bytes = bytes(&sample_file());
    let inside = |name: &[u8], words: &[&str]| {
        let mut command = Command::new(PROGRAM);
        command.args(words).arg(OsStr::from_bytes(name));
        end(command.current_dir(folder.path())).with(0).text()
    };
    let mut seen = Vec::new();
    for (name, shown) in [
        (&b"--json"[..], "--json"),
        (b"a \"disk\"\n.vhdx", "a \"disk\"\\n.vhdx"),
        (b"a \"disk\"\\n.vhdx", "a \"disk\"\\\\n.vhdx"),
        ("\u{202e}xdhv".as_bytes(), "\\u{202e}xdhv"),
        ("zero\u{200b}width".as_bytes(), "zero\\u{200b}width"),
        ("Ü \u{65e5}".as_bytes(), "Ü \u{65e5}"),
        (b"not text \xff", "not text \\xff"),
        (b"not text \xfe", "not text \\xfe"),
        (b"not text \\xff", "not text \\\\xff"),
    ] {
        fs::write(folder.path().join(OsStr::from_bytes(name)), &bytes).expect("a file");
        let text = inside(name, &["attach", "--"]);
        assert_eq!(text.lines().next(), Some(&format!("file: {shown}")[..]));
        let printed = inside(name, &["attach", "--json", "--"]);
        assert_eq!(printed.matches('\n').count(), 1);
        let json = Json::parse(&printed);
        let digits: String = name.iter().map(|byte| format!("{byte:02x}")).collect();
        match std::str::from_utf8(name) {
            Ok(text) => assert!(
                json.text("file") == text && !json.has("file_bytes"),
                "{json:?}"
            ),
            Err(_) => assert_eq!(json.text("file_bytes"), digits),
        }
        seen.push((
            json.text("file").to_string(),
            json.has("file_bytes").then_some(digits),
        ));
        let unseen = |c: char| c.is_control() && c != '\n' || "\u{202e}\u{200b}".contains(c);
        assert!(
            !printed.contains(unseen) && !text.contains(unseen),
            "{printed}{text}"
        );
    }
    let all = seen.len();
    seen.sort();
    seen.dedup();
    assert_eq!(seen.len(), all, "names that JSON does not tell apart");
}
