//! `cat`: the bytes of sectors.
use crate::sample::{bytes, disk_with, in_shell, large, Sample, PROGRAM};
use shrunvaki_testkit::image::MIB;
use shrunvaki_testkit::pending::{sample_file, small_blocks};
use shrunvaki_testkit::sample::entry;
use shrunvaki_testkit::tables::FILE_PARAMETERS;
use std::fs::{self, File};
use std::io::Read;
use std::os::unix::fs::MetadataExt;
use std::path::Path;
use std::process::{Child, Command, Stdio};
use std::thread;
use std::time::Duration;

/// The small disk's bytes, once its log is applied.
fn contents() -> Vec<u8> {
    let mut disk = vec![0; 64 * MIB];
    disk[..MIB].copy_from_slice(&sample_file().applied().0[4 * MIB..5 * MIB]);
    disk
}

#[test]
fn bytes_of_sectors() {
    let sample = Sample::new(bytes(&sample_file()));
    let disk = contents();
    assert!(
        sample.run("cat", &[]).with(0).bytes == disk,
        "the whole disk"
    );
    let ran = sample
        .run("cat", &["--sector", "2046", "--count", "4"])
        .with(0);
    assert!(ran.bytes == disk[2046 * 512..2050 * 512]);
    let ran = sample
        .run("cat", &["--sector", "131071", "--count", "2"])
        .with(1);
    assert!(
        ran.bytes == [0; 512] && ran.errors.contains("refused: 17"),
        "{}",
        ran.errors
    );
    let json = sample.json("cat", &["--sector", "2047", "--count", "2"], 0);
    let digits: String = disk[2047 * 512..2049 * 512]
        .iter()
        .map(|b| format!("{b:02x}"))
        .collect();
    assert_eq!(json.text("hex"), digits);
    json.assert_has(&[
        ("sector", "2047"),
        ("sector_size", "512"),
        ("stopped", "null"),
    ]);
}

/// The bytes of a file, and how many the host has allocated for it.
fn written(path: &Path) -> (Vec<u8>, u64) {
    let bytes = fs::read(path).expect("what was written");
    let blocks = fs::metadata(path).expect("its state").blocks();
    (bytes, blocks * 512)
}

#[test]
fn zeros_become_holes_in_a_new_file() {
    let sample = Sample::pending();
    let to = format!("{}.raw", sample.path);
    let to_path = Path::new(&to);
    let cat = |script: &str, more: &[&str]| {
        in_shell(script, &[&[&to, "cat", &sample.path], more].concat())
    };
    let disk = contents();
    cat("to=$1; shift; exec \"$0\" \"$@\" > \"$to\"", &[]).with(0);
    let (bytes, allocated) = written(to_path);
    assert!(bytes == disk && allocated <= 2 << 20, "{allocated} bytes");
    // a disk that is all zero: nothing follows the hole
    let words = ["--sector", "2048"];
    cat("to=$1; shift; exec \"$0\" \"$@\" > \"$to\"", &words).with(0);
    let (bytes, allocated) = written(to_path);
    assert!(
        bytes == disk[MIB..] && allocated <= 1 << 16,
        "{allocated} bytes"
    );
    // behind what the file has already, and in append mode
    let count = ["--sector", "2047", "--count", "4096"];
    let expected = [b"0123456789", &disk[2047 * 512..][..4096 * 512]].concat();
    cat(
        "to=$1; shift; { printf 0123456789; \"$0\" \"$@\"; } > \"$to\"",
        &count,
    )
    .with(0);
    assert!(written(to_path).0 == expected);
    fs::write(to_path, b"0123456789").expect("a file");
    cat("to=$1; shift; exec \"$0\" \"$@\" >> \"$to\"", &count).with(0);
    assert!(written(to_path).0 == expected);
    // over what was there, which a hole would show
    fs::write(to_path, vec![b'?'; 2 * MIB + 10]).expect("a file");
    cat("to=$1; shift; exec \"$0\" \"$@\" 1<> \"$to\"", &count).with(0);
    let expected = [&disk[2047 * 512..][..4096 * 512], b"??????????"].concat();
    assert!(written(to_path).0 == expected);
}

#[test]
fn an_empty_disk_takes_no_space() {
    let mut disk = small_blocks().0;
    disk.set(
        shrunvaki_testkit::tables::DISK_SIZE,
        &(1u64 << 30).to_le_bytes(),
    );
    let sample = disk_with(&disk, &[], 4 * MIB);
    let to = format!("{}.raw", sample.path);
    in_shell("exec \"$0\" cat \"$1\" > \"$2\"", &[&sample.path, &to]).with(0);
    let state = fs::metadata(&to).expect("its state");
    assert_eq!(state.len(), 1 << 30);
    assert!(state.blocks() * 512 <= 1 << 16, "{state:?}");
}

/// A large file of which the reader has seen a part.
fn reading(path: &Path) -> Child {
    let mut child = Command::new(PROGRAM)
        .args(["cat".as_ref(), path.as_os_str()])
        .stdout(Stdio::piped())
        .stderr(Stdio::piped())
        .spawn()
        .expect("the command");
    let mut some = [0; 4096];
    child
        .stdout
        .as_mut()
        .expect("its output")
        .read_exact(&mut some)
        .expect("some bytes");
    child
}

/// The rest of what it writes.
fn rest(child: &mut Child) -> Vec<u8> {
    let mut rest = Vec::new();
    let mut output = child.stdout.take().expect("its output");
    output.read_to_end(&mut rest).expect("what it wrote");
    rest
}

/// The bytes of the large disk, whose blocks lie one behind the other.
fn large_bytes(sample: &Sample) -> &[u8] {
    &sample.bytes[4 * MIB..]
}

#[test]
fn a_file_that_shrinks_while_it_is_read() {
    let sample = large();
    let mut child = reading(sample.path.as_ref());
    File::options()
        .write(true)
        .open(&sample.path)
        .expect("the file")
        .set_len(5 << 20)
        .expect("a shorter file");
    let rest = rest(&mut child);
    assert!(
        large_bytes(&sample)[4096..].starts_with(&rest),
        "no more than the disk's bytes"
    );
    let ended = child.wait_with_output().expect("its end");
    assert_eq!(ended.status.code(), Some(2));
    let message = String::from_utf8(ended.stderr).expect("text");
    assert!(
        message.contains("became shorter while it was in use"),
        "{message}"
    );
}

#[test]
fn a_closed_pipe_ends_quietly() {
    let sample = large();
    let mut child = reading(sample.path.as_ref());
    drop(child.stdout.take());
    let ended = child.wait_with_output().expect("its end");
    assert_eq!(ended.status.code(), Some(0));
    assert!(ended.stderr.is_empty(), "{:?}", ended.stderr);
}

#[test]
fn large_blocks_show_progress_too() {
    // two blocks of 32 MiB
    let mut disk = small_blocks().0;
    disk.set(FILE_PARAMETERS, &[0, 0, 0, 2, 0, 0, 0, 0]);
    let sample = disk_with(&disk, &[entry(4, 6), entry(36, 6)], 68 * MIB);
    let mut child = reading(sample.path.as_ref());
    // as long as nothing is said
    thread::sleep(Duration::from_millis(2100));
    assert_eq!(rest(&mut child).len(), 64 * MIB - 4096);
    let ended = child.wait_with_output().expect("its end");
    let message = String::from_utf8(ended.stderr).expect("text");
    assert!(message.starts_with("reading: "), "{message:?}");
}

#[test]
fn a_terminal_gets_the_bytes_only_if_that_is_forced() {
    let sample = Sample::pending();
    let on_terminal = |more: &[&str]| {
        let terminal = File::options().read(true).write(true).open("/dev/ptmx");
        let mut command = Command::new(PROGRAM);
        command.args(["cat", &sample.path, "--count", "1"]);
        command.args(more).stdout(terminal.expect("a terminal"));
        shrunvaki_testkit::command::end(&mut command)
    };
    let ran = on_terminal(&[]).with(2);
    assert!(
        ran.errors.contains("redirect") && ran.errors.contains("--force"),
        "{ran:?}"
    );
    on_terminal(&["--force"]).with(0);
    on_terminal(&["--json"]).with(0);
}
