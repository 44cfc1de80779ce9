//! Files that somebody changes between what a command announces and what it does.
use crate::sample::{Sample, PROGRAM};
use std::fs::File;
use std::io::{self, Write};
use std::process::{Command, Stdio};
use std::thread;
use std::time::Duration;

/// Runs a command on a file, with a full pipe as its output, so that it waits with what it announces; then changes the file and reads
/// on. It has to end with an error of these words. What the answer holds as the file's bytes are those after the change.
#[track_caller]
pub fn change_when_judged(
    words: &[&str],
    file: &[u8],
    change: impl Fn(&File) -> io::Result<()>,
    told: &str,
) -> Sample {
    // what is changed before the file is judged is judged: with a longer pause it is not
    for pause in [100, 1000, 10_000] {
        let mut sample = Sample::new(file.to_vec());
        let (mut reader, mut writer) = io::pipe().expect("a pipe");
        writer.write_all(&[b' '; 65536]).expect("a full pipe");
        let child = Command::new(PROGRAM)
            .args(words)
            .arg(&sample.path)
            .stdout(writer)
            .stderr(Stdio::piped())
            .spawn()
            .expect("the command");
        thread::sleep(Duration::from_millis(pause));
        let opened = File::options().write(true).open(&sample.path);
        opened.and_then(|file| change(&file)).expect("changed");
        sample.bytes = sample.now();
        io::copy(&mut reader, &mut io::sink()).expect("its output");
        let ended = child.wait_with_output().expect("its end");
        let errors = String::from_utf8_lossy(&ended.stderr);
        if errors.contains(told) {
            assert_eq!(ended.status.code(), Some(2));
            return sample;
        }
    }
    panic!("the change was not seen")
}
