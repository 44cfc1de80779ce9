//! Files for the command, and runs of it.
use shrunvaki_testkit::command::{end, folder, run, write, Folder, Ran};
use shrunvaki_testkit::image::{Descriptor, Entry, MIB, SECTOR};
use shrunvaki_testkit::json::Json;
use shrunvaki_testkit::pending::{sample_file, small_blocks, Pending};
use shrunvaki_testkit::sample::entry;
use shrunvaki_testkit::tables::{locator, Disk};
use std::fs;
use std::os::unix::process::CommandExt;
use std::process::Command;

pub const PROGRAM: &str = env!("CARGO_BIN_EXE_shrunvaki");

pub fn shrunvaki(words: &[&str]) -> Ran {
    run(PROGRAM, words)
}

/// By a shell, with the command in `$0` and the words behind it in `$@`.
pub fn in_shell(script: &str, words: &[&str]) -> Ran {
    end(Command::new("sh").args(["-c", script, PROGRAM]).args(words))
}

/// By a user whom a file's mode and the limits of a user concern, as root they do not.
pub fn as_nobody(command: &mut Command) -> Ran {
    const NOBODY: u32 = 65534;
    if run("id", &["-u"]).text() == "0\n" {
        command.uid(NOBODY).gid(NOBODY);
    }
    end(command)
}

/// A log entry that zeros the same range so many times.
pub fn zeroing(offset: u64, length: u64, times: usize) -> Entry {
    let mut entry = Entry::new(1, 0);
    entry.descriptors = vec![Descriptor::Zero { offset, length }; times];
    entry
}

/// The bytes of an image, without the rest of its buffer.
pub fn bytes(pending: &Pending) -> Vec<u8> {
    pending.image.buffer[..pending.image.length as usize].to_vec()
}

/// A file in a folder of its own, with what was written to it.
pub struct Sample {
    // removed with this value
    _folder: Folder,
    pub path: String,
    pub bytes: Vec<u8>,
}

impl Sample {
    pub fn new(bytes: Vec<u8>) -> Sample {
        Sample::named("disk.vhdx", bytes)
    }

    pub fn named(name: &str, bytes: Vec<u8>) -> Sample {
        let folder = folder("command");
        let path = write(&folder, name, &bytes);
        Sample {
            _folder: folder,
            path: path.to_str().expect("text").to_string(),
            bytes,
        }
    }

    /// A small disk whose log is pending.
    pub fn pending() -> Sample {
        Sample::new(bytes(&sample_file()))
    }

    /// Runs a command on the file: its name, then the file, then more words.
    pub fn run(&self, command: &str, more: &[&str]) -> Ran {
        shrunvaki(&[&[command, &self.path], more].concat())
    }

    /// The same with --json: what it prints, where it ends with this status.
    #[track_caller]
    pub fn json(&self, command: &str, more: &[&str], status: i32) -> Json {
        let ran = self
            .run(command, &[more, &["--json"]].concat())
            .with(status);
        let json = Json::parse(&ran.text());
        assert_eq!(json.number("format_version"), 1);
        json
    }

    pub fn now(&self) -> Vec<u8> {
        fs::read(&self.path).expect("the file")
    }

    #[track_caller]
    pub fn assert_unchanged(&self) {
        assert!(self.now() == self.bytes, "the file was changed");
    }
}

/// A disk of 64 MiB in blocks of 1 MiB without a log, with these BAT entries from the first on. Behind its tables the file holds
/// numbers that tell its sectors apart.
pub fn disk_with(disk: &Disk, entries: &[u64], length: usize) -> Sample {
    let mut file = bytes(&{
        let mut pending = sample_file();
        pending.image.header(65536, 3, [0; 16]);
        pending
    });
    let tables = disk.bytes();
    file[2 * MIB..4 * MIB].copy_from_slice(&tables[2 * MIB..4 * MIB]);
    file.resize(length, 0);
    for (i, value) in entries.iter().enumerate() {
        file[3 * MIB + 8 * i..][..8].copy_from_slice(&value.to_le_bytes());
    }
    for at in (4 * MIB..length).step_by(SECTOR) {
        file[at..at + 8].copy_from_slice(&(at as u64).to_le_bytes());
    }
    Sample::new(file)
}

/// The small disk with a parent.
pub fn child() -> Disk {
    let mut disk = small_blocks().0;
    disk.items[0].bytes[4] = 2;
    let item = Disk::with_parent(locator(&[
        ("relative_path", "..\\base\u{1b}[31m.vhdx"),
        ("parent_linkage", "{1}"),
    ]))
    .items
    .pop()
    .expect("the locator");
    disk.items.push(item);
    disk
}

/// All of its blocks are in the file.
pub fn large() -> Sample {
    let entries: Vec<u64> = (0..64).map(|block| entry(4 + block, 6)).collect();
    disk_with(&small_blocks().0, &entries, 68 * MIB)
}
