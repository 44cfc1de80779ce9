//! Files far longer than what is written to them.
use std::fs::{self, File, OpenOptions};
use std::io;
use std::os::fd::AsRawFd;
use std::os::unix::fs::FileExt;
use std::path::{Path, PathBuf};
use std::process;
use std::sync::atomic::{AtomicU64, Ordering};

/// A file without a name: nothing is left of it, whatever ends the process.
pub struct LongFile {
    pub file: File,
    pub length: u64,
}

impl LongFile {
    /// These bytes, and a hole behind them up to a length: among the temporary files, or in memory, where files may be longer than
    /// on many a disk. None where neither takes one so long.
    pub fn new(bytes: &[u8], length: u64) -> Option<LongFile> {
        let places = [std::env::temp_dir(), PathBuf::from("/dev/shm")];
        let made = places.iter().find_map(|place| create(place, length).ok());
        let Some(file) = made else {
            println!("no file of {length} bytes can be had in {places:?}");
            return None;
        };
        file.write_all_at(bytes, 0).expect("the first bytes");
        Some(LongFile { file, length })
    }

    /// With a length, or with half of it, a quarter, and so on, where the file systems here take none so long.
    pub fn up_to(bytes: &[u8], length: u64) -> LongFile {
        let mut lengths = (0..).map(|halved| length >> halved);
        let made = lengths.find_map(|length| LongFile::new(bytes, length));
        made.expect("a file")
    }

    /// Other processes of this user find it here too.
    pub fn path(&self) -> PathBuf {
        format!("/proc/{}/fd/{}", process::id(), self.file.as_raw_fd()).into()
    }
}

fn create(folder: &Path, length: u64) -> io::Result<File> {
    static NUMBER: AtomicU64 = AtomicU64::new(0);
    let number = NUMBER.fetch_add(1, Ordering::Relaxed);
    let path = folder.join(format!("shrunvaki-long-{}-{number}", process::id()));
    let mut options = OpenOptions::new();
    let file = options
        .read(true)
        .write(true)
        .create_new(true)
        .open(&path)?;
    fs::remove_file(&path)?;
    file.set_len(length)?;
    Ok(file)
}
