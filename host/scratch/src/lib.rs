//! Temporary folders that are removed with their value, also where a signal ends the process: for the demonstration and for tests.
use std::fs::{self, DirBuilder};
use std::io;
use std::os::unix::fs::DirBuilderExt;
use std::path::{Path, PathBuf};
use std::process;
use std::sync::atomic::{AtomicU64, Ordering};
use std::sync::{Mutex, PoisonError};

mod signals;

/// The folders that are there now.
static FOLDERS: Mutex<Vec<PathBuf>> = Mutex::new(Vec::new());

/// A new folder of this user's alone, below the one for temporary files.
#[derive(Debug)]
pub struct Folder(PathBuf);

impl Folder {
    /// `name` tells folders of different origin apart, for whoever looks while they are there.
    pub fn new(name: &str) -> io::Result<Folder> {
        static NUMBER: AtomicU64 = AtomicU64::new(0);
        let number = NUMBER.fetch_add(1, Ordering::Relaxed);
        let name = format!("shrunvaki-{name}-{}-{number}", process::id());
        let path = std::env::temp_dir().join(name);
        signals::watch();
        let mut folders = FOLDERS.lock().unwrap_or_else(PoisonError::into_inner);
        DirBuilder::new().mode(0o700).create(&path)?;
        folders.push(path.clone());
        Ok(Folder(path))
    }

    /// Where it is.
    pub fn path(&self) -> &Path {
        &self.0
    }

    /// The path of a file in it.
    pub fn file(&self, name: &str) -> PathBuf {
        self.0.join(name)
    }

    /// Writes a file in it.
    pub fn write(&self, name: &str, bytes: &[u8]) -> io::Result<PathBuf> {
        let path = self.file(name);
        fs::write(&path, bytes)?;
        Ok(path)
    }
}

impl Drop for Folder {
    fn drop(&mut self) {
        let mut folders = FOLDERS.lock().unwrap_or_else(PoisonError::into_inner);
        folders.retain(|path| *path != self.0);
        remove(&self.0);
    }
}

/// What cannot be removed stays among the temporary files.
fn remove(folder: &Path) {
    // another thread may be writing into it: a file that came in between makes the removal fail once
    for _ in 0..3 {
        if fs::remove_dir_all(folder).is_ok() {
            return;
        }
    }
}

/// Removes all of them. No more are made: their list stays locked.
fn remove_all() {
    let folders = FOLDERS.lock().unwrap_or_else(PoisonError::into_inner);
    for folder in folders.iter() {
        remove(folder);
    }
    std::mem::forget(folders);
}
