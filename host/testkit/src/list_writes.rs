//! The program `list_writes`, which prints what a file's log would write.
use crate::command::end;
use std::fs::{self, File};
use std::path::{Path, PathBuf};
use std::process::Command;
use std::sync::OnceLock;

/// Where it is. Has rt prove and link it first, which takes a moment where nothing changed.
pub fn list_writes() -> &'static Path {
    static PROGRAM: OnceLock<PathBuf> = OnceLock::new();
    PROGRAM.get_or_init(|| {
        let root = Path::new(env!("CARGO_MANIFEST_DIR")).join("../..");
        let root = root.canonicalize().expect("the repository's top");
        // the lock of the builds that have rt make the library's archives: one at a time writes what is proved
        let folder = root.join("target/staticlib");
        fs::create_dir_all(&folder).expect("a folder in target");
        let lock = File::create(folder.join(".lock")).expect("a file in target");
        lock.lock().expect("a lock");
        // rt has no command that makes a program and does not run it: without a name this one ends at once
        let crate_folder = root.join("crates/list_writes");
        let mut make = Command::new("rt");
        make.arg("run").current_dir(&crate_folder);
        end(&mut make).with(0);
        crate_folder.join("out/list_writes")
    })
}
