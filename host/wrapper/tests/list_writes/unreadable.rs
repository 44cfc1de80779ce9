//! What cannot be read.
use crate::listing::{listed, printed};
use shrunvaki_testkit::command::{end, folder, Folder};
use shrunvaki_testkit::list_writes::list_writes;
use shrunvaki_testkit::pending::r1;
use std::fs::{self, Permissions};
use std::os::unix::fs::{symlink, MetadataExt, PermissionsExt};
use std::os::unix::process::CommandExt;
use std::path::Path;
use std::process::{Command, Stdio};

const UNREADABLE: &str = "unreadable\n";

#[test]
fn no_name() {
    assert_eq!(printed(&mut Command::new(list_writes())), UNREADABLE);
    assert_eq!(listed(&[""]), UNREADABLE);
}

#[test]
fn nothing_there() {
    let folder = folder("list-writes-missing");
    let (file, link) = (folder.file("file"), folder.file("link"));
    fs::write(&file, [0; 9]).expect("a file");
    symlink("missing", &link).expect("a link");
    for path in [
        folder.file("missing"),
        folder.file("missing/disk.vhdx"),
        file.join("disk.vhdx"),
        link,
    ] {
        assert_eq!(listed(&[&path]), UNREADABLE, "{}", path.display());
    }
}

/// A folder has a length on some file systems, even a great one.
#[test]
fn folders() {
    let folder = folder("list-writes-folders");
    fs::create_dir(folder.file("inside")).expect("a folder");
    let others = ["/", ".", "/proc", "/sys", "/dev/shm"].map(Path::new);
    let here = others.into_iter().filter(|path| path.exists());
    for path in here.chain([folder.path(), &folder.file("inside")]) {
        assert_eq!(listed(&[path]), UNREADABLE, "{}", path.display());
    }
}

#[test]
fn pipes() {
    let mut program = Command::new(list_writes());
    program.arg("/dev/stdin").stdin(Stdio::piped());
    assert_eq!(printed(&mut program), UNREADABLE);
}

fn allow(path: &Path, mode: u32) {
    fs::set_permissions(path, Permissions::from_mode(mode)).expect("rights");
}

/// The program, run by somebody whom rights mean something to: root may read everything.
fn without_rights(folder: &Folder, path: &Path) -> String {
    let mut program = Command::new(folder.file("list_writes"));
    if fs::metadata(folder.path()).expect("the folder").uid() == 0 {
        program.uid(65534).gid(65534);
    }
    printed(program.arg(path))
}

#[test]
fn rights() {
    let folder = folder("list-writes-rights");
    allow(folder.path(), 0o755);
    // where everybody finds it; by another process, since a file that this one has open to be written cannot be run
    let mut copy = Command::new("cp");
    end(copy.arg(list_writes()).arg(folder.path())).with(0);
    let inside = folder.file("inside");
    fs::create_dir(&inside).expect("a folder");
    let image = r1().image;
    let path = inside.join("disk.vhdx");
    fs::write(&path, &image.buffer[..image.length as usize]).expect("a file");
    for (of_folder, of_file, expected) in [
        (0o755, 0o444, "3145728 Z\n3149824 Z\n"),
        (0o755, 0o000, UNREADABLE),
        (0o755, 0o222, UNREADABLE),
        (0o000, 0o444, UNREADABLE),
    ] {
        allow(&path, of_file);
        allow(&inside, of_folder);
        let printed = without_rights(&folder, &path);
        allow(&inside, 0o755);
        assert_eq!(printed, expected, "{of_folder:o}, {of_file:o}");
    }
}
