//! The first argument names the file, whatever text it is; others mean nothing.
use crate::listing::{listed, printed};
use shrunvaki_testkit::command::{folder, Folder};
use shrunvaki_testkit::list_writes::list_writes;
use shrunvaki_testkit::pending::r1;
use std::ffi::OsStr;
use std::fs;
use std::os::unix::ffi::OsStrExt;
use std::os::unix::fs::symlink;
use std::path::{Path, PathBuf};
use std::process::Command;

const R1: &str = "3145728 Z\n3149824 Z\n";

fn write_r1(path: &Path) {
    let image = r1().image;
    let bytes = &image.buffer[..image.length as usize];
    fs::write(path, bytes).expect("a file");
}

#[test]
fn names_of_any_bytes() {
    let folder = folder("list-writes-names");
    // the paths of Rattle's standard library are UTF-8: it opens no file of another name
    let names: [(&[u8], &str); 6] = [
        (b"two words", R1),
        (b"-x", R1),
        (b"a\nb", R1),
        (b"\xff\xfe", "unreadable\n"),
        (b"\x01%s\\", R1),
        (&[b'n'; 255], R1),
    ];
    for (name, lines) in names {
        let name = OsStr::from_bytes(name);
        let path = folder.path().join(name);
        write_r1(&path);
        assert_eq!(listed(&[path]), lines, "{name:?}");
        let mut from_there = Command::new(list_writes());
        from_there.arg(name).current_dir(folder.path());
        assert_eq!(printed(&mut from_there), lines, "{name:?} from its folder");
    }
}

#[test]
fn links_and_further_words() {
    let folder = folder("list-writes-links");
    let (file, link) = (folder.file("disk.vhdx"), folder.file("link"));
    write_r1(&file);
    symlink(&file, &link).expect("a link");
    assert_eq!(listed(&[&link]), R1);
    assert_eq!(listed(&[&file, &link, Path::new("missing")]), R1);
    assert_eq!(listed(&[Path::new("missing"), &file]), "unreadable\n");
}

/// A path of so many bytes, with folders on its way where one name cannot be so long.
fn path_of(folder: &Folder, length: usize) -> PathBuf {
    let mut path = folder.path().to_path_buf();
    let left = |path: &PathBuf| length - path.as_os_str().len() - 1;
    while left(&path) > 255 {
        path.push("n".repeat(200));
    }
    path.push("n".repeat(left(&path)));
    path
}

/// The kernel takes names of up to 4,095 bytes.
#[test]
fn the_longest_names() {
    let folder = folder("list-writes-long-names");
    for length in [255, 256, 1000, 1023, 1024, 4000, 4094, 4095] {
        let path = path_of(&folder, length);
        assert_eq!(path.as_os_str().len(), length);
        fs::create_dir_all(path.parent().expect("a folder")).expect("folders");
        write_r1(&path);
        assert_eq!(listed(&[&path]), R1, "{length} bytes");
        fs::remove_file(&path).expect("removed");
    }
    for length in [4096, 4097, 65536, 100_000] {
        let path = "n/".repeat(length / 2);
        assert_eq!(listed(&[&path]), "unreadable\n", "{length} bytes");
    }
}
