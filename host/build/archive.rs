//! Has `rt lib` prove a crate of the library and write its archive, where that was not done for the very files that are there now:
//! in the repository, or in cargo's own folder where the repository cannot be written.
use std::collections::{BTreeMap, BTreeSet};
use std::env;
use std::ffi::OsStr;
use std::fs::{self, File};
use std::hash::{DefaultHasher, Hash, Hasher};
use std::io::{self, BufRead, BufReader};
use std::path::{Path, PathBuf};
use std::process::{Command, Stdio};
use std::thread;

/// Links `libNAME.a`. `root`: from the package to the repository's top.
pub fn link(name: &str, root: &str) {
    let root = Path::new(env!("CARGO_MANIFEST_DIR")).join(root);
    let root = root.canonicalize().expect("the repository's top");
    let folder = PathBuf::from(env::var_os("OUT_DIR").expect("cargo's folder"));
    let archive = build(name, &root, &folder.join("library"));
    // a copy of cargo's own, which no other build writes
    fs::write(folder.join(format!("lib{name}.a")), archive).expect("a copy of the archive");
    println!("cargo:rustc-link-search=native={}", folder.display());
    println!("cargo:rustc-link-lib=static={name}");
}

/// The archive's bytes. Where it was made from the files that are there now, nothing is written.
fn build(name: &str, root: &Path, own: &Path) -> Vec<u8> {
    let crates = reached(name, root);
    for path in sources(&crates, root) {
        println!("cargo:rerun-if-changed={}", path.display());
    }
    let files = files(&crates, root);
    let fingerprint = fingerprint(&files, root);
    if let Some(archive) = made(name, root, &fingerprint) {
        return archive;
    }
    let (root, _lock) = match lock(root) {
        Ok(lock) => (root, lock),
        Err(error) => {
            println!(
                "cargo:warning=the library is proved in cargo's folder, not in {root:?}: {error}"
            );
            copy(&files, &crates, root, own);
            (own, lock(own).expect("a file in cargo's folder"))
        }
    };
    // whoever had the lock may have made it
    made(name, root, &fingerprint).unwrap_or_else(|| make(name, root, &crates, &fingerprint))
}

/// One build at a time writes in a folder: two that prove the same crates would write the same files.
fn lock(root: &Path) -> io::Result<File> {
    let folder = root.join("target/staticlib");
    fs::create_dir_all(&folder)?;
    let lock = File::create(folder.join(".lock"))?;
    lock.lock()?;
    Ok(lock)
}

/// Where the archive is kept, since `rt ci` removes the one that rt wrote, and the file that says what it was made from.
fn places(name: &str, root: &Path) -> [PathBuf; 2] {
    ["a", "made-from"].map(|end| root.join(format!("target/staticlib/lib{name}.{end}")))
}

/// The archive's own bytes count too: a build that was killed may have written one without the other.
fn stamp(fingerprint: &str, archive: &[u8]) -> String {
    let mut hasher = DefaultHasher::new();
    archive.hash(&mut hasher);
    format!("{fingerprint} {:016x}\n", hasher.finish())
}

/// The archive, where it was made from files with this fingerprint.
fn made(name: &str, root: &Path, fingerprint: &str) -> Option<Vec<u8>> {
    let [archive, made_from] = places(name, root);
    let archive = fs::read(archive).ok()?;
    let same = fs::read_to_string(made_from).ok()? == stamp(fingerprint, &archive);
    same.then_some(archive)
}

fn make(name: &str, root: &Path, crates: &BTreeSet<String>, fingerprint: &str) -> Vec<u8> {
    prove_below(root, crates);
    let folder = root.join("crates").join(name);
    let done = Command::new("rt").arg("lib").current_dir(&folder).status();
    match done {
        Ok(status) if status.success() => {}
        Ok(status) => panic!("rt lib in crates/{name} ended with {status}"),
        Err(error) => {
            panic!("rt lib: {error}. The Rattle toolchain's command rt has to be on the PATH")
        }
    }
    let archive = fs::read(folder.join(format!("out/lib{name}.a"))).expect("the archive");
    let [kept, made_from] = places(name, root);
    fs::write(kept, &archive).expect("a file in target/staticlib");
    fs::write(made_from, stamp(fingerprint, &archive)).expect("a file in target/staticlib");
    archive
}

/// Proves what there is several crates at a time, where `rt lib` goes through those that it needs one after the other. A line a
/// crate reaches whoever runs cargo with -vv. Nothing rests on it: what is not proved then, `rt lib` proves, or says why not.
fn prove_below(root: &Path, crates: &BTreeSet<String>) {
    let mut check = Command::new("rt");
    check.args(["all", "check"]).args(jobs()).current_dir(root);
    let Ok(mut running) = check.stdout(Stdio::piped()).spawn() else {
        return;
    };
    let mut crate_named = String::new();
    let mut proved = BTreeSet::new();
    for line in BufReader::new(running.stdout.take().expect("a pipe")).lines() {
        let Ok(line) = line else { break };
        if let Some(name) = line.strip_prefix("== ") {
            crate_named = name.to_string();
        } else if line.starts_with("logic=proved") && crates.contains(&crate_named) {
            proved.insert(crate_named.clone());
            let (count, all) = (proved.len(), crates.len());
            println!("rt: {crate_named} proved ({count} of {all})");
        }
    }
    // its status may be that of a crate that the archive does not need
    let _ = running.wait();
}

/// How many crates are checked at a time where it is more than the two that rt takes by itself: one a processor, with 4 GiB each.
fn jobs() -> Vec<String> {
    let cores = thread::available_parallelism().map_or(1, usize::from);
    let memory = fs::read_to_string("/proc/meminfo").unwrap_or_default();
    let free = memory
        .lines()
        .find_map(|line| line.strip_prefix("MemAvailable:"))
        .and_then(|rest| rest.split_whitespace().next()?.parse::<usize>().ok())
        .unwrap_or(0);
    let jobs = cores.min(free >> 22);
    match jobs > 2 {
        true => vec!["--jobs".to_string(), jobs.to_string()],
        false => Vec::new(),
    }
}

/// The crate and all that it uses, by crates.txt.
fn reached(name: &str, root: &Path) -> BTreeSet<String> {
    let list = fs::read_to_string(root.join("crates.txt")).expect("crates.txt");
    let uses: BTreeMap<&str, Vec<&str>> = list
        .lines()
        .filter_map(|line| {
            let uses = line.split_once(':').map_or("", |(_, uses)| uses);
            Some((named(line)?, uses.split_whitespace().collect()))
        })
        .collect();
    let mut found = BTreeSet::new();
    let mut next = vec![name];
    while let Some(name) = next.pop() {
        // what crates.txt does not list is the toolchain's own
        if let (Some(more), true) = (uses.get(name), !found.contains(name)) {
            found.insert(name.to_string());
            next.extend(more);
        }
    }
    found
}

/// The crate of which a line of crates.txt speaks; behind its name there may be words such as `staticlib`.
fn named(line: &str) -> Option<&str> {
    let head = line.split(['#', ':']).next()?;
    head.split_whitespace().next()
}

/// All that decides what the archive holds, but the toolchain: the folders of code, definitions and proofs, and crates.txt.
fn sources(crates: &BTreeSet<String>, root: &Path) -> Vec<PathBuf> {
    let mut paths = vec![root.join("crates.txt")];
    for name in crates {
        let parts =
            ["src", "specs", "proofs"].map(|part| root.join("crates").join(name).join(part));
        paths.extend(parts.into_iter().filter(|path| path.exists()));
    }
    paths
}

/// The files of these, which are all that rt reads.
fn files(crates: &BTreeSet<String>, root: &Path) -> Vec<PathBuf> {
    let mut files = Vec::new();
    let mut next = sources(crates, root);
    while let Some(path) = next.pop() {
        let end = path.extension().and_then(OsStr::to_str);
        if path.is_dir() {
            let inside = fs::read_dir(&path).expect("a folder of a crate");
            next.extend(inside.map(|entry| entry.expect("an entry").path()));
        } else if matches!(end, Some("rt" | "antt")) || path.ends_with("crates.txt") {
            files.push(path);
        }
    }
    files.sort();
    files
}

/// A number that differs where a file or the toolchain does.
fn fingerprint(files: &[PathBuf], root: &Path) -> String {
    let mut hasher = DefaultHasher::new();
    let version = Command::new("rt").arg("version").output();
    version
        .map(|output| output.stdout)
        .unwrap_or_default()
        .hash(&mut hasher);
    for path in files {
        below(path, root).hash(&mut hasher);
        fs::read(path).expect("a source").hash(&mut hasher);
    }
    format!("{:016x}", hasher.finish())
}

/// Copies files to the same places below another root, where no others of the library are then. In its crates.txt are only the
/// crates that are there.
fn copy(files: &[PathBuf], crates: &BTreeSet<String>, root: &Path, own: &Path) {
    let _ = fs::remove_dir_all(own.join("crates"));
    for path in files {
        let to = own.join(below(path, root));
        fs::create_dir_all(to.parent().expect("a folder")).expect("a folder in cargo's folder");
        // not its permissions, which may keep the next copy from being written
        let bytes = fs::read(path).expect("a source");
        fs::write(to, bytes).expect("a file in cargo's folder");
    }
    let list = fs::read_to_string(root.join("crates.txt")).expect("crates.txt");
    let lines: Vec<&str> = list
        .lines()
        .filter(|line| named(line).is_some_and(|name| crates.contains(name)))
        .collect();
    fs::write(own.join("crates.txt"), lines.join("\n") + "\n").expect("a file in cargo's folder");
}

fn below<'a>(path: &'a Path, root: &Path) -> &'a Path {
    path.strip_prefix(root).expect("below the top")
}
