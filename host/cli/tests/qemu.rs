//! VHDX files that qemu makes on the spot: disks of many shapes, and what a qemu-io leaves that is killed at any of its writes.
//! Skipped where qemu's programs are missing, which a line on standard error says: `install-tools` installs them.
mod common;

use common::{assert_applied, assert_closed, assert_contents, assert_refused, assert_same_files};
use common::{copy, shrunvaki, Answer};
use shrunvaki_testkit::command::{compile_library, end, folder, run, Folder, Ran};
use shrunvaki_testkit::json::Json;
use shrunvaki_testkit::random::Random;
use std::fs;
use std::io::{self, Read, Write};
use std::path::{Path, PathBuf};
use std::process::{Command, Stdio};

const MIB: u64 = 1 << 20;
const SECTOR: u64 = 512;

/// Whether programs are there. Says so if one is not.
fn available(test: &str, programs: &[&str]) -> bool {
    let missing = programs.iter().find(|program| {
        let version = Command::new(program)
            .arg("--version")
            .stdout(Stdio::null())
            .status();
        version.is_err()
    });
    if let Some(program) = missing {
        skipped(test, &format!("{program} is not here"));
    }
    missing.is_none()
}

/// Says that a test is skipped, past the harness, which shows no output of tests that pass.
fn skipped(test: &str, why: &str) {
    let _ = writeln!(io::stderr(), "skipped: {test}: {why}");
}

/// Runs `qemu-img` on files, which come behind the arguments.
fn qemu_img(arguments: &[&str], files: &[&Path]) -> Ran {
    end(Command::new("qemu-img").args(arguments).args(files))
}

/// A disk as qemu is to make it.
#[derive(Debug, Clone, Copy)]
struct Shape {
    fixed: bool,
    block_mib: u64,
    /// Whether blocks begin in the state that says zero, as is qemu's default, or not present (dynamic) or present (fixed).
    zero_state: bool,
    size: u64,
}

impl Shape {
    fn create(self, file: &Path) {
        let options = format!(
            "subformat={},block_size={}M,log_size=1M,block_state_zero={}",
            if self.fixed { "fixed" } else { "dynamic" },
            self.block_mib,
            if self.zero_state { "on" } else { "off" },
        );
        let mut create = Command::new("qemu-img");
        create.args(["create", "-q", "-f", "vhdx", "-o", &options]);
        end(create.arg(file).arg(self.size.to_string())).with(0);
    }
}

/// A write of qemu-io's.
#[derive(Debug, Clone, Copy)]
struct Access {
    kind: Kind,
    offset: u64,
    length: u64,
}

#[derive(Debug, Clone, Copy)]
enum Kind {
    Pattern(u8),
    Zero,
    /// Which qemu ignores for this format; it has to go on meaning nothing.
    Discard,
}

impl Access {
    fn pattern(pattern: u8, offset: u64, length: u64) -> Access {
        let kind = Kind::Pattern(pattern);
        Access {
            kind,
            offset,
            length,
        }
    }

    fn command(self) -> String {
        let Access { offset, length, .. } = self;
        match self.kind {
            Kind::Pattern(byte) => format!("write -P {byte} {offset} {length}"),
            Kind::Zero => format!("write -z {offset} {length}"),
            Kind::Discard => format!("discard {offset} {length}"),
        }
    }
}

/// One qemu-io process that does all of it. Nothing is flushed: no test here ends the machine.
fn qemu_io(accesses: &[Access], file: &Path) -> Command {
    let mut command = Command::new("qemu-io");
    command.args(["-f", "vhdx", "-t", "unsafe"]);
    for access in accesses {
        command.args(["-c", &access.command()]);
    }
    command.arg(file);
    command
}

fn convert(file: &Path, raw: &Path) -> Ran {
    qemu_img(&["convert", "-f", "vhdx", "-O", "raw"], &[file, raw])
}

// ---- disks of many shapes

/// The first and the last sector, across the ends of blocks, and random places.
fn accesses(shape: Shape, random: &mut Random) -> Vec<Access> {
    let block = shape.block_mib * MIB;
    let mut all = vec![
        Access::pattern(0x11, 0, SECTOR),
        Access::pattern(0x22, shape.size - SECTOR, SECTOR),
    ];
    for end in (block..shape.size).step_by(block as usize).take(3) {
        let before = random.below(8) * SECTOR;
        let after = SECTOR.min(shape.size - end);
        let pattern = random.number() as u8;
        all.push(Access::pattern(pattern, end - before, before + after));
    }
    for _ in 0..10 {
        let offset = random.below(shape.size / SECTOR) * SECTOR;
        let length = (1 + random.below(200)) * SECTOR;
        all.push(Access {
            kind: match random.below(6) {
                0 => Kind::Zero,
                1 => Kind::Discard,
                _ => Kind::Pattern(random.number() as u8),
            },
            offset,
            length: length.min(shape.size - offset),
        });
    }
    all
}

/// Makes a disk, writes to it, and compares its size and all of its sectors with what qemu says.
fn compare(folder: &Folder, shape: Shape, random: &mut Random) {
    let (file, raw) = (folder.file("disk.vhdx"), folder.file("disk.raw"));
    shape.create(&file);
    let accesses = accesses(shape, random);
    end(&mut qemu_io(&accesses, &file)).with(0);
    convert(&file, &raw).with(0);

    let answer = Answer::of(&file);
    assert_eq!(answer.refusal(), None, "{shape:?}");
    let info = qemu_img(&["info", "--output=json"], &[&file]).with(0);
    let info = Json::parse(&info.text());
    let size = answer.0.number("facts.disk_size");
    assert_eq!(size, info.number("virtual-size"), "{shape:?}");
    assert_eq!(size, shape.size, "{shape:?}");
    assert_eq!(answer.0.number("facts.block_size"), shape.block_mib * MIB);
    assert_contents(&file, &raw);
    for path in [file, raw] {
        fs::remove_file(path).expect("removed");
    }
}

#[test]
fn disks_of_many_shapes_hold_what_qemu_reads() {
    if !available("disks of many shapes", &["qemu-img", "qemu-io"]) {
        return;
    }
    let folder = folder("qemu-shapes");
    let mut random = Random::new(20_261_116);
    for block_mib in [1, 2, 8, 32, 256] {
        let block = block_mib * MIB;
        // the last block is filled in part
        let odd = block + block / 2 + 3 * SECTOR;
        for (fixed, zero_state, size) in [
            (false, true, 2 * block),
            (false, false, odd),
            (true, true, odd),
            // not an odd one: qemu would leave out the end of the last block, for which samples.rs has a file
            (true, false, block),
        ] {
            let shape = Shape {
                fixed,
                block_mib,
                zero_state,
                size,
            };
            compare(&folder, shape, &mut random);
        }
    }
    // more blocks than one sector of the BAT has entries
    let many = Shape {
        fixed: false,
        block_mib: 1,
        zero_state: true,
        size: 700 * MIB,
    };
    compare(&folder, many, &mut random);
}

// ---- a writer that is killed

/// qemu-io with the library that kills it.
struct Killer {
    library: PathBuf,
}

impl Killer {
    fn compile(folder: &Folder) -> Killer {
        let source = Path::new(env!("CARGO_MANIFEST_DIR")).join("tests/preload/writes.c");
        Killer {
            library: compile_library(folder, &source),
        }
    }

    /// Kills it at its n-th write, of which so many bytes are still written. Answers whether there were so many.
    fn write(&self, n: u32, keeping: u32, accesses: &[Access], file: &Path) -> bool {
        let ran = end(qemu_io(accesses, file)
            .env("LD_PRELOAD", &self.library)
            .env("KILL_AT_WRITE", n.to_string())
            .env("KILL_KEEPING", keeping.to_string()));
        assert!(matches!(ran.status, None | Some(0)), "{ran:?}");
        ran.status.is_none()
    }
}

/// What became of a file.
#[derive(Debug, PartialEq, Eq, Clone, Copy)]
enum State {
    /// Nothing is pending.
    Clean,
    /// The log has sectors to write.
    Pending,
    /// The header names a log without a sequence.
    NoSequence,
}

/// Closes the log of a file that qemu does not open to read alone. Asserts that it does then, finds nothing to repair and reads what
/// it reads after its own replay, that it can write to the disk, and that the file is a good one here too.
fn assert_qemu_goes_on(folder: &Folder, file: &Path, repaired: &Path, raw: &Path) {
    let check = |file: &Path| qemu_img(&["check", "-f", "vhdx"], &[file]);
    assert_ne!(check(file).status, Some(0), "qemu sees no pending log");
    let closed = assert_closed(folder, file, repaired);
    let (before, reread) = (folder.file("closed-before"), folder.file("closed.raw"));
    copy(&closed, &before);
    let checked = check(&closed).with(0).text();
    assert!(checked.contains("No errors were found"), "{checked}");
    qemu_img(&["info", "-f", "vhdx"], &[&closed]).with(0);
    convert(&closed, &reread).with(0);
    assert_same_files(&[], &reread, raw);
    assert_same_files(&[], &closed, &before);

    // a block that is not there yet, so that qemu writes to the log again
    let size = Answer::of(&closed).0.number("facts.disk_size");
    let (pattern, offset, length) = (0x5a, size - 64 * SECTOR, 32 * SECTOR);
    end(&mut qemu_io(
        &[Access::pattern(pattern, offset, length)],
        &closed,
    ))
    .with(0);
    let mut read = Command::new("qemu-io");
    read.args(["-r", "-f", "vhdx", "-c"]);
    read.arg(format!("read -P {pattern} {offset} {length}"));
    let read = end(read.arg(&closed)).with(0).text();
    assert!(!read.contains("verification failed"), "{read}");
    check(&closed).with(0);
    convert(&closed, &reread).with(0);
    assert_eq!(Answer::of(&closed).0.text("log"), "none");
    assert_contents(&closed, &reread);
}

/// Judges a file that a killed qemu-io left: it is refused as 5, or its log is applied as qemu applies it, and qemu goes on with the
/// file once it is closed. What qemu reads then goes to `raw`.
fn judge(folder: &Folder, file: &Path, raw: &Path) -> State {
    let repaired = folder.file("repaired.vhdx");
    copy(file, &repaired);
    let check = qemu_img(&["check", "-f", "vhdx", "-r", "all"], &[&repaired]).with(0);
    convert(&repaired, raw).with(0);
    let answer = Answer::of(file);
    match answer.refusal() {
        None => {
            assert_applied(folder, file, &repaired);
            assert_contents(file, raw);
            let pending = answer.0.number("sectors") > 0;
            // qemu has a log to apply exactly where ours has
            assert_eq!(check.text().contains("repaired"), pending, "{check:?}");
            if pending {
                assert_qemu_goes_on(folder, file, &repaired, raw);
                State::Pending
            } else {
                State::Clean
            }
        }
        Some(number) => {
            assert_eq!(number, 5);
            assert_refused(folder, file, 5);
            // qemu takes the log for empty and reads on; its copy of the disk is what an owner can bring instead
            let copy = folder.file("converted.vhdx");
            assert_same_files(&[], &repaired, file);
            qemu_img(&["convert", "-f", "vhdx", "-O", "vhdx"], &[file, &copy]).with(0);
            assert_contents(&copy, raw);
            State::NoSequence
        }
    }
}

#[test]
fn what_a_killed_writer_leaves() {
    if !available("a killed writer", &["qemu-img", "qemu-io", "cc"]) {
        return;
    }
    let folder = folder("qemu-killed");
    let killer = Killer::compile(&folder);
    let (base, file, raw) = (
        folder.file("base.vhdx"),
        folder.file("killed.vhdx"),
        folder.file("killed.raw"),
    );
    let shape = Shape {
        fixed: false,
        block_mib: 1,
        zero_state: true,
        size: 12 * MIB,
    };
    shape.create(&base);
    let earlier = [
        Access::pattern(0x11, 0, SECTOR),
        Access::pattern(0x22, 3 * MIB, 64 << 10),
    ];
    end(&mut qemu_io(&earlier, &base)).with(0);

    // two blocks that are not there yet: the log says where they are
    let accesses = [
        Access::pattern(0x33, 5 * MIB, 64 << 10),
        Access::pattern(0x44, 10 * MIB, 4 << 10),
    ];
    // the contents after none, one and both of the writes
    let contents: Vec<Vec<u8>> = (0..=accesses.len())
        .map(|done| {
            copy(&base, &file);
            end(&mut qemu_io(&accesses[..done], &file)).with(0);
            convert(&file, &raw).with(0);
            fs::read(&raw).expect("the contents")
        })
        .collect();

    let mut states = Vec::new();
    // of the write at which it is killed: nothing, a part of a header, of a sector
    for keeping in [0, 20, 81, 512] {
        for n in 1.. {
            copy(&base, &file);
            if !killer.write(n, keeping, &accesses, &file) {
                break;
            }
            states.push(judge(&folder, &file, &raw));
            let read = fs::read(&raw).expect("the contents");
            assert!(contents.contains(&read), "write {n}, {keeping} bytes");
        }
    }
    let count = |state| states.iter().filter(|s| **s == state).count();
    let (pending, refused) = (count(State::Pending), count(State::NoSequence));
    println!(
        "{} states: {pending} pending, {refused} refused as 5",
        states.len()
    );
    assert!(pending >= 8, "{states:?}");
    assert!(refused >= 8, "{states:?}");
    assert!(count(State::Clean) >= 8, "{states:?}");
}

#[test]
fn a_log_that_has_gone_round_its_ring() {
    if !available("a log gone round", &["qemu-img", "qemu-io", "cc"]) {
        return;
    }
    if !run("qemu-img", &["--version"])
        .text()
        .contains("version 7.2")
    {
        skipped(
            "a log gone round",
            "the writes are counted as qemu 7.2 does them",
        );
        return;
    }
    let folder = folder("qemu-ring");
    let killer = Killer::compile(&folder);
    let shape = Shape {
        fixed: false,
        block_mib: 1,
        zero_state: true,
        size: 140 * MIB,
    };
    // an entry is two sectors of the ring's 256, one for each new block
    let accesses: Vec<Access> = (0..132)
        .map(|block| Access::pattern(block as u8 + 1, block * MIB, SECTOR))
        .collect();
    let (file, raw) = (folder.file("ring.vhdx"), folder.file("ring.raw"));
    let mut pending = 0;
    // eight writes a block and two more at the start: among these are all with which the ring begins again
    for n in 1028..1036 {
        shape.create(&file);
        assert!(killer.write(n, 0, &accesses, &file), "write {n}");
        let state = judge(&folder, &file, &raw);
        pending += u32::from(state == State::Pending);
        fs::remove_file(&file).expect("removed");
    }
    assert!(pending >= 2, "{pending} states with a pending log");
}

// ---- a writer that runs

#[test]
fn a_file_that_qemu_has_open_for_writing_is_warned_of() {
    if !available(
        "a_file_that_qemu_has_open_for_writing",
        &["qemu-img", "qemu-io"],
    ) {
        return;
    }
    let folder = folder("qemu-open");
    let file = folder.file("disk.vhdx");
    qemu_img(&["create", "-q", "-f", "vhdx"], &[&file, Path::new("8M")]).with(0);
    for (mode, warned) in [("--read-only", false), ("--cache=writeback", true)] {
        let mut qemu = Command::new("qemu-io")
            .args([mode, "-f", "vhdx"])
            .arg(&file)
            .stdin(Stdio::piped())
            .stdout(Stdio::piped())
            .spawn()
            .expect("qemu-io");
        // its prompt: it has the file open
        let mut prompt = [0; 8];
        let output = qemu.stdout.as_mut().expect("its output");
        output.read_exact(&mut prompt).expect("its prompt");
        let ran = shrunvaki(&["attach", "--apply"], &file).with(0);
        let told = ran.errors.contains("has it open for writing");
        assert_eq!(told, warned, "{ran:?}");
        drop(qemu.stdin.take());
        qemu.wait().expect("its end");
    }
}
