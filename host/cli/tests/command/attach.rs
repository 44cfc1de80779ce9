//! `attach`: what is printed of a file, and of one that is refused.
use crate::sample::{bytes, child, disk_with, shrunvaki, Sample};
use shrunvaki::vhdx::Refusal;
use shrunvaki_testkit::image::MIB;
use shrunvaki_testkit::json::Json;
use shrunvaki_testkit::pending::{r1, small_blocks};
use shrunvaki_testkit::tables::DISK_SIZE;
use std::fs::File;

#[track_caller]
fn assert_lines(text: &str, lines: &[&str]) {
    for line in lines {
        assert!(text.lines().any(|l| l == *line), "{line}\n{text}");
    }
}

#[test]
fn what_people_come_for_and_the_file_is_not_changed() {
    let sample = Sample::pending();
    let text = sample.run("attach", &[]).with(0).text();
    let first: Vec<&str> = text.lines().skip(1).take(4).collect();
    assert_eq!(
        first,
        [
            "size to charge: 64 MiB (67,108,864 bytes)",
            "kind: fixed or dynamic",
            "log: pending, 258 sectors to write; the file grows to 5 MiB (5,242,880 bytes)",
            "length of the file: 4 MiB (4,194,304 bytes)",
        ]
    );
    assert_lines(
        &text,
        &[
            "capacity: 1.00 GiB (1,077,936,128 bytes)",
            "logical sector size: 512 bytes",
            "physical sector size: 4 KiB (4,096 bytes)",
            "block size: 1 MiB (1,048,576 bytes)",
            "disk identifier: 33323130-3534-3736-3839-616263646566",
            "block allocation table: 1 MiB (1,048,576 bytes), from byte 3,145,728 on",
        ],
    );
    sample.assert_unchanged();
}

#[test]
fn disks_without_a_log_and_with_a_parent() {
    let text = disk_with(&small_blocks().0, &[], 4 * MIB).run("attach", &[]);
    assert_lines(
        &text.with(0).text(),
        &["kind: fixed or dynamic", "log: none"],
    );
    let sample = disk_with(&child(), &[], 4 * MIB);
    let text = sample.run("attach", &[]).with(0).text();
    assert_lines(&text, &["kind: differencing", "log: none"]);
    assert!(text.contains("\nparent locator: "), "{text}");
    let json = sample.json("attach", &[], 0);
    json.assert_has(&[("kind", "\"differencing"), ("log", "\"none")]);
    assert!(json.number("facts.locator.length") >= 20);
}

#[test]
fn what_the_host_has_allocated() {
    let sample = disk_with(&small_blocks().0, &[], 4 * MIB);
    let file = File::options().write(true).open(&sample.path);
    file.expect("the file").set_len(1 << 30).expect("a hole");
    let json = sample.json("attach", &[], 0);
    assert_eq!(json.number("length"), 1 << 30);
    assert!(json.number("allocated") <= 8 << 20, "{json:?}");
    let text = sample.run("attach", &[]).with(0).text();
    assert_lines(&text, &["length of the file: 1 GiB (1,073,741,824 bytes)"]);
    assert!(text.contains("\nallocated on the host: "), "{text}");
}

#[test]
fn attach_as_json() {
    let sample = Sample::pending();
    let json = sample.json("attach", &["--capacity", "5M"], 0);
    let file = format!("\"{}", sample.path);
    json.assert_has(&[
        ("file", &file),
        ("size_to_charge", "67108864"),
        ("kind", "\"fixed or dynamic"),
        ("log", "\"pending"),
        ("given_length", "4194304"),
        ("capacity", "5242880"),
        ("length", "5242880"),
        ("sectors", "258"),
        ("locked_by_another", "false"),
        ("refusal", "null"),
        ("facts.disk_size", "67108864"),
        ("facts.logical_sector_size", "512"),
        ("facts.physical_sector_size", "4096"),
        ("facts.block_size", "1048576"),
        ("facts.has_parent", "false"),
        ("facts.disk_id", "\"33323130-3534-3736-3839-616263646566"),
        ("facts.bat.offset", "3145728"),
        ("facts.bat.length", "1048576"),
        ("facts.metadata.offset", "2097152"),
        ("facts.metadata.length", "1048576"),
        ("facts.locator", "null"),
    ]);
}

#[test]
fn the_capacity_decides_8_and_1() {
    let sample = Sample::pending();
    for (capacity, number) in [("5242879", 8), ("4M", 8), ("4194303", 1), ("0", 1)] {
        let ran = sample.run("attach", &["--capacity", capacity]).with(1);
        let refusal = Refusal::new(number).expect("a refusal");
        assert!(
            ran.text().contains(&format!("refused: {refusal}")),
            "{ran:?}"
        );
        assert!(ran.text().contains(refusal.advice()), "{ran:?}");
    }
    // no memory is taken for what is not touched
    sample.run("attach", &["--capacity", "64t"]).with(0);
    let ran = sample.run("attach", &["--capacity", &u64::MAX.to_string()]);
    assert!(ran.with(2).errors.contains("cannot have a buffer of"));
    sample.assert_unchanged();
}

#[test]
fn files_that_are_refused() {
    for (name, bytes, number) in [
        ("empty", vec![], 1),
        ("short", b"vhdxfile".to_vec(), 1),
        ("zeros", vec![0; MIB], 2),
        ("no header", [&b"vhdxfile"[..], &[0; MIB]].concat(), 3),
        ("no tables", bytes(&r1()), 9),
    ] {
        let sample = Sample::new(bytes);
        let words: [(&str, &[&str]); 5] = [
            ("attach", &[]),
            ("lookup", &["0"]),
            ("map", &[]),
            ("parent", &[]),
            ("cat", &[]),
        ];
        for (command, more) in words {
            let text = sample.run(command, more).with(1).text();
            let told = format!("refused: {number}: ");
            assert!(text.contains(&told), "{name}, {command}: {text}");
            let json = sample.json(command, more, 1);
            assert_eq!(json.number("refusal.number"), number, "{name}, {command}");
            assert_eq!(json.get("refusal.looks_like"), "null", "{name}, {command}");
        }
        sample.assert_unchanged();
    }
}

/// The advice of a refused file, the same in text and in JSON.
#[track_caller]
fn advice(sample: &Sample, number: u64) -> String {
    let json = sample.json("attach", &[], 1);
    assert_eq!(json.number("refusal.number"), number);
    let advice = json.text("refusal.advice").to_string();
    let text = sample.run("map", &[]).with(1).text();
    assert!(
        text.ends_with(&format!("\nwhat to do: {advice}\n")),
        "{text}"
    );
    advice
}

#[test]
fn no_advice_has_qemu_follow_what_a_strangers_file_names() {
    // whatever calls qemu-img says which format to take the file for
    let texts = Refusal::all().map(|refusal| refusal.advice().to_string());
    for text in texts {
        for call in text.split("qemu-img convert ").skip(1) {
            assert!(call.starts_with("-f "), "{text}");
        }
    }
    let advice = advice(&Sample::new(vec![0; MIB]), 2);
    for words in [
        "as a user without rights",
        "qemu-img info first",
        "no file that has a backing file or external data",
        "-f FORMAT",
    ] {
        assert!(advice.contains(words), "{advice}");
    }
}

#[test]
fn formats_that_are_told_by_their_signature() {
    let vdi = [&[b' '; 64][..], b"\x7f\x10\xda\xbe"].concat();
    for (name, start, call) in [
        ("qcow2", &b"QFI\xfb\0\0\0\x03"[..], "-f qcow2"),
        ("qcow", b"QFI\xfb\0\0\0\x01", "-f qcow "),
        ("VMDK", b"KDMV", "-f vmdk"),
        ("VMDK", b"# Disk DescriptorFile\n", "-f vmdk"),
        ("VDI", &vdi, "-f vdi"),
        ("VHD", b"conectix", "-f vpc"),
        ("gzip", b"\x1f\x8b\x08", ""),
        ("xz", b"\xfd7zXZ\0", ""),
        ("zip", b"PK\x03\x04", ""),
    ] {
        for (length, number) in [(600, 1), (MIB, 2)] {
            let mut bytes = start.to_vec();
            bytes.resize(length, b'-');
            let sample = Sample::new(bytes);
            let advice = advice(&sample, number);
            assert!(advice.contains(name) && advice.contains(call), "{advice}");
            let converts = !call.is_empty();
            assert_eq!(advice.contains("as a user without rights"), converts);
            assert_eq!(advice.contains("backing file or external data"), converts);
            let json = sample.json("cat", &[], 1);
            assert_eq!(json.text("refusal.looks_like"), name);
        }
    }
    // a fixed VHD has its footer at the end alone
    for length in [512, MIB] {
        let mut bytes = vec![0; length];
        bytes[length - 512..length - 504].copy_from_slice(b"conectix");
        let json = Sample::new(bytes).json("attach", &[], 1);
        assert_eq!(json.text("refusal.looks_like"), "VHD");
    }
    let json = Sample::named("set.VHDS", vec![0; 512]).json("attach", &[], 1);
    assert_eq!(json.text("refusal.looks_like"), "VHD Set");
}

#[test]
fn a_disk_of_size_0_gets_an_advice_that_names_it() {
    let mut disk = small_blocks().0;
    disk.set(DISK_SIZE, &[0; 8]);
    let advice = advice(&disk_with(&disk, &[], 4 * MIB), 14);
    assert!(advice.contains("A disk size of 0 (qemu makes such files)"));
}

#[test]
fn the_advice_of_5_says_that_qemu_refuses_some_too() {
    let advice = Refusal::new(5).expect("5").advice();
    for words in ["makes a good file of most", "qemu refuses that too"] {
        assert!(advice.contains(words), "{advice}");
    }
}

#[test]
fn every_object_has_a_format_version() {
    let sample = Sample::pending();
    for (command, more) in [
        ("attach", &[][..]),
        ("lookup", &["0"]),
        ("map", &[]),
        ("parent", &[]),
    ] {
        // asserted of every object that is read
        sample.json(command, more, 0);
    }
    sample.json("cat", &["--count", "1"], 0);
    sample.json("attach", &["--apply"], 0);
    let demo = Json::parse(&shrunvaki(&["demo", "--json"]).with(0).text());
    assert_eq!(demo.number("format_version"), 1);
}
