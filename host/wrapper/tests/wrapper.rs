//! The wrapper's own types: what Rust programs link.
use shrunvaki::mapping::MappingMut;
use shrunvaki::vhdx::{from_ucs2, to_ucs2, Facts, Image, Lookup, Plan, Refusal};
use shrunvaki_testkit::command::{folder, write};
use shrunvaki_testkit::pending::{assert_same, r1, sample_file};
use shrunvaki_testkit::tables::{locator, Disk};
use std::fs::{self, File};
use std::io::ErrorKind;

#[test]
fn attach_and_lookup() {
    let pending = sample_file();
    let (applied, length) = pending.applied();
    let mut buffer = pending.image.buffer.clone();
    let capacity = buffer.len() as u64;
    let mut image = Image::new(&mut buffer, pending.image.length);
    assert_eq!(
        (image.length(), image.capacity()),
        (pending.image.length, capacity)
    );
    let attachment = image.attach();
    assert_eq!((attachment.length, attachment.count), (length, 258));
    assert_eq!(image.length(), length);
    let facts = attachment.facts.expect("accepted");
    assert_eq!(facts.sectors(), 131_072);
    assert_eq!(facts.disk_id_text(), "33323130-3534-3736-3839-616263646566");
    assert_eq!(image.lookup(&facts, 1), Ok(Lookup::File((4 << 20) + 512)));
    assert_eq!(image.lookup(&facts, 2048), Ok(Lookup::Zero));
    let refused = image.lookup(&facts, 131_072).expect_err("17");
    assert_eq!(refused.number(), 17);
    assert_same(image.bytes(), &applied[..length as usize], "the image");
    assert_same(&buffer, &applied, "the buffer");
}

#[test]
fn a_plan_says_what_attach_will_do() {
    let pending = sample_file();
    let (_, length) = pending.applied();
    // a plan needs no buffer that can be written
    let image = Image::new(&pending.image.buffer, pending.image.length);
    assert_eq!(image.plan(), Ok(Plan { length, count: 258 }));
    assert_eq!(image.length(), pending.image.length);
    let short = &pending.image.buffer[..length as usize - 1];
    let refused = Image::new(short, pending.image.length).plan();
    assert_eq!(refused.expect_err("8").number(), 8);
    let refused = Image::new([0; 4], 5).plan().expect_err("1");
    assert!(refused.number() == 1 && refused.is_before_the_log());
    assert!(!Refusal::new(9).expect("9").is_before_the_log());
}

#[test]
fn a_file_in_one_call() {
    let pending = sample_file();
    let (applied, length) = pending.applied();
    let given = &pending.image.buffer[..pending.image.length as usize];
    let folder = folder("wrapper");
    let path = write(&folder, "disk.vhdx", given);
    let growth = 1 << 20;
    // SAFETY: the file is this test's own.
    unsafe {
        let image = Image::open_read_only(&path, growth).expect("the file");
        assert_eq!(image.plan(), Ok(Plan { length, count: 258 }));
        assert_eq!(image.capacity(), given.len() as u64 + growth);
        let mut image = Image::open(&path, growth).expect("the file");
        assert_eq!(image.attach().count, 258);
        assert_same(image.bytes(), &applied[..length as usize], "in memory");
        assert_same(&fs::read(&path).expect("the file"), given, "the file");
        let missing = Image::open(folder.file("missing"), growth);
        assert_eq!(missing.expect_err("none").kind(), ErrorKind::NotFound);
        // what is shared goes to the file
        let file = File::options().read(true).write(true).open(&path);
        let file = file.expect("the file");
        file.set_len(length).expect("a longer file");
        let buffer = MappingMut::shared(&file, length, length + growth).expect("a mapping");
        let mut image = Image::new(buffer, pending.image.length);
        assert_eq!(image.attach().length, length);
        image.into_buffer().flush().expect("flushed");
    }
    let now = fs::read(&path).expect("the file");
    assert_same(&now, &applied[..length as usize], "applied");
}

#[test]
fn steps_do_what_attach_does() {
    let pending = sample_file();
    let (applied, length) = pending.applied();
    let mut buffer = pending.image.buffer.clone();
    let mut image = Image::new(&mut buffer, pending.image.length);
    let early = image.step(2).expect_err("22");
    assert_eq!(early.number(), 22);
    assert_eq!(image.length(), pending.image.length);
    for k in 0..=258 {
        assert_eq!(image.step(k), Ok(length));
    }
    assert_eq!(image.step(259).expect_err("21").number(), 21);
    assert_same(&buffer, &applied, "the buffer");
}

#[test]
fn refusals_come_with_length_and_count() {
    let pending = r1();
    let mut buffer = pending.image.buffer.clone();
    let attachment = Image::new(&mut buffer, pending.image.length).attach();
    assert_eq!(attachment.facts, Err(Refusal::new(9).expect("9")));
    assert_eq!((attachment.length, attachment.count), (4 << 20, 2));
    // a length above the capacity is answered as it was given
    let mut image = Image::new(&mut [], u64::MAX);
    let attachment = image.attach();
    assert_eq!(attachment.facts, Err(Refusal::new(1).expect("1")));
    assert_eq!((attachment.length, attachment.count), (u64::MAX, 0));
    assert!(image.bytes().is_empty());
    let facts = Facts::default();
    assert_eq!(image.lookup(&facts, 0).expect_err("16").number(), 16);
    assert!(image.parent_key(&facts, b"k").is_empty());
}

#[test]
fn a_parents_key_is_a_part_of_the_buffer() {
    let mut pending = sample_file();
    let pairs = [("relative_path", "..\\base.vhdx"), ("other", "\u{10348}")];
    let disk = Disk::with_parent(locator(&pairs));
    pending.image.header(65536, 3, [0; 16]).tables(&disk);
    let mut buffer = pending.image.buffer.clone();
    let range = buffer.as_ptr_range();
    let mut image = Image::new(&mut buffer, pending.image.length);
    let facts = image.attach().facts.expect("accepted");
    for (key, value) in pairs {
        let part = image.parent_key(&facts, &to_ucs2(key));
        assert_eq!(from_ucs2(part), value);
        assert!(range.contains(&part.as_ptr()));
    }
    assert!(image.parent_key(&facts, &to_ucs2("volume_path")).is_empty());
}

#[test]
fn numbers_and_texts_of_refusals() {
    let all: Vec<Refusal> = Refusal::all().collect();
    assert_eq!(all.len(), 23);
    for (i, refusal) in all.iter().enumerate() {
        assert_eq!(refusal.number(), i as u64 + 1);
        assert_eq!(Refusal::new(refusal.number()), Some(*refusal));
        let text = format!("{}: {}", refusal.number(), refusal.text());
        assert_eq!(refusal.to_string(), text);
        assert!(!text.contains('\n') && !refusal.advice().is_empty());
    }
    for number in [0, 24, 257, u64::MAX] {
        assert_eq!(Refusal::new(number), None);
    }
}

#[test]
fn text_that_is_none() {
    assert_eq!(from_ucs2(&[b'a', 0, 0, 0xd8]), "a\u{fffd}");
    assert_eq!(from_ucs2(&[b'a', 0, b'b']), "a\u{fffd}");
    assert_eq!(from_ucs2(&[]), "");
}
