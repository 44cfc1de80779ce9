//! The drivers over files: what they list and write, and errors of the file.
use shrunvaki::vhdx::pieces::{self, Pieces, Request, SectorKind};
use shrunvaki::vhdx::{Image, Plan};
use shrunvaki_testkit::command::{folder, write};
use shrunvaki_testkit::files::{of_qemu, pending, refused};
use shrunvaki_testkit::image::{self, Entry, GUID, MIB, SECTOR};
use shrunvaki_testkit::model::{self, File};
use shrunvaki_testkit::pending::{assert_same, data, pattern, zero};
use shrunvaki_testkit::random::Random;
use shrunvaki_testkit::sample::{M, TIB};
use std::fs;
use std::io::{self, Cursor, ErrorKind, Read, Seek, SeekFrom, Write};
use std::os::unix::fs::FileExt;

/// What `plan` lists, as the small program prints it, and its answer.
fn listed(source: impl Read + Seek, length: u64) -> io::Result<String> {
    let mut lines = String::new();
    let planned = pieces::plan(source, length, 128 * TIB, |sector| {
        let kind = match sector.kind {
            SectorKind::Data => 'D',
            SectorKind::Zeros => 'Z',
        };
        lines += &format!("{} {kind}\n", sector.offset);
        Ok(())
    })?;
    if let Err(refusal) = planned {
        assert_eq!(lines, "", "before a refusal");
        lines = format!("refused {}\n", refusal.number());
    }
    Ok(lines)
}

#[test]
fn plan_lists_what_the_model_lists() {
    let refused = refused().into_iter().map(|(_, sample)| sample);
    for sample in pending().into_iter().chain(of_qemu()).chain(refused) {
        println!("{}", sample.name);
        // the file's own length, which some refusals are not of
        let bytes = sample.bytes();
        let listed = listed(Cursor::new(bytes), bytes.len() as u64);
        assert_eq!(listed.expect("read"), model::listing(File::new(bytes)));
    }
    let r1 = &pending()[0];
    let lines = listed(Cursor::new(r1.bytes()), r1.length).expect("read");
    assert_eq!(lines, "3145728 Z\n3149824 Z\n");
}

#[test]
fn apply_leaves_what_attach_leaves() {
    let refused = refused().into_iter().map(|(_, sample)| sample);
    for sample in pending().into_iter().chain(of_qemu()).chain(refused) {
        println!("{}", sample.name);
        let mut buffer = sample.bytes().to_vec();
        let length = buffer.len() as u64;
        let capacity = 64 * M;
        let mut file = Cursor::new(buffer.clone());
        let applied = pieces::apply(&mut file, length, capacity).expect("written");
        buffer.resize(capacity as usize, 0xee);
        let mut image = Image::new(&mut buffer, length);
        assert_eq!(applied, image.plan());
        let attachment = image.attach();
        assert_same(file.get_ref(), image.bytes(), &sample.name);
        if let Ok(plan) = applied {
            assert_eq!(
                (plan.length, plan.count),
                (attachment.length, attachment.count)
            );
            // the log is still there: the same again
            let again = pieces::apply(&mut file, plan.length, capacity);
            assert_eq!(again.expect("written"), Ok(plan));
            assert_same(file.get_ref(), image.bytes(), "applied twice");
        }
    }
}

/// A file that is read and written a few bytes at a time, with interruptions.
struct Slow {
    file: Cursor<Vec<u8>>,
    random: Random,
    flushed: bool,
}

impl Slow {
    fn pause(&mut self, wanted: usize) -> io::Result<usize> {
        if self.random.one_in(8) {
            return Err(ErrorKind::Interrupted.into());
        }
        let most = self.random.pick(&[1, 100, 5000, 100_000]);
        Ok(wanted.min(most))
    }
}

impl Read for Slow {
    fn read(&mut self, buffer: &mut [u8]) -> io::Result<usize> {
        let length = self.pause(buffer.len())?;
        self.file.read(&mut buffer[..length])
    }
}

impl Write for Slow {
    fn write(&mut self, bytes: &[u8]) -> io::Result<usize> {
        let length = self.pause(bytes.len())?;
        self.flushed = false;
        self.file.write(&bytes[..length])
    }

    fn flush(&mut self) -> io::Result<()> {
        self.flushed = true;
        Ok(())
    }
}

impl Seek for Slow {
    fn seek(&mut self, to: SeekFrom) -> io::Result<u64> {
        self.file.seek(to)
    }
}

#[test]
fn short_reads_and_interruptions() {
    for sample in pending() {
        let mut quick = Cursor::new(sample.bytes().to_vec());
        let expected = pieces::apply(&mut quick, sample.length, TIB).expect("written");
        let mut slow = Slow {
            file: Cursor::new(sample.bytes().to_vec()),
            random: Random::new(77),
            flushed: false,
        };
        let applied = pieces::apply(&mut slow, sample.length, TIB).expect("written");
        assert_eq!(applied, expected);
        assert_same(slow.file.get_ref(), quick.get_ref(), &sample.name);
        assert!(slow.flushed);
    }
}

#[test]
fn errors_of_files() {
    let sample = &pending()[0];
    let whole = sample.bytes();
    // every end inside what is read
    for end in [0, 7, 65536 + 100, MIB, MIB + 4096] {
        let error = listed(Cursor::new(&whole[..end]), sample.length).expect_err("an end");
        assert_eq!(error.kind(), ErrorKind::UnexpectedEof, "{end}");
        let mut file = Cursor::new(whole[..end].to_vec());
        let error = pieces::apply(&mut file, sample.length, TIB).expect_err("an end");
        assert_eq!(error.kind(), ErrorKind::UnexpectedEof, "{end}");
        assert_same(file.get_ref(), &whole[..end], "nothing is written");
    }
    // what is done with a sector may end it
    let mut sectors = 0;
    let ended = pieces::plan(Cursor::new(whole), sample.length, TIB, |_| {
        sectors += 1;
        Err(ErrorKind::BrokenPipe.into())
    });
    assert_eq!(ended.expect_err("ended").kind(), ErrorKind::BrokenPipe);
    assert_eq!(sectors, 1);
    // a file that cannot be written
    let folder = folder("pieces-errors");
    let path = write(&folder, "disk.vhdx", whole);
    let file = fs::File::open(&path).expect("the file");
    pieces::apply(&file, sample.length, TIB).expect_err("not opened to be written");
    assert_same(&fs::read(&path).expect("the file"), whole, "the file");
}

/// A file of 1 TiB, of which the disk holds what was written alone.
#[test]
fn a_file_that_no_memory_holds() {
    let mut made = image::Image::new(3 * MIB, 3 * M, MIB, GUID);
    let entry = Entry::new(1, 3)
        .with(data(TIB + 4096, pattern(1)))
        .with(zero(TIB - 4096, 8192))
        .with(data(2 * M, pattern(2)));
    made.entry(3, &entry);
    let folder = folder("pieces-long");
    let path = write(&folder, "disk.vhdx", &made.buffer);
    let options = fs::OpenOptions::new().read(true).write(true).open(&path);
    let file = options.expect("the file");
    file.set_len(TIB).expect("a long file");
    file.write_all_at(&[9; 4096], TIB - 4096).expect("written");
    let (length, count) = (TIB + 8192, 4);
    let applied = pieces::apply(&file, TIB, 128 * TIB).expect("written");
    assert_eq!(applied, Ok(Plan { length, count }));
    assert_eq!(file.metadata().expect("the file").len(), length);
    let sector = |offset| {
        let mut bytes = vec![7; 4096];
        file.read_exact_at(&mut bytes, offset).expect("read");
        bytes
    };
    assert_same(&sector(TIB - 4096), &[0; 4096], "zeros");
    assert_same(&sector(TIB), &[0; 4096], "zeros past the old end");
    assert_same(&sector(TIB + 4096), &pattern(1), "the last sector");
    assert_same(&sector(2 * M), &pattern(2), "the first");
    assert_eq!(listed(&file, length).expect("read").lines().count(), 4);
}

/// A source that counts what is read of it, which is nothing past a length.
struct Counting<'a> {
    bytes: Cursor<&'a [u8]>,
    length: u64,
    calls: usize,
    read: usize,
}

impl Counting<'_> {
    fn new(bytes: &[u8], length: u64) -> Counting<'_> {
        Counting {
            bytes: Cursor::new(bytes),
            length,
            calls: 0,
            read: 0,
        }
    }
}

impl Read for Counting<'_> {
    fn read(&mut self, buffer: &mut [u8]) -> io::Result<usize> {
        assert!(self.bytes.position() + buffer.len() as u64 <= self.length);
        let read = self.bytes.read(buffer)?;
        self.calls += 1;
        self.read += read;
        Ok(read)
    }
}

impl Seek for Counting<'_> {
    fn seek(&mut self, to: SeekFrom) -> io::Result<u64> {
        self.bytes.seek(to)
    }
}

const LOG: usize = 16 * MIB;
const SECTORS: usize = LOG / SECTOR;

/// With entries of these lengths in sectors, one behind the other from the log's start on.
fn with_entries(lengths: &[usize]) -> Vec<u8> {
    let length = LOG + 2 * MIB;
    let mut made = image::Image::new(length, length as u64, LOG, GUID);
    let mut sector = 0;
    for (i, sectors) in lengths.iter().enumerate() {
        let mut entry = Entry::new(1 + i as u64, 0);
        entry.descriptors = vec![data((LOG + MIB) as u64, pattern(i as u8)); sectors - 1];
        made.entry(sector, &entry);
        sector += sectors;
    }
    made.buffer
}

/// How many bytes the machine asks for.
fn wanted(bytes: &[u8]) -> usize {
    let mut wanted = 0;
    let mut pieces = Pieces::start(bytes.len() as u64, 128 * TIB);
    loop {
        match pieces.request() {
            Request::Read { offset, length } => {
                wanted += length;
                pieces.next(&bytes[offset as usize..][..length]);
            }
            Request::Grow { .. } | Request::Write { .. } => {
                pieces.next(&[]);
            }
            Request::Done { .. } | Request::Refused(_) => return wanted,
        }
    }
}

#[test]
fn long_stretches_are_read_in_few_calls() {
    let empty = with_entries(&[]);
    let length = empty.len() as u64;
    let mut source = Counting::new(&empty, length);
    listed(&mut source, length).expect("read");
    assert!(source.calls <= SECTORS / 8, "{} calls", source.calls);
    assert!(source.read <= wanted(&empty) + 65536, "{}", source.read);
}

#[test]
fn little_is_read_in_vain() {
    let mut random = Random::new(78);
    let drawn = (0..SECTORS / 20).map(|_| 1 + random.below(20) as usize);
    let mut logs = vec![
        drawn.collect(),
        // each behind what was read ahead for the one before
        [1, 1, 2, 4, 8].into_iter().chain([16; 255]).collect(),
    ];
    logs.extend([2, 3, 4, 9, 16, 17, 64].map(|sectors| vec![sectors; SECTORS / sectors]));
    for lengths in logs {
        let mut bytes = with_entries(&lengths);
        let length = bytes.len() as u64;
        let compare = |bytes: &[u8]| {
            let mut source = Counting::new(bytes, length);
            let lines = listed(&mut source, length).expect("read");
            let (read, wanted) = (source.read, wanted(bytes));
            println!("{:?}: {read} bytes for {wanted}", &lengths[..6]);
            assert!(read <= 3 * wanted, "{read} bytes for {wanted}");
            lines.lines().count()
        };
        let count = lengths.iter().map(|sectors| sectors - 1).sum();
        assert_eq!(compare(&bytes), count);
        // with no entry whole, each is read to its end and left again
        let mut end = MIB;
        for sectors in &lengths {
            end += sectors * SECTOR;
            bytes[end - 1] ^= 1;
        }
        assert_eq!(compare(&bytes), 1, "refused");
    }
}

#[test]
fn a_source_that_ends_behind_its_log() {
    // the empty half is one stretch up to the end
    let whole = with_entries(&[3; SECTORS / 6]);
    let length = whole.len() as u64;
    let end = MIB + LOG;
    let list = |source: &[u8], length| listed(&mut Counting::new(source, length), length);
    let lines = list(&whole, length).expect("read");
    // what would be read ahead is missing, but for a byte, or past the length
    for (end, length) in [(end, length), (end + 1, length), (end, end as u64)] {
        assert_eq!(list(&whole[..end], length).expect("read"), lines);
    }
    let error = list(&whole[..end - 1], length).expect_err("an end");
    assert_eq!(error.kind(), ErrorKind::UnexpectedEof);
}
