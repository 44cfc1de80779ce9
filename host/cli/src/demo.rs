//! `demo`: a small disk with a pending log, a crash while the log is applied, and what becomes of it.
use crate::attach::Report;
use crate::json::Object;
use crate::output::{Output, Status, Stop};
use crate::source::Source;
use crate::{apply, attach, lookup};
use shrunvaki::vhdx::Lookup;
use shrunvaki_scratch::Folder;
use std::fs;
use std::io;
use std::path::Path;
use vhdx_builder::image::SECTOR;
use vhdx_builder::sample;

/// So many sectors are written before the crash: the BAT's, and then those at the start of the block that the log zeros.
const WRITTEN: u64 = 100;

fn failed(path: &Path, error: io::Error) -> Stop {
    Stop::failed(format!("{}: {error}", path.display()))
}

pub fn run(out: &mut Output) -> Result<Status, Stop> {
    let no_folder = |error| Stop::failed(format!("cannot make a temporary folder: {error}"));
    let folder = Folder::new("demo").map_err(no_folder)?;
    let image = sample::pending();
    let file = |name: &str| -> Result<Source, Stop> {
        let bytes = &image.buffer[..image.length as usize];
        let path = folder.write(name, bytes);
        let path = path.map_err(|error| failed(&folder.file(name), error))?;
        Ok(Source::new(path.into_os_string()))
    };
    let disk = file("disk.vhdx")?;
    let undisturbed = file("undisturbed.vhdx")?;
    match out.json {
        true => summary(&disk, &undisturbed, out),
        false => tell(&disk, &undisturbed, out),
    }
}

/// Step by step, each with the command that a user would write.
fn tell(disk: &Source, undisturbed: &Source, out: &mut Output) -> Result<Status, Stop> {
    let name = disk.name();
    out.line("A disk of 64 MiB, whose program ended before its last changes were all written:")?;
    out.line("they are in the file's log, and the file does not hold block 0 yet.")?;
    heading(out, &format!("shrunvaki attach {name}"))?;
    attach::run(disk, out)?;
    out.line("\nThe log is applied in memory; the file is as it was. Now to the file itself, and a crash:")?;
    heading(out, &format!("shrunvaki attach --apply {name}"))?;
    crash(disk)?;
    out.line(&format!(
        "(as a kill would leave it: {WRITTEN} sectors written, and garbage in the next)"
    ))?;
    out.line("\nOnce more, undisturbed:")?;
    heading(out, &format!("shrunvaki attach --apply {name}"))?;
    apply::run(disk, false, out)?;
    apply_quietly(undisturbed)?;
    let same = same_bytes(disk, undisturbed)?;
    out.line(&format!(
        "\nThe same to a copy that saw no crash. The two files are {}.",
        if same {
            "equal, byte for byte"
        } else {
            "DIFFERENT"
        }
    ))?;
    heading(out, &format!("shrunvaki lookup {name} 0 2048"))?;
    lookup::run(disk, &[0, 2048], out)?;
    heading(
        out,
        &format!("shrunvaki cat {name} --sector 0 --count 1 | head -c 26"),
    )?;
    out.line(&String::from_utf8_lossy(&first_bytes(disk)?))?;
    ended(same)
}

fn heading(out: &mut Output, command: &str) -> Result<(), Stop> {
    out.line("")?;
    out.line(&format!("$ {command}"))
}

/// The same in one object.
fn summary(disk: &Source, undisturbed: &Source, out: &mut Output) -> Result<Status, Stop> {
    let before = attachment(disk)?;
    crash(disk)?;
    apply_quietly(disk)?;
    apply_quietly(undisturbed)?;
    let same = same_bytes(disk, undisturbed)?;
    let object = Object::versioned()
        .object("attach", before)
        .number("sectors_before_the_crash", WRITTEN)
        .object("attach_again", attachment(disk)?)
        .boolean("same_as_undisturbed", same)
        .text("block_0", &String::from_utf8_lossy(&first_bytes(disk)?));
    out.line(&object.finish())?;
    ended(same)
}

fn ended(same: bool) -> Result<Status, Stop> {
    match same {
        true => Ok(Status::Answered),
        false => Err(Stop::failed("the crash has left a difference")),
    }
}

fn attachment(source: &Source) -> Result<Object, Stop> {
    Ok(Report::in_memory(&source.open()?)?.object())
}

fn apply_quietly(source: &Source) -> Result<(), Stop> {
    let opened = source.open_exclusive(false)?;
    apply::perform(&opened, |_| Ok(())).map(|_| ())
}

/// What a process that is killed leaves: the file has grown, some of the log's sectors are written, and the next is torn.
fn crash(source: &Source) -> Result<(), Stop> {
    let refused = |refusal| Stop::failed(format!("a step was refused: {refusal}"));
    let opened = source.open_exclusive(false)?;
    let mut image = opened.image()?;
    let mut length = 0;
    for k in 0..=WRITTEN {
        length = image.step(k).map_err(refused)?;
    }
    let mut buffer = image.into_buffer();
    let torn = sample::BLOCK as usize + (WRITTEN as usize - 1) * SECTOR;
    buffer.as_mut()[torn..torn + SECTOR / 2].fill(b'?');
    opened.grow(length)?;
    let written = buffer.write_to(&opened.file, 0..length, |_| {});
    written.map_err(|error| failed(Path::new(&source.path), error))
}

fn same_bytes(one: &Source, other: &Source) -> Result<bool, Stop> {
    let read = |source: &Source| {
        let path = Path::new(&source.path);
        fs::read(path).map_err(|error| failed(path, error))
    };
    Ok(read(one)? == read(other)?)
}

/// What block 0 begins with, by the offset that a lookup answers.
fn first_bytes(source: &Source) -> Result<Vec<u8>, Stop> {
    let (image, attachment) = source.open()?.attach()?;
    let at = attachment.facts.and_then(|facts| image.lookup(&facts, 0));
    match at {
        Ok(Lookup::File(offset)) => {
            Ok(image.bytes()[offset as usize..][..sample::TEXT.len()].to_vec())
        }
        other => Err(Stop::failed(format!("sector 0 of the disk is {other:?}"))),
    }
}
