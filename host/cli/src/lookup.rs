//! `lookup FILE SECTOR..`: where sectors are.
use crate::json::{list, Object};
use crate::output::{Output, Status, Stop};
use crate::runs::Run;
use crate::source::{Disk, Source};
use shrunvaki::vhdx::Lookup;

pub fn run(source: &Source, sectors: &[u64], out: &mut Output) -> Result<Status, Stop> {
    source.attached(out, |disk, out| answer(disk, sectors, out))
}

fn answer(disk: &Disk, sectors: &[u64], out: &mut Output) -> Result<Status, Stop> {
    let answers: Vec<Run> = sectors
        .iter()
        .map(|&first| Run {
            first,
            count: 1,
            answer: disk.image.lookup(&disk.facts, first),
        })
        .collect();
    if out.json {
        let object = Object::about(disk.name).value("sectors", &list(answers.iter().map(object)));
        out.line(&object.finish())?;
    } else {
        for answer in &answers {
            out.line(&line(answer))?;
        }
    }
    match answers.iter().any(|run| run.answer.is_err()) {
        true => Ok(Status::Refused),
        false => Ok(Status::Answered),
    }
}

fn object(run: &Run) -> String {
    run.describe(Object::new().number("sector", run.first))
        .finish()
}

/// The answer for one sector, in words.
pub fn line(run: &Run) -> String {
    let answer = match run.answer {
        Ok(Lookup::File(offset)) => format!("in the file at {offset}"),
        Ok(Lookup::Zero) => "zero".to_string(),
        Ok(Lookup::Parent) => "in the parent".to_string(),
        Err(refusal) => format!("refused: {refusal}"),
    };
    format!("sector {}: {answer}", run.first)
}
