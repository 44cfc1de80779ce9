//! How a refusal is told.
use crate::foreign::Foreign;
use crate::json::Object;
use crate::output::{Output, Status, Stop};
use crate::source::Opened;
use shrunvaki::vhdx::Refusal;

/// The refusals of a file that need not be a VHDX at all: too short, or with another beginning.
const PERHAPS_FOREIGN: u64 = 2;

/// What a refused file looks like instead.
fn foreign(opened: &Opened, refusal: Refusal) -> Option<Foreign> {
    match refusal.number() <= PERHAPS_FOREIGN {
        true => Foreign::of(&opened.name, &opened.file, opened.length),
        false => None,
    }
}

/// A refusal as JSON.
pub fn object(refusal: Refusal) -> Object {
    with_advice(refusal, refusal.advice())
}

/// The same of a file, with what it looks like.
pub fn object_of(opened: &Opened, refusal: Refusal) -> Object {
    match foreign(opened, refusal) {
        Some(format) => with_advice(refusal, &format.advice()).text("looks_like", format.name()),
        None => object(refusal).null("looks_like"),
    }
}

fn with_advice(refusal: Refusal, advice: &str) -> Object {
    Object::new()
        .number("number", refusal.number())
        .text("text", refusal.text())
        .text("advice", advice)
}

/// A refusal of a file as text: what is wrong, and what to do about it.
pub fn lines(opened: &Opened, refusal: Refusal) -> [String; 2] {
    let advice = match foreign(opened, refusal) {
        Some(format) => format.advice(),
        None => refusal.advice().to_string(),
    };
    [
        format!("refused: {refusal}"),
        format!("what to do: {advice}"),
    ]
}

/// Says that a file was refused, where a command needs its facts.
pub fn print(opened: &Opened, refusal: Refusal, out: &mut Output) -> Result<Status, Stop> {
    out.answer(
        || lines(opened, refusal).to_vec(),
        || Object::about(&opened.name).object("refusal", object_of(opened, refusal)),
    )?;
    Ok(Status::Refused)
}
