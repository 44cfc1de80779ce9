//! `parent FILE [KEY]`: what the parent locator holds.
use crate::json::Object;
use crate::output::{note, Output, Status, Stop};
use crate::source::{Disk, Source};
use crate::text::{hex, printable, printable_ucs2};
use shrunvaki::vhdx::{from_ucs2, to_ucs2};

/// The keys that MS-VHDX names (2.6.2.6.3). The locator is not searched for others: the library alone reads it.
const KEYS: [&str; 5] = [
    "parent_linkage",
    "parent_linkage2",
    "relative_path",
    "volume_path",
    "absolute_win32_path",
];

pub fn run(source: &Source, key: Option<&str>, out: &mut Output) -> Result<Status, Stop> {
    source.attached(out, |disk, out| print(disk, key, out))
}

fn print(disk: &Disk, key: Option<&str>, out: &mut Output) -> Result<Status, Stop> {
    let keys = key.map_or(KEYS.to_vec(), |key| vec![key]);
    // no value is empty: an empty part says that there is none
    let values: Vec<(&str, &[u8])> = keys
        .into_iter()
        .map(|key| (key, disk.image.parent_key(&disk.facts, &to_ucs2(key))))
        .collect();
    if out.json {
        out.line(&object(disk, &values).finish())?;
    } else if !disk.facts.has_parent {
        note(format_args!("{}: the disk has no parent\n", disk.name));
    } else {
        for (name, value) in &values {
            let name = printable(name);
            match (value.is_empty(), key) {
                (false, Some(_)) => out.line(&printable_ucs2(value))?,
                (false, None) => out.line(&format!("{name}: {}", printable_ucs2(value)))?,
                (true, Some(_)) => note(format_args!("{}: no value under {name}\n", disk.name)),
                (true, None) => {}
            }
        }
    }
    Ok(Status::Answered)
}

/// Values that are no text come in hexadecimal digits too.
fn object(disk: &Disk, values: &[(&str, &[u8])]) -> Object {
    let mut texts = Object::new();
    let mut bytes = Object::new();
    for (key, value) in values {
        if value.is_empty() {
            texts = texts.null(key);
            continue;
        }
        let text = from_ucs2(value);
        if to_ucs2(&text) != *value {
            bytes = bytes.text(key, &hex(value));
        }
        texts = texts.text(key, &text);
    }
    Object::about(disk.name)
        .boolean("has_parent", disk.facts.has_parent)
        .object("values", texts)
        .object("value_bytes", bytes)
}
