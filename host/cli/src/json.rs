//! JSON, as much of it as the command prints.
use crate::text::{hex, is_seen, Name};
use std::fmt::Write;

/// What a program has to know to read the objects. It rises when a field changes its meaning or goes; fields may be added.
const FORMAT_VERSION: u64 = 1;

/// An object, field by field.
#[derive(Default)]
pub struct Object(String);

impl Object {
    pub fn new() -> Object {
        Object::default()
    }

    /// An object that is printed by itself.
    pub fn versioned() -> Object {
        Object::new().number("format_version", FORMAT_VERSION)
    }

    /// One that is about a file. A name that is no text comes in hexadecimal digits too.
    pub fn about(name: &Name) -> Object {
        let object = Object::versioned().text("file", &name.lossy());
        match name.undecodable() {
            Some(bytes) => object.text("file_bytes", &hex(bytes)),
            None => object,
        }
    }

    /// A field whose value is JSON already.
    pub fn value(mut self, name: &str, json: &str) -> Object {
        let comma = if self.0.is_empty() { "" } else { "," };
        write!(self.0, "{comma}{}:{json}", quoted(name)).expect("a string grows");
        self
    }

    pub fn number(self, name: &str, number: u64) -> Object {
        self.value(name, &number.to_string())
    }

    pub fn text(self, name: &str, text: &str) -> Object {
        self.value(name, &quoted(text))
    }

    pub fn boolean(self, name: &str, value: bool) -> Object {
        self.value(name, if value { "true" } else { "false" })
    }

    pub fn null(self, name: &str) -> Object {
        self.value(name, "null")
    }

    pub fn object(self, name: &str, object: Object) -> Object {
        self.value(name, &object.finish())
    }

    pub fn finish(self) -> String {
        format!("{{{}}}", self.0)
    }

    /// What it begins with; the caller writes a last field and ends it.
    pub fn open(self) -> String {
        format!("{{{}", self.0)
    }
}

/// A list of values that are JSON already.
pub fn list(values: impl IntoIterator<Item = String>) -> String {
    let values: Vec<String> = values.into_iter().collect();
    format!("[{}]", values.join(","))
}

/// Whatever is not seen is escaped, so that it cannot command a terminal either.
pub fn quoted(text: &str) -> String {
    let mut out = String::from("\"");
    for c in text.chars() {
        match c {
            '"' | '\\' => out.extend(['\\', c]),
            c if is_seen(c) => out.push(c),
            c => {
                for unit in c.encode_utf16(&mut [0; 2]) {
                    write!(out, "\\u{unit:04x}").expect("a string grows");
                }
            }
        }
    }
    out.push('"');
    out
}
