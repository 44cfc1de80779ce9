//! JSON that the command prints, read by a parser that is not this project's: Python's.
use std::collections::BTreeMap;
use std::io::{self, BufRead, BufReader, Write};
use std::process::{Child, ChildStdin, ChildStdout, Command, Stdio};
use std::sync::{Mutex, PoisonError};

/// Answers each line, an object in hexadecimal digits, with one: the values behind their paths, each followed by a zero byte; or
/// what is wrong, behind a mark that no path begins with. Two fields of one name, numbers that are no numbers and anything behind
/// the object are errors.
const FLATTEN: &str = r#"
import json, sys

def fields(pairs):
    names = [name for name, _ in pairs]
    if len(names) != len(set(names)):
        raise ValueError(names)
    return dict(pairs)

def refuse(constant):
    raise ValueError(constant)

def walk(path, value):
    if isinstance(value, (dict, list)) and value:
        pairs = value.items() if isinstance(value, dict) else enumerate(value)
        for name, inside in pairs:
            yield from walk(f"{path}.{name}" if path else str(name), inside)
    else:
        yield path
        yield "\"" + value if isinstance(value, str) else json.dumps(value)

for line in sys.stdin:
    try:
        text = bytes.fromhex(line).decode()
        value = json.loads(text, object_pairs_hook=fields, parse_constant=refuse)
        if not isinstance(value, dict):
            raise ValueError("no object")
        answer = "".join(word + "\0" for word in walk("", value))
    except ValueError as error:
        answer = f"!{error}"
    print(answer.encode().hex(), flush=True)
"#;

/// One process for all: starting it takes longer than its work. It ends with its input, when this process does.
struct Python {
    _process: Child,
    to: ChildStdin,
    from: BufReader<ChildStdout>,
}

static PYTHON: Mutex<Option<Python>> = Mutex::new(None);

impl Python {
    fn start() -> Python {
        let mut child = Command::new("python3")
            .args(["-c", FLATTEN])
            .stdin(Stdio::piped())
            .stdout(Stdio::piped())
            .spawn()
            .expect("python3, by whose parser JSON is checked");
        let to = child.stdin.take().expect("its input");
        let from = BufReader::new(child.stdout.take().expect("its output"));
        Python {
            _process: child,
            to,
            from,
        }
    }

    fn answer(&mut self, text: &str) -> io::Result<String> {
        let digits: String = text.bytes().map(|byte| format!("{byte:02x}")).collect();
        writeln!(self.to, "{digits}")?;
        let mut line = String::new();
        self.from.read_line(&mut line)?;
        let digit = |at: usize| u8::from_str_radix(&line[at..at + 2], 16).expect("digits");
        let bytes = (0..line.trim_end().len()).step_by(2).map(digit).collect();
        Ok(String::from_utf8(bytes).expect("text"))
    }
}

/// The values of an object, by their paths: names and numbers with a dot between them.
#[derive(Debug, PartialEq, Eq)]
pub struct Json(BTreeMap<String, String>);

impl Json {
    /// Asserts that the text is one object.
    #[track_caller]
    pub fn parse(text: &str) -> Json {
        let mut python = PYTHON.lock().unwrap_or_else(PoisonError::into_inner);
        let answer = python.get_or_insert_with(Python::start).answer(text);
        drop(python);
        let answer = answer.expect("an answer of python3");
        assert!(!answer.starts_with('!'), "{answer}: {text}");
        let words: Vec<String> = answer.split('\0').map(String::from).collect();
        let (pairs, _) = words.as_chunks::<2>();
        let pairs = pairs.iter().cloned();
        Json(pairs.map(|[path, value]| (path, value)).collect())
    }

    /// The value as JSON has it; a text begins with a quotation mark, and is not escaped.
    #[track_caller]
    pub fn get(&self, path: &str) -> &str {
        match self.0.get(path) {
            Some(value) => value,
            None => panic!("no {path} in {self:?}"),
        }
    }

    pub fn has(&self, path: &str) -> bool {
        self.0.contains_key(path)
    }

    #[track_caller]
    pub fn number(&self, path: &str) -> u64 {
        self.get(path).parse().expect("a number")
    }

    #[track_caller]
    pub fn text(&self, path: &str) -> &str {
        self.get(path).strip_prefix('"').expect("a text")
    }

    /// Asserts that each of these has this value.
    #[track_caller]
    pub fn assert_has(&self, values: &[(&str, &str)]) {
        for (path, value) in values {
            assert_eq!(self.get(path), *value, "{path}");
        }
    }

    /// Paths and values.
    pub fn iter(&self) -> impl Iterator<Item = (&str, &str)> {
        self.0.iter().map(|(path, value)| (&path[..], &value[..]))
    }
}

#[cfg(test)]
mod tests {
    use super::Json;
    use std::panic::catch_unwind;

    #[test]
    fn values_by_their_paths() {
        let json = Json::parse("{\"a\":{\"b\":[1,\"\\u00e9\\n\"]},\"c\":null,\"d\":{}}\n");
        json.assert_has(&[
            ("a.b.0", "1"),
            ("a.b.1", "\"\u{e9}\n"),
            ("c", "null"),
            ("d", "{}"),
        ]);
    }

    #[test]
    fn what_is_no_object() {
        for text in [
            "",
            "1",
            "{\"a\":1}}",
            "{\"a\":1,\"a\":1}",
            "{\"a\":NaN}",
            "{\"a\":\"\n\"}",
            "{\"a\":1,}",
        ] {
            assert!(catch_unwind(|| Json::parse(text)).is_err(), "{text}");
        }
    }
}
