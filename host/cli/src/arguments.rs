//! What the user asks for.
use crate::close::Identifier;
use crate::help;
use crate::output::Stop;
use crate::runs::Range;
use crate::source::Source;
use shrunvaki::vhdx::identifier_from_text;
use std::collections::{BTreeMap, BTreeSet, VecDeque};
use std::ffi::OsString;

#[derive(Debug, PartialEq, Eq)]
pub enum Action {
    Attach(Source),
    Apply {
        source: Source,
        wait: bool,
    },
    Close {
        source: Source,
        /// Drawn at random where it is not given.
        identifier: Option<Identifier>,
        wait: bool,
    },
    Lookup(Source, Vec<u64>),
    Map(Source, Range),
    Parent(Source, Option<String>),
    Cat {
        source: Source,
        range: Range,
        force: bool,
    },
    Demo,
    Help(&'static str),
}

/// The options that take no value, those that take a number, and the one that takes an identifier.
const FLAGS: [&str; 7] = [
    "--json",
    "--help",
    "--version",
    "--apply",
    "--pieces",
    "--wait",
    "--force",
];
const NUMBERS: [&str; 5] = [
    "--capacity",
    "--max-sectors",
    "--from",
    "--sector",
    "--count",
];
const IDENTIFIER: &str = "--identifier";

/// The options of every command, and of every command that takes a file.
const ALWAYS: [&str; 3] = ["--json", "--help", "--version"];
const OF_FILES: [&str; 2] = ["--capacity", "--max-sectors"];

/// Whether the answer is to be JSON, also where the words are misused.
pub fn ask_for_json(words: &[OsString]) -> bool {
    let mut options = words.iter().take_while(|word| *word != "--");
    options.any(|word| word == "--json")
}

/// The options that were given, and the words that are none.
#[derive(Default)]
struct Given {
    words: VecDeque<OsString>,
    flags: BTreeSet<&'static str>,
    numbers: BTreeMap<&'static str, u64>,
    identifier: Option<Identifier>,
}

impl Action {
    pub fn parse(words: Vec<OsString>) -> Result<Action, Stop> {
        let mut given = Given::collect(words.into_iter())?;
        let command = given.words.pop_front();
        let name = command.as_deref().map(|word| word.to_string_lossy());
        let help = given.flags.contains("--help");
        Ok(match name.as_deref() {
            _ if given.flags.contains("--version") => Action::Help(help::VERSION),
            Some(name) if help => Action::Help(topic(name)?),
            Some("help") => match given.words.pop_front() {
                Some(name) => Action::Help(topic(&name.to_string_lossy())?),
                None => Action::Help(help::ALL),
            },
            Some(name) => given.action(name)?,
            None if help => Action::Help(help::ALL),
            None => return Err(misuse("a command is missing")),
        })
    }
}

impl Given {
    fn collect(mut words: impl Iterator<Item = OsString>) -> Result<Given, Stop> {
        let mut given = Given::default();
        while let Some(word) = words.next() {
            match word.to_str() {
                Some("--") => given.words.extend(words.by_ref()),
                Some(option) if option.len() > 1 && option.starts_with('-') => {
                    given.option(option, &mut words)?;
                }
                _ => given.words.push_back(word),
            }
        }
        Ok(given)
    }

    /// Takes `--name VALUE` or `--name=VALUE`.
    fn option(
        &mut self,
        option: &str,
        words: &mut impl Iterator<Item = OsString>,
    ) -> Result<(), Stop> {
        let (name, value) = match option.split_once('=') {
            Some((name, value)) => (name, Some(value.to_string())),
            None => (option, None),
        };
        let name = if name == "-h" { "--help" } else { name };
        if let Some(flag) = FLAGS.iter().find(|flag| **flag == name) {
            self.flags.insert(flag);
            return match value {
                Some(_) => Err(misuse(format!("{name} takes no value"))),
                None => Ok(()),
            };
        }
        let mut value = |what: &str| {
            let next = || words.next().map(|word| word.to_string_lossy().into_owned());
            let given = value.clone().or_else(next);
            given.ok_or_else(|| misuse(format!("{name} needs {what}")))
        };
        if let Some(name) = NUMBERS.iter().find(|number| **number == name) {
            self.numbers
                .insert(name, number(name, &value("a number")?)?);
        } else if name == IDENTIFIER {
            self.identifier = Some(identifier(&value("an identifier")?)?);
        } else {
            return Err(misuse(format!("there is no option {name:?}")));
        }
        Ok(())
    }

    fn action(mut self, name: &str) -> Result<Action, Stop> {
        topic(name)?;
        if name == "demo" {
            self.only(name, &[], 0)?;
            return Ok(Action::Demo);
        }
        let source = self.source(name)?;
        let wait = self.flags.contains("--wait");
        let of_file = |more: &[&'static str]| [&OF_FILES, more].concat();
        match name {
            "lookup" => {
                self.only(name, &of_file(&[]), usize::MAX)?;
                Ok(Action::Lookup(source, self.sectors()?))
            }
            "map" => {
                self.only(name, &of_file(&["--from", "--count"]), 0)?;
                Ok(Action::Map(source, self.range("--from")))
            }
            "cat" => {
                self.only(name, &of_file(&["--sector", "--count", "--force"]), 0)?;
                let range = self.range("--sector");
                let force = self.flags.contains("--force");
                Ok(Action::Cat {
                    source,
                    range,
                    force,
                })
            }
            "parent" => {
                self.only(name, &of_file(&[]), 1)?;
                let key = self.words.pop_front();
                let key = key.map(|key| key.to_string_lossy().into_owned());
                Ok(Action::Parent(source, key))
            }
            "close" => {
                self.only(name, &of_file(&[IDENTIFIER, "--wait"]), 0)?;
                Ok(Action::Close {
                    source,
                    identifier: self.identifier,
                    wait,
                })
            }
            _ if self.flags.contains("--apply") => {
                self.only(name, &of_file(&["--apply", "--pieces", "--wait"]), 0)?;
                Ok(Action::Apply { source, wait })
            }
            _ => {
                self.only(name, &of_file(&["--pieces"]), 0)?;
                Ok(Action::Attach(source))
            }
        }
    }

    /// The file, which is the next word, with its limits.
    fn source(&mut self, name: &str) -> Result<Source, Stop> {
        let Some(path) = self.words.pop_front() else {
            return Err(misuse(format!("{name} needs a file")));
        };
        let mut source = Source::new(path);
        source.capacity = self.numbers.get("--capacity").copied();
        source.pieces = self.flags.contains("--pieces");
        if let Some(sectors) = self.numbers.get("--max-sectors") {
            source.max_sectors = *sectors;
        }
        Ok(source)
    }

    fn sectors(&self) -> Result<Vec<u64>, Stop> {
        if self.words.is_empty() {
            return Err(misuse("lookup needs the number of a sector"));
        }
        self.words
            .iter()
            .map(|word| number("a sector", &word.to_string_lossy()))
            .collect()
    }

    fn range(&self, first: &str) -> Range {
        Range {
            first: self.numbers.get(first).copied().unwrap_or(0),
            count: self.numbers.get("--count").copied(),
        }
    }

    /// That nothing was given that the command does not take: options of other commands, more words than these.
    fn only(&self, command: &str, options: &[&str], words: usize) -> Result<(), Stop> {
        let identifier = self.identifier.as_ref().map(|_| &IDENTIFIER);
        let mut given = (self.flags.iter())
            .chain(self.numbers.keys())
            .chain(identifier);
        let other = given.find(|name| !ALWAYS.contains(name) && !options.contains(name));
        if let Some(name) = other {
            return Err(misuse(format!("{command} does not take {name}")));
        }
        match self.words.get(words) {
            Some(word) => Err(misuse(format!("{command} does not take {word:?}"))),
            None => Ok(()),
        }
    }
}

/// Digits, and a unit by powers of 1,024 if there is one.
fn number(what: &str, text: &str) -> Result<u64, Stop> {
    let (digits, shift) = match text.as_bytes().last().map(u8::to_ascii_uppercase) {
        Some(b'K') => (&text[..text.len() - 1], 10),
        Some(b'M') => (&text[..text.len() - 1], 20),
        Some(b'G') => (&text[..text.len() - 1], 30),
        Some(b'T') => (&text[..text.len() - 1], 40),
        _ => (text, 0),
    };
    let all_digits = !digits.is_empty() && digits.bytes().all(|byte| byte.is_ascii_digit());
    let number = if all_digits {
        digits.parse::<u64>().ok()
    } else {
        None
    };
    number
        .and_then(|number| number.checked_mul(1 << shift))
        .ok_or_else(|| {
            misuse(format!(
                "{what} is a whole number from 0 to {}, which may end in K, M, G or T (by 1,024), not {text:?}",
                u64::MAX
            ))
        })
}

/// As identifiers are written.
fn identifier(text: &str) -> Result<Identifier, Stop> {
    identifier_from_text(text).ok_or_else(|| {
        misuse(format!(
            "{IDENTIFIER} is five groups of 8, 4, 4, 4 and 12 hexadecimal digits with hyphens between them, in braces or not, not {text:?}"
        ))
    })
}

fn topic(command: &str) -> Result<&'static str, Stop> {
    help::of(command).ok_or_else(|| misuse(format!("there is no command {command:?}")))
}

fn misuse(message: impl Into<String>) -> Stop {
    Stop::failed(format!("{}. Try 'shrunvaki --help'.", message.into()))
}
