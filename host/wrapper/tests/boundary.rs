//! The functions that C and Rust programs link stand in three files: `crates/capi` defines them, `include/shrunvaki.h` and
//! `host/sys` declare them by hand. That the three agree, and that the header's texts of refusals are the wrapper's.
use shrunvaki::vhdx::Refusal;
use shrunvaki_testkit::command::{folder, run, write, Folder};
use std::path::Path;
use std::process::Command;

const DEFINED: &str = include_str!("../../../crates/capi/src/lib.rt");
const HEADER: &str = include_str!("../../../include/shrunvaki.h");
const SYS: &str = include_str!("../../sys/src/lib.rs");

const STRICT: [&str; 4] = ["-Wall", "-Wextra", "-Werror", "-pedantic"];

/// The functions that the header defines itself.
const INLINE: [&str; 1] =
    ["static inline const char *shrunvaki_vhdx_refusal_text(uint64_t number)"];

/// A parameter as it is linked: a slice is two of them.
struct Parameter {
    name: String,
    kind: Kind,
    is_const: bool,
}

enum Kind {
    Number,
    Size,
    Bytes,
    /// An array: the type of its elements, and how many.
    Array(&'static str, usize),
}

impl Parameter {
    /// What stands for a parameter of Rattle.
    fn all(name: &str, kind: &str) -> Vec<Parameter> {
        let parameter = |name: &str, kind, is_const| Parameter {
            name: name.to_string(),
            kind,
            is_const,
        };
        if kind == "u64" {
            return vec![parameter(name, Kind::Number, false)];
        }
        let (target, is_const) = match kind.strip_prefix("&mut ") {
            Some(target) => (target, false),
            None => (kind.strip_prefix('&').expect(kind), true),
        };
        if target == "[u8]" {
            let length = match name {
                "buffer" => "capacity".to_string(),
                _ => format!("{name}_length"),
            };
            return vec![
                parameter(name, Kind::Bytes, is_const),
                parameter(&length, Kind::Size, false),
            ];
        }
        let array = target.strip_prefix('[').and_then(|t| t.strip_suffix(']'));
        let (element, count) = array.and_then(|t| t.split_once("; ")).expect(kind);
        let element = ["u8", "u64"].into_iter().find(|known| *known == element);
        let count = count.parse().expect(kind);
        vec![parameter(
            name,
            Kind::Array(element.expect(kind), count),
            is_const,
        )]
    }

    fn in_c(&self, name: &str) -> String {
        let qualifier = if self.is_const { "const " } else { "" };
        match self.kind {
            Kind::Number => format!("uint64_t {name}"),
            Kind::Size => format!("size_t {name}"),
            Kind::Bytes => format!("{qualifier}uint8_t *{name}"),
            Kind::Array("u8", count) => format!("{qualifier}uint8_t {name}[{count}]"),
            Kind::Array(_, count) => format!("{qualifier}uint64_t {name}[{count}]"),
        }
    }

    fn in_rust(&self) -> String {
        let name = &self.name;
        let pointer = if self.is_const { "*const" } else { "*mut" };
        match self.kind {
            Kind::Number => format!("{name}: u64"),
            Kind::Size => format!("{name}: usize"),
            Kind::Bytes => format!("{name}: {pointer} u8"),
            Kind::Array(element, count) => format!("{name}: {pointer} [{element}; {count}]"),
        }
    }
}

struct Function {
    name: String,
    parameters: Vec<Parameter>,
    has_result: bool,
}

impl Function {
    /// Those that capi defines for other languages, in its order.
    fn all() -> Vec<Function> {
        let text = without_comments(DEFINED);
        let mut parts = text.split("#[unsafe(no_mangle)]\npub extern \"C\" fn ");
        let before = parts.next().expect("a first part");
        assert!(!before.contains("extern \"C\""), "{before}");
        parts.map(Function::from_source).collect()
    }

    /// From its name on.
    fn from_source(text: &str) -> Function {
        let (name, text) = text.split_once('(').expect("parameters");
        let (parameters, text) = text.split_once(')').expect("the end of the parameters");
        let (head, _) = text.split_once('{').expect("a contract or a body");
        let result = head.split("ensures").next().map(str::trim);
        let has_result = match result {
            Some("-> u64") => true,
            Some("") => false,
            _ => panic!("{name}: a result {result:?}"),
        };
        assert!(!text.contains("extern \"C\""), "after {name}: {text}");
        let parameters = parameters
            .split(',')
            .map(str::trim)
            .filter(|parameter| !parameter.is_empty())
            .flat_map(|parameter| {
                let (name, kind) = parameter.split_once(": ").expect(parameter);
                Parameter::all(name, kind)
            });
        Function {
            name: name.to_string(),
            parameters: parameters.collect(),
            has_result,
        }
    }

    /// Its declaration in the header.
    fn in_c(&self) -> String {
        self.prototype(|parameter| parameter.in_c(&parameter.name))
    }

    /// The same with no names but its own.
    fn types_in_c(&self) -> String {
        self.prototype(|parameter| parameter.in_c(""))
    }

    fn prototype(&self, parameter: impl Fn(&Parameter) -> String) -> String {
        let result = if self.has_result { "uint64_t" } else { "void" };
        let parameters: Vec<String> = self.parameters.iter().map(parameter).collect();
        format!("{result} {}({})", self.name, parameters.join(", "))
    }

    /// Its declaration in `host/sys`.
    fn in_rust(&self) -> String {
        let parameters: Vec<String> = self.parameters.iter().map(Parameter::in_rust).collect();
        let result = if self.has_result { " -> u64" } else { "" };
        format!("pub fn {}({}){result};", self.name, parameters.join(", "))
    }
}

/// A space or the line's end stands for each comment. No text in these files has what begins one in it.
fn without_comments(text: &str) -> String {
    let mut left = String::new();
    let mut rest = text;
    while let Some(at) = rest.find("//").into_iter().chain(rest.find("/*")).min() {
        let (before, comment) = rest.split_at(at);
        let (end, instead) = match comment.starts_with("//") {
            true => ("\n", "\n"),
            false => ("*/", " "),
        };
        left = left + before + instead;
        rest = comment.split_once(end).expect("the comment's end").1;
    }
    left + rest
}

/// The words and marks of a text with one space between them, so that white space does not count, nor the comma after the last of
/// a list.
fn normal(text: &str) -> String {
    let mut words: Vec<String> = Vec::new();
    let mut in_word = false;
    for c in text.chars() {
        let is_word = c.is_alphanumeric() || c == '_';
        match words.last_mut() {
            Some(word) if in_word && is_word => word.push(c),
            _ if c.is_whitespace() => {}
            _ => words.push(c.to_string()),
        }
        in_word = is_word;
    }
    words.join(" ").replace(", )", ")")
}

/// Each statement of the header, head of a block or line of the preprocessor that names a function of the library.
fn declared() -> Vec<String> {
    let text = without_comments(HEADER)
        .lines()
        .map(|line| match line.trim_start().starts_with('#') {
            true => format!("{line};"),
            false => format!("{line}\n"),
        })
        .collect::<String>();
    text.split([';', '{', '}'])
        .filter(|statement| statement.contains("shrunvaki_"))
        .map(normal)
        .collect()
}

/// Compiles a C file that includes the header.
#[track_caller]
fn compile(compiler: &str, words: &[&str], folder: &Folder, source: &str) {
    let include = Path::new(env!("CARGO_MANIFEST_DIR")).join("../../include");
    let include = format!("-I{}", include.display());
    let source = write(folder, "source.c", source.as_bytes());
    let source = source.display().to_string();
    let words = [&STRICT[..], words, &[&include, &source]].concat();
    let ran = run(compiler, &words);
    assert_eq!(ran.status, Some(0), "{}\n{}", ran.errors, ran.text());
}

#[test]
fn the_header_declares_what_is_defined() {
    let mut expected: Vec<String> = Function::all()
        .iter()
        .map(Function::in_c)
        .chain(INLINE.map(String::from))
        .map(|declaration| normal(&declaration))
        .collect();
    let mut declared = declared();
    expected.sort();
    declared.sort();
    assert_eq!(declared, expected);
}

#[test]
fn sys_declares_what_is_defined() {
    let functions: Vec<String> = Function::all().iter().map(Function::in_rust).collect();
    let expected = format!("#![no_std] extern \"C\" {{ {} }}", functions.join(" "));
    assert_eq!(normal(&without_comments(SYS)), normal(&expected));
}

#[test]
fn the_header_compiles_and_has_these_types() {
    let folder = folder("boundary");
    let include = "#include \"shrunvaki.h\"\n#include \"shrunvaki.h\"\n";
    let again: Vec<String> = Function::all()
        .iter()
        .map(|function| format!("{};\n", function.types_in_c()))
        .collect();
    let source = format!("{include}{}", again.concat());
    // not -fsyntax-only, which says nothing of a function that is not used
    let object = folder.file("object").display().to_string();
    compile("cc", &["-std=c11", "-c", "-o", &object], &folder, &source);
    if Command::new("c++").arg("--version").output().is_ok() {
        let words = ["-std=c++11", "-xc++", "-c", "-o", &object];
        let source = format!("{include}extern \"C\" {{\n{}}}\n", again.concat());
        compile("c++", &words, &folder, &source);
    } else {
        println!("skipped: no C++ compiler");
    }
}

#[test]
fn the_header_has_the_texts_of_refusals() {
    let folder = folder("texts");
    let program = folder.file("texts").display().to_string();
    let source = r#"
#include "shrunvaki.h"
#include <inttypes.h>
#include <stdio.h>

static void say(uint64_t number)
{
    const char *text = shrunvaki_vhdx_refusal_text(number);
    printf("%" PRIu64 ": %s\n", number, text ? text : "none");
}

int main(void)
{
    for (uint64_t number = 0; number <= 30; number++)
        say(number);
    say(UINT64_MAX);
    return 0;
}
"#;
    compile("cc", &["-std=c11", "-o", &program], &folder, source);
    let printed = run(&program, &[""; 0]).with(0).text();
    let expected: Vec<String> = (0..=30)
        .chain([u64::MAX])
        .map(|number| {
            let text = Refusal::new(number).map_or("none", Refusal::text);
            format!("{number}: {text}")
        })
        .collect();
    assert_eq!(printed.lines().collect::<Vec<_>>(), expected);
}
