//! That docs/TRACE.md cites nothing that is not there: each file, each definition, contract and theorem in it, each must-fail edit
//! and each test.
use std::fs;
use std::path::{Path, PathBuf};

fn root() -> PathBuf {
    Path::new(env!("CARGO_MANIFEST_DIR")).join("../..")
}

/// The file that a citation names: in a crate, among the tests, or from the repository's root.
fn file(cited: &str) -> Option<PathBuf> {
    ["crates", "host/wrapper/tests", "host/cli/tests", "."]
        .iter()
        .map(|folder| root().join(folder).join(cited))
        .find(|path| path.is_file())
}

/// What a cell of a table cites, in backquotes.
fn citations(cell: &str) -> Vec<&str> {
    cell.split('`').skip(1).step_by(2).collect()
}

/// A line declares a name: it stands there behind such words as `pub`, `record` or `fn`.
fn declares(line: &str, name: &str) -> bool {
    const BEFORE: [&str; 11] = [
        "abbrev",
        "unfoldable",
        "pub",
        "record",
        "data",
        "extern",
        "\"C\"",
        "fn",
        "const",
        "struct",
        "enum",
    ];
    let word = line
        .split_whitespace()
        .find(|word| !BEFORE.contains(word))
        .unwrap_or("");
    word.split(['(', ':', '<', ';']).next() == Some(name)
}

/// Words that are cited as such.
fn is_keyword(name: &str) -> bool {
    ["requires", "ensures", "&[u8]", "o"].contains(&name)
}

/// What a cell cites that is not there.
fn missing(cell: &str) -> Vec<String> {
    let mut missing = Vec::new();
    let mut texts: Vec<String> = Vec::new();
    for cited in citations(cell) {
        if [".antt", ".rt", ".rs", ".md", ".h"]
            .iter()
            .any(|end| cited.ends_with(end))
        {
            match file(cited) {
                Some(path) => texts.push(fs::read_to_string(path).expect("a text")),
                None => missing.push(cited.to_string()),
            }
        } else if !is_keyword(cited)
            && file(cited).is_none()
            && !texts
                .iter()
                .any(|text| text.lines().any(|line| declares(line, cited)))
        {
            missing.push(cited.to_string());
        }
    }
    missing
}

/// The edits that a cell cites and that are not there.
fn missing_edits(cell: &str) -> Vec<String> {
    citations(cell)
        .into_iter()
        .filter(|cited| {
            let path = cited
                .split_once('/')
                .map(|(name, edit)| root().join(format!("crates/{name}/must-fail/{edit}.edit")));
            !path.is_some_and(|path| path.is_file())
        })
        .map(String::from)
        .collect()
}

#[test]
fn every_citation_is_there() {
    let text = fs::read_to_string(root().join("docs/TRACE.md")).expect("docs/TRACE.md");
    let mut rows = 0;
    for (number, line) in text.lines().enumerate() {
        if !line.starts_with("| ") {
            continue;
        }
        let cells: Vec<&str> = line.trim_matches('|').split(" | ").collect();
        let [_, definition, contract, edits, tests] = cells[..] else {
            panic!("line {}: {} cells", number + 1, cells.len())
        };
        let mut absent = missing_edits(edits);
        for cell in [definition, contract, tests] {
            absent.extend(missing(cell));
        }
        assert!(absent.is_empty(), "line {}: {absent:?}", number + 1);
        rows += 1;
    }
    assert!(rows > 150, "{rows} rows");
}
