//! That README.md's table of refusals is the one that the command prints from.
use shrunvaki::vhdx::Refusal;
use std::fs;
use std::path::Path;

#[test]
fn the_table_of_refusals() {
    let path = Path::new(env!("CARGO_MANIFEST_DIR")).join("../../README.md");
    let readme = fs::read_to_string(path).expect("README.md");
    let rows: Vec<&str> = readme
        .lines()
        .filter(|line| line.starts_with("| ") && line.as_bytes()[2].is_ascii_digit())
        .collect();
    let expected: Vec<String> = Refusal::all()
        .map(|refusal| {
            let (number, text) = (refusal.number(), refusal.text());
            format!("| {number} | {text} | {} |", refusal.advice())
        })
        .collect();
    assert_eq!(rows, expected);
    assert_eq!(rows.len(), 23);
}
