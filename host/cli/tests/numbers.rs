//! That the numbers and layouts of the operating system that are written by hand are those of the C library's headers.
use shrunvaki_testkit::command::{folder, run, write};
use std::fs;
use std::path::Path;

/// Where they stand, from this package on.
const SOURCES: [&str; 4] = [
    "src/os.rs",
    "src/snapshot.rs",
    "../wrapper/src/mapping.rs",
    "../scratch/src/signals.rs",
];

/// How C's names for such numbers begin.
const PREFIXES: [&str; 9] = [
    "SIG", "F_", "O_", "PROT_", "MAP_", "MS_", "SEEK_", "SA_", "EINTR",
];

/// Name and value of each, as C writes them.
fn numbers(source: &str) -> Vec<(String, String)> {
    let path = Path::new(env!("CARGO_MANIFEST_DIR")).join(source);
    let text = fs::read_to_string(path).expect("a source");
    text.lines()
        .filter_map(|line| line.trim_start_matches("pub ").strip_prefix("const "))
        .filter_map(|line| line.strip_suffix(';')?.split_once(": "))
        .filter_map(|(name, rest)| Some((name, rest.split_once(" = ")?.1)))
        .filter(|(name, _)| PREFIXES.iter().any(|prefix| name.starts_with(prefix)))
        .map(|(name, value)| (name.to_string(), value.replace("0o", "0")))
        .collect()
}

#[test]
fn numbers_are_the_c_librarys() {
    let mut checks = String::new();
    for source in SOURCES {
        let numbers = numbers(source);
        assert!(numbers.len() >= 5, "{source}: {numbers:?}");
        for (name, value) in numbers {
            checks += &format!("    CHECK({name}, {value});\n");
        }
    }
    let program = format!(
        r#"#define _GNU_SOURCE
#include <errno.h>
#include <fcntl.h>
#include <signal.h>
#include <stddef.h>
#include <stdio.h>
#include <sys/mman.h>
#include <ucontext.h>

#define CHECK(name, value) \
    if ((long)(name) != (long)(value)) printf("%s is %ld, not %ld\n", #name, (long)(name), (long)(value))

int main(void)
{{
{checks}    CHECK(sizeof(struct flock), 32);
    CHECK(offsetof(struct flock, l_whence), 2);
    CHECK(offsetof(struct flock, l_start), 8);
    CHECK(offsetof(struct flock, l_len), 16);
    CHECK(offsetof(struct flock, l_pid), 24);
    CHECK(sizeof(struct sigaction), 152);
    CHECK(offsetof(struct sigaction, sa_mask), 8);
    CHECK(offsetof(struct sigaction, sa_flags), 136);
    CHECK(offsetof(siginfo_t, si_addr), 16);
    CHECK(offsetof(ucontext_t, uc_mcontext.gregs[REG_ERR]), 192);
    return 0;
}}
"#
    );
    let folder = folder("numbers");
    let source = write(&folder, "numbers.c", program.as_bytes());
    let binary = folder.file("numbers");
    run("cc", &["-o".as_ref(), binary.as_path(), &source]).with(0);
    assert_eq!(run(&binary, &[""; 0]).with(0).text(), "");
}
