//! Programs run by tests, and temporary folders for their files.
use std::ffi::OsStr;
use std::path::{Path, PathBuf};
use std::process::{Command, Output};

pub use shrunvaki_scratch::Folder;

/// A new folder that is removed when the test ends.
pub fn folder(name: &str) -> Folder {
    Folder::new(name).expect("a temporary folder")
}

/// Writes a file in a folder.
pub fn write(folder: &Folder, name: &str, bytes: &[u8]) -> PathBuf {
    folder.write(name, bytes).expect("a temporary file")
}

/// Compiles a C file to a library that can be preloaded into programs.
pub fn compile_library(folder: &Folder, source: &Path) -> PathBuf {
    let library = folder.file("preloaded.so");
    let mut compile = Command::new("cc");
    compile.args(["-O2", "-shared", "-fPIC", "-o"]);
    end(compile.arg(&library).arg(source).arg("-ldl")).with(0);
    library
}

/// How a program ended and what it wrote.
#[derive(Debug, Clone)]
pub struct Ran {
    /// None where a signal ended it.
    pub status: Option<i32>,
    pub bytes: Vec<u8>,
    pub errors: String,
}

impl Ran {
    /// Standard output as text.
    pub fn text(&self) -> String {
        String::from_utf8(self.bytes.clone()).expect("text")
    }

    /// The same, where the program has to have ended with a status.
    #[track_caller]
    pub fn with(self, status: i32) -> Ran {
        assert_eq!(self.status, Some(status), "{}", self.errors);
        self
    }
}

/// Runs a program to its end.
pub fn run(program: impl AsRef<OsStr>, words: &[impl AsRef<OsStr>]) -> Ran {
    end(Command::new(program).args(words))
}

/// Runs a command that was made ready to its end.
pub fn end(command: &mut Command) -> Ran {
    let output = command.output();
    ran(output.unwrap_or_else(|error| panic!("{command:?}: {error}")))
}

fn ran(output: Output) -> Ran {
    Ran {
        status: output.status.code(),
        bytes: output.stdout,
        errors: String::from_utf8_lossy(&output.stderr).into_owned(),
    }
}
