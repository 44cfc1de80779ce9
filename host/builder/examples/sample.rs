//! Writes the sample file, a small VHDX with a pending log, to the path that is given.
use std::process::ExitCode;
use vhdx_builder::sample;

fn main() -> ExitCode {
    let Some(path) = std::env::args_os().nth(1) else {
        eprintln!("usage: sample FILE");
        return ExitCode::from(2);
    };
    let image = sample::pending();
    match std::fs::write(&path, &image.buffer[..image.length as usize]) {
        Ok(()) => ExitCode::SUCCESS,
        Err(error) => {
            eprintln!("{}: {error}", path.display());
            ExitCode::from(2)
        }
    }
}
