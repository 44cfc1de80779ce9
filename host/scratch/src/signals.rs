//! What is done before a signal ends the process. A handler may do next to nothing: it wakes a thread, which removes the folders
//! and has the signal do what it would have done.
use std::ffi::c_int;
use std::io::{PipeReader, PipeWriter, Read, Write};
use std::sync::{Once, OnceLock};
use std::{io, process, thread};

extern "C" {
    fn signal(number: c_int, handler: usize) -> usize;
    fn raise(number: c_int) -> c_int;
}

const SIGHUP: c_int = 1;
const SIGINT: c_int = 2;
const SIGTERM: c_int = 15;

const SIG_DFL: usize = 0;
const SIG_IGN: usize = 1;

static WAKE: OnceLock<PipeWriter> = OnceLock::new();

/// From the first folder on. Where no thread can be had, signals end the process as ever, and the folder stays.
pub fn watch() {
    static ONCE: Once = Once::new();
    ONCE.call_once(|| {
        let Ok(woken) = thread_to_wake() else { return };
        WAKE.get_or_init(|| woken);
        for number in [SIGHUP, SIGINT, SIGTERM] {
            // SAFETY: the handler does nothing but what a handler may: it writes a byte to a pipe.
            unsafe {
                // what whoever started the process had ignored stays ignored
                if signal(number, on_signal as *const () as usize) == SIG_IGN {
                    signal(number, SIG_IGN);
                }
            }
        }
    });
}

fn thread_to_wake() -> io::Result<PipeWriter> {
    let (reader, writer) = io::pipe()?;
    thread::Builder::new().spawn(move || wait(reader))?;
    Ok(writer)
}

fn wait(mut reader: PipeReader) {
    let mut number = [0];
    if reader.read_exact(&mut number).is_err() {
        return;
    }
    crate::remove_all();
    let number = c_int::from(number[0]);
    // SAFETY: no handler is set any more; the default ends the process.
    unsafe {
        signal(number, SIG_DFL);
        raise(number);
    }
    process::exit(128 + number);
}

extern "C" fn on_signal(number: c_int) {
    if let Some(mut writer) = WAKE.get() {
        let _ = writer.write(&[number as u8]);
    }
}
