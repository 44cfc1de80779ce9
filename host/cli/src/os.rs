//! What the standard library lacks of the operating system: signals, some flags of open files, and locks of other kinds.
//!
//! The numbers are those of Linux on x86-64; `tests/numbers.rs` compares them with the C library's.
use crate::output::failure_line;
use crate::text::Name;
use std::ffi::{c_int, c_short, c_void};
use std::os::fd::{AsRawFd, BorrowedFd};
use std::sync::atomic::{AtomicBool, Ordering};
use std::sync::OnceLock;

extern "C" {
    fn signal(number: c_int, handler: usize) -> usize;
    fn write(file: c_int, bytes: *const c_void, length: usize) -> isize;
    fn fcntl(file: c_int, command: c_int, ...) -> c_int;
    fn _exit(status: c_int) -> !;
}

const SIGXFSZ: c_int = 25;
const SIG_IGN: usize = 1;
const F_GETFD: c_int = 1;
const F_GETFL: c_int = 3;
const F_OFD_GETLK: c_int = 36;
const F_RDLCK: c_short = 0;
const F_WRLCK: c_short = 1;
const F_UNLCK: c_short = 2;
const SEEK_SET: c_short = 0;
const O_APPEND: c_int = 0o2000;

const STANDARD_OUTPUT: c_int = 1;
const STANDARD_ERROR: c_int = 2;

/// Why a file that is in use cannot be used any more.
#[derive(Debug, PartialEq, Eq, Clone, Copy)]
pub enum Lost {
    /// It became shorter, or cannot be read.
    File,
    /// Its pages cannot be had in memory.
    Memory,
}

/// What is said then: on standard error, and as an object.
struct Words {
    errors: String,
    object: String,
}

static WORDS: OnceLock<[Words; 2]> = OnceLock::new();

/// Whether an object that tells an error may be printed: the answer is to be JSON, and nothing of it is printed yet.
pub static OBJECT_FITS: AtomicBool = AtomicBool::new(false);

/// Sets what is said where the file with this name is lost. Once a process, for its first file: a command has one.
pub fn set_words(name: &Name) {
    WORDS.get_or_init(|| {
        [
            "became shorter while it was in use, or cannot be read any more",
            "its pages cannot be had in memory: too many places of it are in use, or there is no memory left",
        ]
        .map(|why| {
            let message = format!("{name}: {why}");
            Words {
                object: failure_line(&message),
                errors: format!("shrunvaki: {message}\n"),
            }
        })
    });
}

/// Ends the process with status 2. A signal handler may do this.
pub fn end_when_lost(lost: Lost) -> ! {
    // SAFETY: the bytes are those of the words, which were set before; the process ends here, with nothing of it run.
    unsafe {
        if let Some(words) = WORDS.get() {
            let Words { errors, object } = &words[lost as usize];
            write(STANDARD_ERROR, errors.as_ptr().cast(), errors.len());
            if OBJECT_FITS.load(Ordering::Relaxed) {
                write(STANDARD_OUTPUT, object.as_ptr().cast(), object.len());
            }
        }
        _exit(2)
    }
}

/// A file that would become longer than the limit for this process is an error then, and not the process's end.
pub fn ignore_file_size_signal() {
    // SAFETY: nothing of this process runs by this signal.
    unsafe { signal(SIGXFSZ, SIG_IGN) };
}

static OUTPUT_CLOSED: AtomicBool = AtomicBool::new(false);

/// Whether the process was started without a standard output. Rust's own start puts the null device there, so it is too late to look
/// when `main` begins.
pub fn output_is_closed() -> bool {
    OUTPUT_CLOSED.load(Ordering::Relaxed)
}

extern "C" fn look_at_output() {
    // SAFETY: the call looks at a descriptor's flags.
    let closed = unsafe { fcntl(STANDARD_OUTPUT, F_GETFD) } == -1;
    OUTPUT_CLOSED.store(closed, Ordering::Relaxed);
}

/// Run by the C library before Rust's own start.
#[used]
#[link_section = ".init_array"]
static BEFORE_MAIN: extern "C" fn() = look_at_output;

/// Whether whatever is written goes to the file's end.
pub fn appends(file: BorrowedFd) -> bool {
    // SAFETY: the call looks at a file's flags.
    let flags = unsafe { fcntl(file.as_raw_fd(), F_GETFL) };
    flags == -1 || flags & O_APPEND != 0
}

/// C's `struct flock`.
#[repr(C)]
struct RangeLock {
    kind: c_short,
    whence: c_short,
    start: i64,
    length: i64,
    process: c_int,
}

/// A process that has a file open under qemu's locks holds the byte 100 + n for each right n that it uses; 1 is to write.
const QEMU_WRITES: i64 = 101;

/// Whether another program says by a lock on a range of the file that it writes to it: qemu's, or an exclusive one of anybody's.
/// These are locks of another kind than the one that this command takes, and neither keeps the other out.
pub fn another_writes(file: BorrowedFd) -> bool {
    let meets = |kind, start, length| {
        let mut lock = RangeLock {
            kind,
            whence: SEEK_SET,
            start,
            length,
            process: 0,
        };
        // SAFETY: the call reads and writes the lock, which has the layout of C's.
        let asked = unsafe { fcntl(file.as_raw_fd(), F_OFD_GETLK, &mut lock) };
        asked == 0 && lock.kind != F_UNLCK
    };
    // a reader's lock on all of the file meets every writer's
    meets(F_RDLCK, 0, 0) || meets(F_WRLCK, QEMU_WRITES, 1)
}
