//! A file in memory without a copy: a reservation of the buffer's capacity that takes no memory until it is touched, with the
//! file mapped over its start.
//!
//! The library's proofs are about a buffer that nobody else changes during a call. Where another process writes to a mapped file
//! meanwhile, nothing is proved, and where the file becomes shorter, touching its bytes raises SIGBUS. So making a mapping is
//! `unsafe`: the caller sees to it, by a lock that others heed or by a file of the caller's own.
use std::ffi::{c_int, c_void};
use std::fs::{File, OpenOptions};
use std::io::{self, ErrorKind};
use std::os::fd::AsRawFd;
use std::os::unix::fs::OpenOptionsExt;
use std::path::Path;
use std::ptr;

extern "C" {
    fn mmap(
        at: *mut c_void,
        length: usize,
        protection: c_int,
        flags: c_int,
        file: c_int,
        offset: i64,
    ) -> *mut c_void;
    fn munmap(at: *mut c_void, length: usize) -> c_int;
    fn msync(at: *mut c_void, length: usize, flags: c_int) -> c_int;
}

#[cfg(not(all(target_os = "linux", target_arch = "x86_64")))]
compile_error!(
    "the numbers below are those of Linux on x86-64, for which the library's archive is"
);

const PROT_READ: c_int = 1;
const PROT_WRITE: c_int = 2;
const MAP_SHARED: c_int = 1;
const MAP_PRIVATE: c_int = 2;
const MAP_FIXED: c_int = 0x10;
const MAP_ANONYMOUS: c_int = 0x20;
const MAP_NORESERVE: c_int = 0x4000;
const MS_SYNC: c_int = 4;
const O_NONBLOCK: c_int = 0o4000;
const O_NOCTTY: c_int = 0o400;
const O_PATH: c_int = 0o10000000;

/// Opens a regular file. Whatever else is at the path is opened without waiting and looked at then, so that an exchange in between
/// cannot make a program wait for somebody at the other end of a pipe: it is an error, [`ErrorKind::IsADirectory`] or
/// [`ErrorKind::InvalidInput`].
///
/// Where another process holds a lease on the file this waits for its end, which the kernel brings about after a time.
pub fn open_regular(path: impl AsRef<Path>, options: &mut OpenOptions) -> io::Result<File> {
    let path = path.as_ref();
    let mut opened = options.custom_flags(O_NONBLOCK | O_NOCTTY).open(path);
    if matches!(&opened, Err(error) if error.kind() == ErrorKind::WouldBlock) {
        // waiting, but for the file itself: nothing can be put in its place
        let mut handle = OpenOptions::new();
        let handle = handle.read(true).custom_flags(O_PATH).open(path)?;
        let path = format!("/proc/self/fd/{}", handle.as_raw_fd());
        check_regular(&handle)?;
        opened = options.custom_flags(O_NOCTTY).open(path);
    }
    let file = opened?;
    check_regular(&file)?;
    Ok(file)
}

fn check_regular(file: &File) -> io::Result<()> {
    let kind = file.metadata()?.file_type();
    if kind.is_dir() {
        return Err(ErrorKind::IsADirectory.into());
    }
    if !kind.is_file() {
        return Err(ErrorKind::InvalidInput.into());
    }
    Ok(())
}

/// A buffer whose first bytes are a file's, to be read.
#[derive(Debug)]
pub struct Mapping(Reserved);

impl Mapping {
    /// A buffer of `capacity` bytes over the file's first `length`, or over as many as the capacity allows.
    ///
    /// # Safety
    ///
    /// While the mapping lives, nobody writes to the file or makes it shorter.
    pub unsafe fn read_only(file: &File, length: u64, capacity: u64) -> io::Result<Mapping> {
        Reserved::over(file, length, capacity, PROT_READ, MAP_SHARED).map(Mapping)
    }
}

impl AsRef<[u8]> for Mapping {
    fn as_ref(&self) -> &[u8] {
        self.0.bytes()
    }
}

/// A buffer whose first bytes are a file's, to be read and written.
#[derive(Debug)]
pub struct MappingMut(Reserved);

impl MappingMut {
    /// As [`Mapping::read_only`]; what is written stays in memory, and the file is not changed.
    ///
    /// # Safety
    ///
    /// While the mapping lives, nobody writes to the file or makes it shorter.
    pub unsafe fn private(file: &File, length: u64, capacity: u64) -> io::Result<MappingMut> {
        Reserved::over(
            file,
            length,
            capacity,
            PROT_READ | PROT_WRITE,
            MAP_PRIVATE | MAP_NORESERVE,
        )
        .map(MappingMut)
    }

    /// As [`Mapping::read_only`]; what is written is written to the file.
    ///
    /// # Safety
    ///
    /// While the mapping lives, nobody else writes to the file or reads what is written, and nobody makes it shorter.
    pub unsafe fn shared(file: &File, length: u64, capacity: u64) -> io::Result<MappingMut> {
        Reserved::over(file, length, capacity, PROT_READ | PROT_WRITE, MAP_SHARED).map(MappingMut)
    }

    /// Has what was written to a shared file reach its disk.
    pub fn flush(&self) -> io::Result<()> {
        self.0.flush()
    }
}

impl AsRef<[u8]> for MappingMut {
    fn as_ref(&self) -> &[u8] {
        self.0.bytes()
    }
}

impl AsMut<[u8]> for MappingMut {
    fn as_mut(&mut self) -> &mut [u8] {
        // SAFETY: the reservation has so many bytes, writable, until this value is dropped, and the borrow of this value is the
        // only way to them in this process.
        unsafe { std::slice::from_raw_parts_mut(self.0.start, self.0.capacity) }
    }
}

/// Addresses of this value's own.
#[derive(Debug)]
struct Reserved {
    start: *mut u8,
    capacity: usize,
}

// SAFETY: the addresses are this value's own, wherever it is used from.
unsafe impl Send for Reserved {}
// SAFETY: they are written through a unique borrow alone.
unsafe impl Sync for Reserved {}

impl Reserved {
    fn over(
        file: &File,
        length: u64,
        capacity: u64,
        protection: c_int,
        sharing: c_int,
    ) -> io::Result<Reserved> {
        let capacity = usize::try_from(capacity).map_err(|_| io::ErrorKind::OutOfMemory)?;
        if capacity == 0 {
            let start = ptr::NonNull::dangling().as_ptr();
            return Ok(Reserved { start, capacity });
        }
        let unbacked = MAP_PRIVATE | MAP_ANONYMOUS | MAP_NORESERVE;
        let start = map(ptr::null_mut(), capacity, protection, unbacked, -1)?;
        // from here on the drop of this value undoes the reservation
        let reserved = Reserved {
            start: start.cast(),
            capacity,
        };
        let in_file = usize::try_from(length).unwrap_or(usize::MAX).min(capacity);
        if in_file > 0 {
            let flags = sharing | MAP_FIXED;
            map(start, in_file, protection, flags, file.as_raw_fd())?;
        }
        Ok(reserved)
    }

    fn bytes(&self) -> &[u8] {
        // SAFETY: the reservation has so many bytes, readable, until this value is dropped.
        unsafe { std::slice::from_raw_parts(self.start, self.capacity) }
    }

    fn flush(&self) -> io::Result<()> {
        if self.capacity == 0 {
            return Ok(());
        }
        // SAFETY: the range is this value's.
        match unsafe { msync(self.start.cast(), self.capacity, MS_SYNC) } {
            0 => Ok(()),
            _ => Err(io::Error::last_os_error()),
        }
    }
}

impl Drop for Reserved {
    fn drop(&mut self) {
        if self.capacity > 0 {
            // SAFETY: the range is this value's, and nothing borrows from it any more.
            unsafe { munmap(self.start.cast(), self.capacity) };
        }
    }
}

/// Maps from the file's start. A place other than null has to be a reservation of the caller's.
fn map(
    at: *mut c_void,
    length: usize,
    protection: c_int,
    flags: c_int,
    file: c_int,
) -> io::Result<*mut c_void> {
    // SAFETY: without FIXED the kernel chooses free addresses; with it the caller's own reservation is mapped anew.
    let start = unsafe { mmap(at, length, protection, flags, file, 0) };
    if start as isize == -1 {
        return Err(io::Error::last_os_error());
    }
    Ok(start)
}
