//! A file in a buffer that nobody else can change.
//!
//! The proofs are about bytes that stay as they are during a call, and no lock keeps a stranger from writing to his file while it is
//! read. So every page of the buffer is copied from the file when it is first touched, by a handler of the fault that this raises,
//! and the file is not asked for it again. Only what is touched takes memory, and a file may be larger than memory.
//!
//! What is written stays in the buffer. The handler notes the pages, since each is a sector of the log's or a header: `write_to`
//! brings them to the file.
//!
//! One thread touches the buffer, and no pointer into it is handed to the operating system, whose own accesses raise no fault.
use crate::os::{end_when_lost, Lost};
use std::ffi::{c_int, c_void};
use std::fs::File;
use std::io;
use std::ops::Range;
use std::os::fd::AsRawFd;
use std::os::unix::fs::FileExt;
use std::ptr;
use std::sync::atomic::{AtomicPtr, Ordering};
use std::sync::Once;

extern "C" {
    fn mmap(
        at: *mut c_void,
        length: usize,
        protection: c_int,
        flags: c_int,
        file: c_int,
        offset: i64,
    ) -> *mut c_void;
    fn munmap(at: *mut c_void, length: usize) -> c_int;
    fn mprotect(at: *mut c_void, length: usize, protection: c_int) -> c_int;
    fn pread(file: c_int, to: *mut c_void, length: usize, offset: i64) -> isize;
    fn sigaction(number: c_int, action: *const Action, old: *mut Action) -> c_int;
    fn signal(number: c_int, handler: usize) -> usize;
    fn __errno_location() -> *mut c_int;
}

const PROT_NONE: c_int = 0;
const PROT_READ: c_int = 1;
const PROT_WRITE: c_int = 2;
const MAP_PRIVATE: c_int = 2;
const MAP_ANONYMOUS: c_int = 0x20;
const MAP_NORESERVE: c_int = 0x4000;
const SIGSEGV: c_int = 11;
const SIG_DFL: usize = 0;
const SA_SIGINFO: c_int = 4;
const EINTR: c_int = 4;

/// C's `struct sigaction`.
#[repr(C)]
struct Action {
    handler: usize,
    mask: [u64; 16],
    flags: c_int,
    restorer: usize,
}

/// Where `siginfo_t` has the address that was touched, and `ucontext_t` the bits that say how; this one is set for a write.
const SI_ADDR: usize = 16;
const REG_ERR: usize = 192;
const IS_WRITE: u64 = 2;

/// Of memory, and of a sector of the log's.
const PAGE: usize = 4096;

/// So many pages are copied at once where one is read, and given at once where one past the file's end is written.
const READ_AHEAD: usize = 16;
const PAST_THE_END: usize = 256;

/// So many pages are a group.
const GROUP: usize = 4096;

/// What became of a page.
#[derive(Debug, PartialEq, Eq, Clone, Copy)]
#[repr(u8)]
enum State {
    Untouched,
    Copied,
    Written,
}

/// A reservation that takes no memory until it is touched.
struct Reserved {
    start: *mut u8,
    length: usize,
}

impl Reserved {
    fn new(length: usize, protection: c_int) -> io::Result<Reserved> {
        // no reservation is empty
        let length = length.max(1);
        let flags = MAP_PRIVATE | MAP_ANONYMOUS | MAP_NORESERVE;
        // SAFETY: the kernel chooses free addresses.
        let start = unsafe { mmap(ptr::null_mut(), length, protection, flags, -1, 0) };
        match start as isize {
            -1 => Err(io::Error::last_os_error()),
            _ => Ok(Reserved {
                start: start.cast(),
                length,
            }),
        }
    }
}

impl Drop for Reserved {
    fn drop(&mut self) {
        // SAFETY: the addresses are this value's, and nothing borrows from them any more.
        unsafe { munmap(self.start.cast(), self.length) };
    }
}

/// What the handler works on.
struct Pages {
    buffer: Reserved,
    capacity: usize,
    /// A state for each page.
    states: Reserved,
    file: File,
    /// So much of the file is in the buffer.
    file_length: usize,
    /// A byte for each group of pages: not zero where one of them was touched, so that these are found in a large file.
    groups: Reserved,
}

impl Pages {
    fn count(&self) -> usize {
        self.capacity.div_ceil(PAGE)
    }

    fn state(&self, page: usize) -> State {
        assert!(page < self.count());
        // SAFETY: each page has a state, which was zero before the handler wrote it, and is one of the three.
        unsafe { self.states.start.add(page).cast::<State>().read_volatile() }
    }

    fn mark(&self, page: usize, end: usize, state: State) {
        for page in page..end {
            // SAFETY: as above; each group has a byte too.
            unsafe {
                self.states
                    .start
                    .add(page)
                    .cast::<State>()
                    .write_volatile(state);
                self.groups.start.add(page / GROUP).write_volatile(1);
            }
        }
    }

    /// The pages in a state, which is not that of those that nothing has touched.
    fn in_state(&self, state: State) -> impl Iterator<Item = usize> + '_ {
        let count = self.count();
        (0..count.div_ceil(GROUP))
            // SAFETY: as above.
            .filter(|&group| unsafe { self.groups.start.add(group).read_volatile() } != 0)
            .flat_map(move |group| group * GROUP..count.min((group + 1) * GROUP))
            .filter(move |&page| self.state(page) == state)
    }

    /// Behind the last of the pages, at most so many from this one on, that nothing has touched.
    fn untouched(&self, page: usize, most: usize) -> usize {
        let end = self.count().min(page + most);
        (page..end)
            .find(|&page| self.state(page) != State::Untouched)
            .unwrap_or(end)
    }

    /// Lets the access go on that was held up.
    fn touch(&self, page: usize, is_write: bool) {
        match (self.state(page), is_write) {
            (State::Untouched, false) => {
                let end = self.untouched(page, READ_AHEAD);
                self.protect(page, end, PROT_READ | PROT_WRITE);
                self.copy(page, end);
                self.protect(page, end, PROT_READ);
                self.mark(page, end, State::Copied);
            }
            (State::Untouched, true) => {
                // past the file's end there is nothing to copy, and a page that stays zero is not written
                let most = match page * PAGE >= self.file_length {
                    true => PAST_THE_END,
                    false => 1,
                };
                let end = self.untouched(page, most);
                self.protect(page, end, PROT_READ | PROT_WRITE);
                self.copy(page, end);
                self.mark(page, end, State::Written);
            }
            // what is only read is not held up any more
            (State::Copied, _) => {
                self.protect(page, page + 1, PROT_READ | PROT_WRITE);
                self.mark(page, page + 1, State::Written);
            }
            // nothing is held up
            (State::Written, _) => end_when_lost(Lost::Memory),
        }
    }

    fn protect(&self, page: usize, end: usize, protection: c_int) {
        let length = (end - page) * PAGE;
        // SAFETY: the pages are the buffer's, which is reserved in whole pages.
        let done = unsafe {
            let at = self.buffer.start.add(page * PAGE);
            mprotect(at.cast(), length, protection)
        };
        if done != 0 {
            end_when_lost(Lost::Memory);
        }
    }

    /// Copies pages that can be written, as far as the file has them. The rest of them is zero.
    fn copy(&self, page: usize, end: usize) {
        let mut at = page * PAGE;
        let end = (end * PAGE).min(self.file_length);
        while at < end {
            // SAFETY: the bytes are the buffer's, and can be written.
            let read = unsafe {
                let to = self.buffer.start.add(at);
                pread(self.file.as_raw_fd(), to.cast(), end - at, at as i64)
            };
            // SAFETY: the error is this thread's.
            match (read, unsafe { *__errno_location() }) {
                (1.., _) => at += read as usize,
                (-1, EINTR) => {}
                _ => end_when_lost(Lost::File),
            }
        }
    }
}

/// The one that is there: a command has one file at a time.
static PAGES: AtomicPtr<Pages> = AtomicPtr::new(ptr::null_mut());

/// A buffer whose first bytes are a file's, as they were when they were first touched.
pub struct Snapshot(Box<Pages>);

impl Snapshot {
    /// A buffer of `capacity` bytes over the file's first `length`, or over as many as the capacity allows. One at a time.
    pub fn new(file: &File, length: u64, capacity: u64) -> io::Result<Snapshot> {
        let capacity = usize::try_from(capacity).map_err(|_| io::ErrorKind::OutOfMemory)?;
        let reserved = capacity.checked_next_multiple_of(PAGE);
        let reserved = reserved.ok_or(io::ErrorKind::OutOfMemory)?;
        let mut pages = Box::new(Pages {
            buffer: Reserved::new(reserved, PROT_NONE)?,
            states: Reserved::new(capacity.div_ceil(PAGE), PROT_READ | PROT_WRITE)?,
            capacity,
            file: file.try_clone()?,
            file_length: usize::try_from(length).map_or(capacity, |length| length.min(capacity)),
            groups: Reserved::new(capacity.div_ceil(PAGE * GROUP), PROT_READ | PROT_WRITE)?,
        });
        let taken = PAGES.compare_exchange(
            ptr::null_mut(),
            &mut *pages,
            Ordering::Relaxed,
            Ordering::Relaxed,
        );
        assert!(taken.is_ok(), "one snapshot at a time");
        handle_faults();
        Ok(Snapshot(pages))
    }

    /// Whether the pages that were copied, and not written, are in the file as they were: what was decided by them still holds.
    pub fn is_current(&self) -> io::Result<bool> {
        let mut now = [0; PAGE];
        for page in self.0.in_state(State::Copied) {
            let at = page * PAGE;
            let end = (at + PAGE).min(self.0.file_length);
            // past the file's end nothing was copied
            let now = &mut now[..end.saturating_sub(at)];
            self.0.file.read_exact_at(now, at as u64)?;
            if now != &self.as_ref()[at..at + now.len()] {
                return Ok(false);
            }
        }
        Ok(true)
    }

    /// Reads bytes of the buffer without keeping more of the file in memory: what was not touched is read from the file.
    pub fn read(&self, offset: usize, to: &mut [u8]) -> io::Result<()> {
        let mut at = offset;
        let end = offset + to.len();
        while at < end {
            let touched = self.0.state(at / PAGE) != State::Untouched;
            let mut next = at / PAGE + 1;
            while next * PAGE < end && (self.0.state(next) != State::Untouched) == touched {
                next += 1;
            }
            let next = (next * PAGE).min(end);
            let part = &mut to[at - offset..next - offset];
            if touched {
                part.copy_from_slice(&self.as_ref()[at..next]);
            } else {
                let in_file = self.0.file_length.clamp(at, next) - at;
                self.0.file.read_exact_at(&mut part[..in_file], at as u64)?;
                part[in_file..].fill(0);
            }
            at = next;
        }
        Ok(())
    }

    /// Writes each page in a range that was written to the file, which has all of the range by now and zeros behind the bytes that it
    /// had. The range begins with a page. `told`: up to which offset that is done.
    pub fn write_to(
        &self,
        file: &File,
        range: Range<u64>,
        mut told: impl FnMut(u64),
    ) -> io::Result<()> {
        for page in self.0.in_state(State::Written) {
            let at = page * PAGE;
            if !range.contains(&(at as u64)) {
                continue;
            }
            let end = (at + PAGE).min(range.end as usize);
            let bytes = &self.as_ref()[at..end];
            if at < self.0.file_length || bytes.iter().any(|byte| *byte != 0) {
                file.write_all_at(bytes, at as u64)?;
            }
            told(end as u64);
        }
        Ok(())
    }
}

impl AsRef<[u8]> for Snapshot {
    fn as_ref(&self) -> &[u8] {
        // SAFETY: the reservation has so many bytes until this value is dropped; touching one that cannot be read copies it first.
        unsafe { std::slice::from_raw_parts(self.0.buffer.start, self.0.capacity) }
    }
}

impl AsMut<[u8]> for Snapshot {
    fn as_mut(&mut self) -> &mut [u8] {
        // SAFETY: as above; the borrow of this value is the only way to them.
        unsafe { std::slice::from_raw_parts_mut(self.0.buffer.start, self.0.capacity) }
    }
}

impl Drop for Snapshot {
    fn drop(&mut self) {
        PAGES.store(ptr::null_mut(), Ordering::Relaxed);
    }
}

fn handle_faults() {
    static ONCE: Once = Once::new();
    ONCE.call_once(|| {
        let action = Action {
            handler: on_fault as *const () as usize,
            mask: [0; 16],
            flags: SA_SIGINFO,
            restorer: 0,
        };
        // SAFETY: the handler calls nothing but what a signal handler may; it touches no memory that raises a fault.
        unsafe { sigaction(SIGSEGV, &action, ptr::null_mut()) };
    });
}

extern "C" fn on_fault(_: c_int, info: *const u8, context: *const u8) {
    // SAFETY: the kernel hands over both structures, which have these parts.
    let (address, how) = unsafe {
        let address = info.add(SI_ADDR).cast::<usize>().read();
        (address, context.add(REG_ERR).cast::<u64>().read())
    };
    // SAFETY: the pointer is that of a snapshot's pages, which live until it is taken away; the error is this thread's.
    unsafe {
        let errno = *__errno_location();
        let pages = PAGES.load(Ordering::Relaxed).as_ref();
        let at = |pages: &&Pages| address.wrapping_sub(pages.buffer.start as usize);
        match pages.filter(|pages| at(pages) < pages.capacity) {
            Some(pages) => pages.touch(at(&pages) / PAGE, how & IS_WRITE != 0),
            // none of ours: it ends the process when it comes again
            None => {
                signal(SIGSEGV, SIG_DFL);
            }
        }
        *__errno_location() = errno;
    }
}

#[cfg(test)]
mod tests {
    use super::{Snapshot, PAGE};
    use shrunvaki_scratch::Folder;
    use std::fs::{self, File};
    use std::os::unix::fs::{FileExt, MetadataExt};

    /// All in one test: there is one snapshot at a time.
    #[test]
    fn what_was_touched_stays_and_what_was_written_is_told_apart() {
        let folder = Folder::new("snapshot").expect("a folder");
        let length = 64 * PAGE + 100;
        let path = folder.write("file", &vec![1; length]).expect("a file");
        let file = File::options().read(true).write(true).open(&path);
        let file = file.expect("the file");
        let mut snapshot =
            Snapshot::new(&file, length as u64, 1 << 40).expect("space for a terabyte");

        // read once, whatever the file holds then
        assert_eq!(snapshot.as_ref()[0], 1);
        file.write_all_at(&vec![2; length], 0).expect("written");
        assert_eq!(snapshot.as_ref()[0], 1);
        assert_eq!(snapshot.as_ref()[50 * PAGE], 2);
        assert!(!snapshot.is_current().expect("read"));
        let mut some = vec![0; 45 * PAGE];
        snapshot.read(10 * PAGE, &mut some).expect("read");
        assert_eq!((some[0], some[30 * PAGE], some[41 * PAGE]), (1, 2, 2));

        // past the file's end there are zeros, in its last page too
        let end = &snapshot.as_ref()[length - 1..length + 2 * PAGE];
        assert!(end[0] == 2 && end[1..].iter().all(|byte| *byte == 0));

        // a page that was read, one that was not, and one past the end; the rest of the file is others'
        for page in [0, 30, 70] {
            snapshot.as_mut()[page * PAGE + 7] = 9;
        }
        snapshot.as_mut()[(1 << 40) - 1] = 0;
        file.write_all_at(&[3; PAGE], 5 * PAGE as u64)
            .expect("written");
        file.set_len(1 << 26).expect("a longer file");
        let read = || fs::read(&path).expect("the file");
        let write = |range| snapshot.write_to(&file, range, |_| {}).expect("written");
        write(PAGE as u64..1 << 26);
        assert_eq!((read()[7], read()[30 * PAGE + 7]), (2, 9), "page 30 alone");
        write(0..PAGE as u64);
        let now = read();
        let expected = |page: usize| match page {
            0 => 1,
            5 => 3,
            70 => 0,
            _ => 2,
        };
        for page in [0, 1, 5, 29, 30, 31, 63, 70] {
            let bytes = &now[page * PAGE..][..PAGE];
            let changed = if [0, 30, 70].contains(&page) {
                9
            } else {
                expected(page)
            };
            assert_eq!(
                (bytes[6], bytes[7]),
                (expected(page), changed),
                "page {page}"
            );
        }
        assert!(now[71 * PAGE..].iter().all(|byte| *byte == 0));
        let allocated = file.metadata().expect("its state").blocks() * 512;
        assert!(allocated < 1 << 20, "zeros were written: {allocated} bytes");

        drop(snapshot);
        let snapshot = Snapshot::new(&file, 1 << 26, 1 << 26).expect("another");
        assert_eq!(snapshot.as_ref()[PAGE], 2);
        assert!(snapshot.is_current().expect("read"));
    }
}
