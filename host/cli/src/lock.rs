//! Locks on files. They are advisory: programs that take them are kept from changing a file that is in use here, others are not.
use crate::os;
use crate::output::{note, Stop};
use crate::progress::timed;
use crate::text::Name;
use std::fs::{File, TryLockError};
use std::io;
use std::os::fd::AsFd;

/// Asks that nobody changes the file while it is read. It is read in any case, or its owner could keep it from being charged by
/// holding a lock. Answers whether another program has locked it.
pub fn to_read(file: &File, name: &Name) -> bool {
    match file.try_lock_shared() {
        Ok(()) => false,
        Err(TryLockError::WouldBlock) => {
            note(format_args!(
                "shrunvaki: {name}: another program has locked it, and may be changing it; it is read as it is now\n"
            ));
            true
        }
        // some file systems have no locks
        Err(TryLockError::Error(error)) => {
            note(format_args!(
                "shrunvaki: {name}: read without a lock: {error}\n"
            ));
            false
        }
    }
}

/// Keeps others out while the file is changed; `wait`s for them if that is asked for.
pub fn to_write(file: &File, name: &Name, wait: bool) -> Result<(), Stop> {
    let cannot = |error: io::Error| Stop::failed(format!("{name}: cannot be locked: {error}"));
    match file.try_lock() {
        Ok(()) => {}
        Err(TryLockError::WouldBlock) if wait => {
            timed("waiting for the lock of another program", || file.lock()).map_err(cannot)?;
        }
        Err(TryLockError::WouldBlock) => {
            return Err(Stop::failed(format!(
                "{name}: another program has locked it; try again when that has ended, or wait for it with --wait"
            )))
        }
        Err(TryLockError::Error(error)) => return Err(cannot(error)),
    }
    if os::another_writes(file.as_fd()) {
        note(format_args!(
            "shrunvaki: warning: {name}: another program, as a virtual machine, has it open for writing; what it writes and what the \
             log writes may destroy each other\n"
        ));
    }
    Ok(())
}
