//! How much memory a program takes.
use std::ffi::c_int;
use std::fs;
use std::io;
use std::os::unix::process::ExitStatusExt;
use std::process::{Command, ExitStatus};

extern "C" {
    fn wait4(process: c_int, status: *mut c_int, options: c_int, usage: *mut Usage) -> c_int;
}

/// What Linux on x86-64 counts of a process.
#[repr(C)]
#[derive(Default)]
struct Usage {
    times: [i64; 4],
    /// In KiB.
    most_resident: i64,
    rest: [i64; 13],
}

/// Runs a program to its end, which has to be status 0, and answers how many bytes of memory it had at most.
///
/// What this process has counts too: a new one begins with the peak of the one that starts it.
#[allow(clippy::zombie_processes, reason = "wait4 waits for it")]
pub fn peak_memory(command: &mut Command) -> u64 {
    // forgets what it had and has given back; where that is not allowed, more counts
    let _ = fs::write("/proc/self/clear_refs", "5");
    let child = command.spawn();
    let child = child.unwrap_or_else(|error| panic!("{command:?}: {error}"));
    let process = child.id() as c_int;
    let (mut status, mut usage) = (0, Usage::default());
    // SAFETY: both are written as what they are; nobody else waits for this child.
    let ended = unsafe { wait4(process, &mut status, 0, &mut usage) };
    assert_eq!(ended, process, "{}", io::Error::last_os_error());
    let status = ExitStatus::from_raw(status);
    assert!(status.success(), "{command:?}: {status}");
    usage.most_resident as u64 * 1024
}
