//! Processor time and sleeps, by the system's accounts.

use std::ffi::{c_int, c_long};
use std::io;
use std::os::unix::process::ExitStatusExt;
use std::process::ExitStatus;

/// `struct rusage` on 64-bit Linux: its two times, and its counts, of which the last but one is that of voluntary switches.
#[repr(C)]
#[derive(Default)]
struct Usage {
    user: [c_long; 2],
    system: [c_long; 2],
    counts: [c_long; 14],
}

/// `struct timespec` on 64-bit Linux.
#[repr(C)]
#[derive(Default)]
struct Moment {
    seconds: c_long,
    nanos: c_long,
}

unsafe extern "C" {
    fn wait4(pid: c_int, status: *mut c_int, options: c_int, usage: *mut Usage) -> c_int;
    fn clock_gettime(clock: c_int, moment: *mut Moment) -> c_int;
}

/// The clock of the calling thread's processor time, as Linux numbers it. What `getrusage` says of a thread is up to a tick of the system behind.
const THREAD_TIME: c_int = 3;

/// The place of voluntary switches among the counts.
const VOLUNTARY: usize = 12;

/// What a process took until it ended.
#[derive(Clone, Copy)]
pub struct Cost {
    /// Its processor time, in microseconds.
    pub micros: f64,
    /// How often a thread of it went to sleep.
    pub sleeps: i64,
}

/// The processor time of this thread so far, in microseconds.
pub fn of_thread() -> f64 {
    let mut moment = Moment::default();
    // SAFETY: the system writes into `moment` alone, which has the size of its structure.
    let answer = unsafe { clock_gettime(THREAD_TIME, &mut moment) };
    assert_eq!(answer, 0, "clock_gettime: {}", io::Error::last_os_error());
    moment.seconds as f64 * 1e6 + moment.nanos as f64 / 1e3
}

/// Waits for a child process to end well, and answers what it took. Fails with how it ended else.
pub fn of_process(pid: u32) -> Result<Cost, String> {
    let mut usage = Usage::default();
    let mut status = 0;
    let pid = c_int::try_from(pid).expect("a process number");
    // SAFETY: the system writes into `status` and `usage` alone, and this process waits for its own child, once.
    let answer = unsafe { wait4(pid, &mut status, 0, &mut usage) };
    if answer != pid {
        return Err(format!("wait4: {}", io::Error::last_os_error()));
    }
    let ended = ExitStatus::from_raw(status);
    if !ended.success() {
        return Err(format!("it ended with {ended}"));
    }
    let [seconds, micros] = usage.user;
    let [more_seconds, more_micros] = usage.system;
    Ok(Cost {
        micros: (seconds + more_seconds) as f64 * 1e6 + (micros + more_micros) as f64,
        sleeps: usage.counts[VOLUNTARY],
    })
}
