//! How often the threads of a process went to sleep.

use std::fs;
use std::io;
use std::path::Path;

const FIELD: &str = "voluntary_ctxt_switches:";

/// The voluntary context switches of all threads that a process has, since each began.
pub fn of_process(pid: u32) -> Result<u64, String> {
    let tasks = format!("/proc/{pid}/task");
    let of_tasks = || -> io::Result<u64> {
        let mut all = 0;
        for task in fs::read_dir(&tasks)? {
            all += of_task(&task?.path())?;
        }
        Ok(all)
    };
    of_tasks().map_err(|error| format!("cannot read the threads in {tasks}: {error}"))
}

fn of_task(folder: &Path) -> io::Result<u64> {
    let status = fs::read_to_string(folder.join("status"))?;
    status
        .lines()
        .find_map(|line| line.strip_prefix(FIELD)?.trim().parse().ok())
        .ok_or(io::Error::other(format!("a status has no {FIELD}")))
}
