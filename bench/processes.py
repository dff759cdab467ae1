"""What processes use, and the machine that they run on."""
import datetime
import os
import platform


def wait_for(process):
    """Waits until a process has ended, and returns what it used, as `getrusage` tells it.

    The most memory, `ru_maxrss` in KiB, is never below what this program itself held when it started the process."""
    _, status, used = os.wait4(process.pid, 0)
    process.returncode = os.waitstatus_to_exitcode(status)
    return used


def machine():
    """The processors that this program may use, the memory and the day, in one line."""
    with open("/proc/cpuinfo", encoding="utf-8") as file:
        names = [line.partition(":")[2].strip() for line in file if line.startswith("model name")]
    name = ", ".join([platform.machine(), *names[:1]])
    memory = os.sysconf("SC_PAGE_SIZE") * os.sysconf("SC_PHYS_PAGES")
    return f"{len(os.sched_getaffinity(0))} processors ({name}), {memory / 2**30:.0f} GB, {datetime.date.today()}"
