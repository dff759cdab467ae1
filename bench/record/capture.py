"""A packet capture of a session on loopback, or how large one would be."""
import os
import re
import shutil
import signal
import subprocess
import sys
import time
from typing import NamedTuple

# How many bytes a capture's file has at its head, before each packet, and of each packet before its IP header.
FILE_HEAD, PACKET_HEAD, LINK_HEAD = 24, 16, 14
# KiB in which the system keeps packets until they are written, and the seconds after which it passes them on.
ROOM = 65_536
PASSED_ON = 1.5


class Captured(NamedTuple):
    """A capture: its packets, and the bytes of its file."""

    packets: int
    size: int


def counts_of_loopback():
    """How many packets came over loopback so far, and their bytes from the IP header on."""
    with open("/proc/net/dev", encoding="ascii") as file:
        counts = next(line.partition(":")[2].split() for line in file if line.partition(":")[0].strip() == "lo")
    return int(counts[1]), int(counts[0])


def begin(ports, out):
    """Begins to capture what goes over these UDP ports of loopback. None where there is no tcpdump, or it may not capture."""
    if not shutil.which("tcpdump"):
        return None
    words = ["tcpdump", "-i", "lo", "-n", "-B", str(ROOM), "-w", "-", f"udp and ({' or '.join(f'port {it}' for it in ports)})"]
    process = subprocess.Popen(words, stdout=out, stderr=subprocess.PIPE, text=True)
    if any("listening on" in line for line in process.stderr):
        return process
    process.wait()
    return None


class Capture:
    """Captures what goes over the UDP ports of a session on loopback, from where it is entered to where it is left; then `captured` says what came.

    Where tcpdump isn't there or may not capture, `is_counted` is true, and `captured` is what a capture of all that went over loopback would be, by the system's counts."""

    def __init__(self, ports, path):
        self.ports, self.path = ports, path
        self.captured = None

    def __enter__(self):
        with open(self.path, "wb") as out:
            self.process = begin(self.ports, out)
        self.is_counted = self.process is None
        self.before = counts_of_loopback()
        return self

    def __exit__(self, *_):
        if self.is_counted:
            packets, size = (now - then for now, then in zip(counts_of_loopback(), self.before))
            self.captured = Captured(packets, FILE_HEAD + packets * (PACKET_HEAD + LINK_HEAD) + size)
        else:
            self.captured = self.end()

    def end(self):
        time.sleep(PASSED_ON)
        self.process.send_signal(signal.SIGINT)
        told = self.process.stderr.read()
        self.process.wait()
        packets, dropped = (int(re.search(rf"^(\d+) packets? {how}", told, re.M)[1]) for how in ("captured", "dropped by kernel"))
        if dropped:
            print(f"bench/record: the capture lacks {dropped} packets", file=sys.stderr)
        return Captured(packets, os.path.getsize(self.path))
