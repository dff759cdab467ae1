"""Runs tests that were compiled with checks, each as a process by itself, and tests/play."""
import contextlib
import json
import re
import shutil
import subprocess
import sys
import tempfile
import threading
import time
from typing import NamedTuple

import units

TOP = units.TOP
# A busy machine takes several times as long as an idle one, and the longest test takes half a minute on that.
SECONDS = 600
COUNTS = re.compile(r"^(\d+) passed, (\d+) failed$", re.M)


class Ran(NamedTuple):
    """What some tests of a name came to."""

    name: str
    passed: int
    failed: int
    seconds: float
    told: str  # what the failing tests printed


class Test(NamedTuple):
    name: str  # the folder of tests/unit, or the crate that it stands in
    path: str
    words: list  # that run it

    def waits(self):
        """Whether it waits for clocks."""
        return units.line_of(self.name).waits()


class Ended(NamedTuple):
    """How a command ended."""

    status: int
    said: str
    complained: str


class Runner:
    """Runs commands, and keeps what runs, so that an interrupt ends it."""

    def __init__(self, again=False):
        self.lock, self.running, self.is_ended, self.again = threading.Lock(), {}, False, again

    def run(self, name, words, seconds=None, **how):
        """Runs a command to its end."""
        with self.lock:
            if self.is_ended:
                return Ended(1, "", "")
            streams = {"stdin": subprocess.DEVNULL, "stdout": subprocess.PIPE, "stderr": subprocess.PIPE, "errors": "replace"}
            process = subprocess.Popen(words, **streams, **how)
            self.running[process] = name
        try:
            said, complained = process.communicate(timeout=seconds)
        except subprocess.TimeoutExpired:
            process.kill()
            said, complained = process.communicate()
            complained += f"it hadn't ended after {seconds} seconds\n"
        finally:
            with self.lock:
                del self.running[process]
        return Ended(process.returncode, said, complained)

    def names(self):
        with self.lock:
            return sorted({*self.running.values()})

    def end(self):
        """Ends what runs, and begins nothing any more."""
        with self.lock:
            self.is_ended = True
            for process in self.running:
                with contextlib.suppress(OSError):
                    process.terminate()

    def build(self, names):
        """Compiles the tests of some names together. What came of it where they can't be run, and the tests."""
        begun = time.monotonic()
        ended = self.run(", ".join(names), [sys.executable, "-B", f"{TOP}/tests/compiled.py", *names])
        seconds = time.monotonic() - begun
        if ended.status:
            return unbuilt(names, ended.complained, seconds), []
        words = json.loads(ended.said)
        listed = re.findall(r"^(.*): test$", self.run(", ".join(names), [*words, "--list"], cwd="/", env={}).said, re.M)
        return [], [Test(name_of(it, names), it, [*words, it]) for it in listed if it != units.FIRST_TEST]

    def play(self, name, kinds):
        """Plays tests that are data."""
        begun = time.monotonic()
        ended = self.run(name, [f"{TOP}/tests/play", "--unproved", *kinds])
        counts = COUNTS.findall(ended.said)
        passed, failed = map(int, counts[-1]) if counts else (0, 1)
        told = "" if ended.status == 0 else ended.said + ended.complained
        return [Ran(name, passed, max(failed, int(ended.status != 0)), time.monotonic() - begun, told)], []

    def test(self, test):
        """Runs a test, and once more where it fails, waits for clocks, and may be tried again."""
        ran = self.run_once(test)
        if ran.failed and self.again and test.waits():
            second = self.run_once(test)
            ran = second._replace(seconds=ran.seconds + second.seconds, told=f"{ran.told}test {test.path}: tried again\n{second.told}")
        return [ran], []

    def run_once(self, test):
        """Runs a test as rt runs it: in a new folder, and with no environment."""
        begun = time.monotonic()
        with tempfile.TemporaryDirectory(prefix="test-") as folder:
            ended = self.run(test.name, test.words, SECONDS, cwd=folder, env={})
        passed = ended.status == 0
        told = "" if passed else f"test {test.path} ... FAILED\n" + "".join(f"    {it}\n" for it in placed(ended.said + ended.complained, [test.name]).splitlines())
        return Ran(test.name, int(passed), int(not passed), time.monotonic() - begun, told)


def name_of(path, names):
    """The name that a test belongs to: its outermost module, or the crate where it stands inside one."""
    return path.partition("::")[0] if path.partition("::")[0] in names else names[0]


def placed(text, names):
    """What was told of the crate of some names, with its files as they stand in tests/unit."""
    return re.sub(r"\bsrc/(\w+)((?:/\w+)*)\.rt\b", lambda it: f"tests/unit/{it[1]}{it[2] or '/lib'}.rattle" if it[1] in names else it[0], text)


def unbuilt(names, complained, seconds):
    """What came of names that weren't compiled: those that the compiler named, and the others that were compiled with them."""
    told = placed(complained, names)
    at_fault = [it for it in names if f"tests/unit/{it}/" in told] or names[:1]
    others = f"not run, since it is compiled with {', '.join(at_fault)}"
    return [Ran(it, 0, 1, seconds, told if it == at_fault[0] else others) for it in names]


class Shown:
    """Prints a line for each name, once nothing of it is left, and on a terminal one that says what runs and is written over."""

    def __init__(self):
        self.left, self.came, self.done = {}, {}, []
        self.begun, self.is_terminal = time.monotonic(), sys.stderr.isatty()

    def clear(self):
        if self.is_terminal:
            print("\r\033[K", end="", file=sys.stderr, flush=True)

    def show(self, names):
        if self.is_terminal and names:
            line = f"test: {time.monotonic() - self.begun:.0f} s; now {', '.join(names)}"
            print(f"\r\033[K{line[: shutil.get_terminal_size().columns - 1]}", end="", file=sys.stderr, flush=True)

    def expect(self, tests):
        for it in tests:
            self.left[it.name] = self.left.get(it.name, 0) + 1

    def add(self, ran):
        """Notes what came of a test, or of all of a name."""
        old = self.came.pop(ran.name, Ran(ran.name, 0, 0, 0, ""))
        came = Ran(ran.name, old.passed + ran.passed, old.failed + ran.failed, old.seconds + ran.seconds, old.told + ran.told)
        self.left[ran.name] = self.left.get(ran.name, 1) - 1
        if self.left[ran.name]:
            self.came[ran.name] = came
            return
        self.done.append(came)
        self.clear()
        for line in came.told.splitlines():
            print(f"    {line}")
        print(f"{came.name}: {came.passed} passed, {came.failed} failed, {came.seconds:.0f} s", flush=True)
