"""Programs that `rt try` compiles with checks and that no proof covers: compiles one once for a text, and keeps it.

    import checked
    words = checked.program("crates/srm_main")      # subprocess.run([*words, "world"], ..) runs it
    words = checked.tests("crates/srm_rota")        # [*words, "--list"] lists its tests, a line "NAME: test" each; [*words, NAME] runs one of them

Both return words that run what was compiled: in the caller's folder, with the caller's streams and environment, and with the words that follow as its arguments. The
folder is a crate's, in any repository: the folder two above it has crates.txt. What is kept stands in out/checked at the repository's top, or in the folder `kept`, and
is compiled anew where the crate's text differs, that of a crate below it, or the kit's `rt`. While one call compiles, others that want the same wait for it.

Where a check stops a run, AddressSanitizer prints addresses; where in the sources that is, only `rt try` says.

Both raise Unready, whose text is a line that says what happened and what to do, and whose status is that of ./srm; `said` is what rt printed. A caller that is to be
interrupted turns signals into exceptions: then what runs here is ended, and the next call begins anew. Standard error tells what goes on, each line behind `who`."""
import contextlib
import errno
import fcntl
import hashlib
import json
import os
import re
import resource
import shutil
import signal
import subprocess
import sys
import tempfile
import time
from pathlib import Path

PARTS = ("src", "specs", "c")
# What it takes to compile the whole program, in bytes.
MEMORY = 6_300_000_000
# So much is free on a disk that isn't full.
ROOM = 1_000_000
# The program is run so many times with nothing to read, so that one of these runs is seen.
RUNS = 200
# So many seconds pass between two looks at what runs: a crate's tests may take no longer.
LOOK = 0.02
# The words of the check beside a try, behind the prover's path. It tells who writes code about reserved names, and takes a processor for as long as the try does.
HINTS = re.compile(rb"[^\0]*/rattle\0check\0(?:.*\0)?--start\0no function\0", re.S)
NO_RT, REFUSED, NOT_NOW = 127, 70, 75


class Unready(Exception):
    """Why there is nothing to run."""

    def __init__(self, status, why, said=""):
        super().__init__(why)
        self.status, self.said = status, said


def program(folder, **how):
    """The words that run a crate's program. `kept` says where it is kept, `memory` and `takes` how many bytes and how long it takes to compile it, `who` who tells of it."""
    return Crate(folder, [], **how).ready()


def tests(folder, **how):
    """The words that run a crate's tests."""
    return Crate(folder, ["--test"], **how).ready()


def is_kept(folder, **how):
    """Whether a crate's program is there, and of the text as it stands."""
    return Crate(folder, [], **how).words() is not None


def read_crates(top):
    """The lines of crates.txt, by crate."""
    found = {}
    for line in (top / "crates.txt").read_text().splitlines():
        head, colon, _ = line.partition("#")[0].partition(":")
        if colon:
            found[head.split()[0]] = line.partition("#")[0]
    return found


def crates_below(lines, name):
    """A crate, and those of the repository that it stands on."""
    found = [name]
    for crate in found:
        found += [it for it in lines[crate].partition(":")[2].split() if it in lines and it not in found]
    return sorted(found)


def kit():
    """What tells the kit from others."""
    rt = shutil.which("rt")
    if not rt:
        raise Unready(NO_RT, "there is no rt on the path: install the Rattle kit, and put its folder bin on PATH")
    file = Path(rt).resolve()
    named = file.parent.parent / "KIT-ID"
    told = file.stat()
    return f"{file} {told.st_size} {told.st_mtime_ns} {named.read_text() if named.exists() else ''}"


def text_of(top, name):
    """The sum of all that decides what is compiled: the texts of a crate and of those below it, their lines of crates.txt, and the kit."""
    lines = read_crates(top)
    if name not in lines:
        raise Unready(REFUSED, f"crates.txt has no crate {name}")
    found = hashlib.sha256(kit().encode())
    for crate in crates_below(lines, name):
        found.update(f"\n{lines[crate]}\n".encode())
        for file in sorted(it for part in PARTS for it in (top / "crates" / crate / part).rglob("*")):
            if file.is_file():
                text = file.read_bytes()
                found.update(f"\n{file.relative_to(top)} {len(text)}\n".encode())
                found.update(text)
    return found.hexdigest()[:16]


def free_memory():
    """What can be taken without that something else is ended, in bytes; SRM_MEMINFO names another file than the system's."""
    told = Path(os.environ.get("SRM_MEMINFO", "/proc/meminfo")).read_text()
    limit = resource.getrlimit(resource.RLIMIT_AS)[0]
    free = 1024 * sum(int(re.search(rf"^{it}:\s+(\d+)", told, re.M)[1]) for it in ("MemAvailable", "SwapFree"))
    return free if limit == resource.RLIM_INFINITY else min(free, limit)


class Shown:
    """What standard error says. On a terminal a line counts the seconds, and is written over."""

    def __init__(self, who):
        self.who, self.is_terminal, self.begun, self.shown = who, sys.stderr.isatty(), time.monotonic(), -1

    def tell(self, text):
        self.clear()
        # Where standard error is closed, the work goes on.
        with contextlib.suppress(OSError):
            print(f"{self.who}: {text}", file=sys.stderr, flush=True)

    def begin(self, text):
        self.begun, self.shown, self.text = time.monotonic(), -1, text
        if not self.is_terminal:
            self.tell(text)

    def count(self):
        seconds = int(time.monotonic() - self.begun)
        if self.is_terminal and seconds > self.shown:
            self.shown = seconds
            # A narrow terminal shows the seconds too.
            line = f"{self.who}: {seconds} s, {self.text}"
            print(f"\r\033[K{line[: shutil.get_terminal_size().columns - 1]}", end="", file=sys.stderr, flush=True)

    def clear(self):
        if self.is_terminal:
            print("\r\033[K", end="", file=sys.stderr, flush=True)


class Crate:
    """A crate whose program, or whose tests, are to be run."""

    def __init__(self, folder, flags, kept=None, memory=MEMORY, takes="three minutes", who="srm"):
        self.folder, self.flags, self.memory, self.takes, self.shown = Path(folder).resolve(), flags, memory, takes, Shown(who)
        self.top, self.name = self.folder.parent.parent, self.folder.name
        self.text = text_of(self.top, self.name)
        self.all_kept = Path(kept).resolve() if kept else self.top / "out" / "checked"
        self.prefix = f"{self.name}.tests-" if flags else f"{self.name}-"
        self.kept = self.all_kept / f"{self.prefix}{self.text}"

    def words(self):
        """The words that run it, where it is kept, and the kit's loader is where it was."""
        try:
            found = [*json.loads((self.kept / "starter").read_text()), str(self.kept / self.name)]
        except OSError:
            return None
        return found if os.access(found[0], os.X_OK) else None

    def ready(self):
        """The words that run it, once it is kept."""
        found = self.words()
        if found:
            return found
        try:
            self.all_kept.mkdir(parents=True, exist_ok=True)
            with self.locked():
                if not self.words():
                    self.compile()
        except OSError as error:
            why = f"can't keep {self.name} in {self.all_kept}: {error.strerror}; that has to be a folder where this user may write"
            raise self.full() if error.errno == errno.ENOSPC else self.not_now(why) from error
        return self.words()

    @contextlib.contextmanager
    def locked(self):
        """Keeps other calls from compiling the same. The system frees the lock of a process that ends, however it ends. The file has the text that doesn't compile, so that
        those who waited don't try it again."""
        with open(self.all_kept / f"{self.prefix[:-1]}.lock", "a+", encoding="utf-8") as file:
            try:
                fcntl.flock(file, fcntl.LOCK_EX | fcntl.LOCK_NB)
            except BlockingIOError:
                self.shown.tell(f"another call compiles {self.name}, and this one waits for it")
                fcntl.flock(file, fcntl.LOCK_EX)
                file.seek(0)
                if file.read() == self.text:
                    raise Unready(REFUSED, f"{self.name} doesn't compile: the call that this one waited for says where") from None
            file.truncate(0)
            try:
                yield
            except Unready as why:
                file.write(self.text if why.status == REFUSED else "")
                raise

    def compile(self):
        """Compiles it beside what is kept, and keeps it whole."""
        free = free_memory()
        if free < self.memory:
            self.shown.tell(f"compiling {self.name} takes {self.memory / 1e9:.0f} GB of memory, and {free / 1e9:.1f} GB are free: it may fail; end other programs first")
        self.remove(f"{self.prefix}room-*")
        self.shown.begin(f"compiling {self.name} with checks, once for this text, which takes about {self.takes}")
        room = Path(tempfile.mkdtemp(prefix=f"{self.prefix}room-", dir=self.all_kept))
        try:
            self.compile_in(room)
        except BaseException as error:
            if not isinstance(error, (OSError, Unready)):
                self.shown.tell(f"compiling {self.name} was interrupted; the next call begins anew")
            raise
        finally:
            self.shown.clear()
            shutil.rmtree(room, ignore_errors=True)

    def compile_in(self, room):
        """Compiles it in a folder, and moves it from there to where it is kept."""
        ready = room / "ready"
        ready.mkdir()
        with open(room / "said", "w+b") as said:
            with subprocess.Popen(self.command(room), cwd=self.folder, env={**os.environ, "TMPDIR": str(room)}, stdin=subprocess.DEVNULL, stdout=said, stderr=said) as tried:
                try:
                    starter = self.caught(tried, room, ready / self.name)
                finally:
                    # It ends what it began, and then itself.
                    tried.terminate()
            said.seek(0)
            if starter is None:
                raise self.refused(tried.returncode, said.read().decode(errors="replace"))
        if text_of(self.top, self.name) != self.text:
            raise self.not_now(f"a source of {self.name} changed while it was compiled: run this again")
        (ready / "starter").write_text(json.dumps(starter))
        # Those of older texts. One that runs goes on.
        self.remove(f"{self.prefix}*", room)
        ready.rename(self.kept)

    def remove(self, pattern, but=None):
        for old in self.all_kept.glob(pattern):
            if old != but:
                shutil.rmtree(old, ignore_errors=True)

    def command(self, room):
        """The call of rt. A program runs once for each of some empty files, so long that it is seen; tests take their time."""
        words = ["rt", "try", *self.flags, "--steps", "1", "--seconds", "60"]
        if self.flags:
            return words
        (room / "cases").mkdir()
        for number in range(RUNS):
            (room / "cases" / f"{number:03}").touch()
        return [*words, "--cases", str(room / "cases")]

    def caught(self, tried, room, ready):
        """Gives the program another name once rt runs it, and returns the words before it in its command line; nothing where rt ends before that."""
        while tried.poll() is None:
            self.shown.count()
            for process in below(tried.pid):
                with contextlib.suppress(OSError):
                    line = (process / "cmdline").read_bytes()
                    if HINTS.match(line):
                        os.kill(int(process.name), signal.SIGTERM)
                    starter = run_from(room, process, line)
                    if starter is not None:
                        second_name(os.fsdecode(starter.pop()), ready)
                        return [os.fsdecode(it) for it in starter]
            time.sleep(LOOK)
        return None

    def refused(self, status, said):
        """Why rt ended before it ran the program."""
        free = shutil.disk_usage(self.all_kept).free
        if "No space left on device" in said or free < ROOM:
            return self.full()
        if status == 1:
            return Unready(REFUSED, f"{self.name} doesn't compile: the lines above say where", said)
        return self.not_now(f"rt stopped before it had compiled {self.name}, which takes {self.memory / 1e9:.0f} GB of memory: the lines above say more; run this again", said)

    def full(self):
        return self.not_now(f"the disk of {self.all_kept} is full: free 1 GB there, and run this again")

    @staticmethod
    def not_now(why, said=""):
        return Unready(NOT_NOW, why, said)


def second_name(file, other):
    """Gives a file another name, or copies it where that can't be."""
    try:
        os.link(file, other)
    except OSError:
        shutil.copy(file, other)


def below(number):
    """A process, those that it began, and those that they began in turn, by /proc."""
    found = [Path(f"/proc/{number}")]
    for process in found:
        # One may have ended meanwhile.
        with contextlib.suppress(OSError):
            found += [Path(f"/proc/{it}") for task in (process / "task").iterdir() for it in (task / "children").read_text().split()]
    return found


def run_from(room, process, line):
    """The words of a process up to the program that it runs, where this stands below a folder."""
    place = os.fsencode(room) + b"/"
    if place not in line:
        return None
    words = line.split(b"\0")
    for at, word in enumerate(words):
        # A linker has the same word, and doesn't run it.
        if word.startswith(place) and re.search(rb" r-xp .* " + re.escape(word) + rb"\n", (process / "maps").read_bytes()):
            return words[: at + 1]
    return None
