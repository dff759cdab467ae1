"""The tests that are code, and the program that plays the cases: tests/unit/NAME has each as a crate's src, with the suffix .rattle, since rt reads no .rt file outside
crates/. A line of tests/unit/uses.txt says what a crate of them uses, as crates.txt does. Here they are laid out as crates of a repository in another folder."""
import contextlib
import errno
import re
import shutil
from pathlib import Path
from typing import NamedTuple

TOP = Path(__file__).resolve().parent.parent
UNIT = TOP / "tests" / "unit"
# rt runs tests in the order of their names, and this one first, so that what was compiled is seen while it runs. It is no test of anything.
FIRST = "a_first"
FIRST_TEST = f"{FIRST}::it_is_seen"
FIRST_TEXT = """use std::thread;
use std::time::Duration;

#[test]
fn it_is_seen(rt: HostRuntime) {
    thread::sleep(&rt, Duration::from_secs(60));
}
"""


class Line(NamedTuple):
    """A crate's line of crates.txt or tests/unit/uses.txt."""

    words: list  # behind its name
    uses: list

    def may(self):
        """What its tests may: Threads, Wait."""
        return [it for word in self.words if word.startswith("tests_may=") for it in word.partition("=")[2].split("+")]

    def waits(self):
        """Whether its tests wait for clocks."""
        return "Threads" in self.may()


def read_lines(file):
    """The lines of a list of crates, by crate."""
    found = {}
    for line in file.read_text().splitlines():
        head, _, uses = line.partition("#")[0].partition(":")
        if head.strip():
            found[head.split()[0]] = Line(head.split()[1:], uses.split())
    return found


def sources(folder, suffix=".rattle"):
    """The texts of the files below a folder, by their paths without the suffix."""
    return {str(it.relative_to(folder))[: -len(suffix)]: it.read_text() for it in sorted(folder.rglob(f"*{suffix}"))}


def line_of(name):
    """A crate's line, in whichever list it stands."""
    return {**read_lines(TOP / "crates.txt"), **read_lines(UNIT / "uses.txt")}[name]


def is_program(name):
    return (UNIT / name / "main.rattle").exists()


def is_inside(name):
    """Whether the tests stand inside a crate that has more than them."""
    return (TOP / "crates" / name).is_dir()


def all_names():
    """The folders of tests/unit that have tests."""
    return [it for it in read_lines(UNIT / "uses.txt") if not is_program(it)]


def names_inside():
    """The crates that have tests inside."""
    return [it for it in read_lines(TOP / "crates.txt") if any("#[test]" in text for text in sources(TOP / "crates" / it / "src", ".rt").values())]


@contextlib.contextmanager
def naming_full_disk(folder):
    """Names a folder whose disk is full, and what to do: an error of a file that is written or copied doesn't say where."""
    try:
        yield
    except OSError as error:
        if error.errno not in (errno.ENOSPC, errno.EDQUOT):
            raise
        raise OSError(error.errno, f"can't be written ({error.strerror}; free 1 GB there)", str(folder)) from error


def copy_files(part, folder):
    """Copies the files below a folder of this repository into another one. Unlike copytree's, its error says what failed."""
    for file in (it for it in (TOP / part).rglob("*") if it.is_file()):
        copy = folder / file.relative_to(TOP)
        copy.parent.mkdir(parents=True, exist_ok=True)
        shutil.copyfile(file, copy)


def lay_out_crates(folder, parts=("src", "specs")):
    """Makes a repository in a folder with this one's crates, these parts of each."""
    for crate in read_lines(TOP / "crates.txt"):
        for part in parts:
            copy_files(f"crates/{crate}/{part}", folder)
    for name in ("HANDLES", "crates.txt"):
        shutil.copy(TOP / name, folder)


def write_crate(folder, name, line, texts):
    """Writes a crate into a repository, behind its others. The crate's folder."""
    for path, text in texts.items():
        file = folder / "crates" / name / "src" / f"{path}.rt"
        file.parent.mkdir(parents=True, exist_ok=True)
        file.write_text(text)
    with open(folder / "crates.txt", "a") as file:
        file.write(f"{' '.join([name, *line.words])}: {' '.join(line.uses)}\n")
    return folder / "crates" / name


def write_program(name, folder):
    """Writes a program of tests/unit into a repository as a crate."""
    return write_crate(folder, name, read_lines(UNIT / "uses.txt")[name], sources(UNIT / name))


def write_first(name, folder):
    """Writes the first test into a crate of a repository that has tests inside."""
    inside = folder / "crates" / name / "src"
    (inside / f"{FIRST}.rt").write_text(FIRST_TEXT)
    with open(inside / "lib.rt", "a") as file:
        file.write(f"\n#[cfg(test)]\nmod {FIRST};\n")
    return inside.parent


def write_tests(crate, names, folder, first=FIRST_TEXT):
    """Writes a crate into a repository that has the tests of these names, each as a module."""
    lines = read_lines(UNIT / "uses.txt")
    modules = [*([FIRST] if first else []), *names]
    texts = {"lib": "#![tactic(auto)]\n\n" + "".join(f"#[cfg(test)]\nmod {it};\n" for it in modules)}
    if first:
        texts[FIRST] = first
    for name in names:
        for path, text in sources(UNIT / name).items():
            inner = re.sub(r"\bcrate::", f"crate::{name}::", text).replace("#![tactic(auto)]\n", "")
            texts[name if path == "lib" else f"{name}/{path}"] = inner
    may = [it for it in ("Threads", "Wait") if any(it in lines[name].may() for name in names)]
    uses = sorted({it for name in names for it in lines[name].uses})
    return write_crate(folder, crate, Line([f"tests_may={'+'.join(may)}"] if may else [], uses), texts)
