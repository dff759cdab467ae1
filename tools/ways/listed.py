"""The ways of docs/ways.txt: the functions that a typed line and its datagram pass, as they stand there.

docs/tables makes docs/WAYS.md of them, and tools/ways/run compares them with a run."""
from pathlib import Path
from typing import NamedTuple

TOP = Path(__file__).resolve().parent.parent.parent
FILE = TOP / "docs/ways.txt"


class Passed(NamedTuple):
    """A function that a way passes."""

    crate: str
    file: str  # below the crate's src/
    name: str  # with its type, as Node::turn
    mark: str = ""  # '>' where all that it calls is passed, '..' where it does other work too, '-' where it is other work

    def source(self):
        return TOP / "crates" / self.crate / "src" / self.file

    def bare(self):
        """The same without its mark."""
        return self._replace(mark="")


class Step(NamedTuple):
    """A step of a way."""

    title: str
    listed: list

    def passed(self):
        """The functions that it passes."""
        return [it for it in self.listed if it.mark != "-"]


class Way(NamedTuple):
    """A way, from its first function to its last."""

    title: str
    steps: list

    def listed(self):
        """All that stands there, in order."""
        return [it for step in self.steps for it in step.listed]

    def passed(self):
        """The functions that it passes."""
        return [it for step in self.steps for it in step.passed()]

    def left_out(self):
        """Those that are other work."""
        return [it.bare() for it in self.listed() if it.mark == "-"]

    def counted(self):
        """What is said of its functions."""
        passed = self.passed()
        crates = [it.crate for it in passed]
        files = {(it.crate, it.file) for it in passed}
        changes = sum(one != other for one, other in zip(crates, crates[1:]))
        return f"{len(passed)} functions in {len(files)} files of {len(set(crates))} crates, with {changes} changes of crate"


def named(place, words):
    """The functions of a line, which stand in a file of a crate."""
    crate, file = place.split()
    for word in words.split(", "):
        mark = word[0] if word[0] in ">-" else ".." if word.endswith("..") else ""
        yield Passed(crate, file, word.lstrip(">-").removesuffix(".."), mark)


def read_ways():
    """All ways. Raises ValueError where a line can't be read, or a function stands twice on a way."""
    found = []
    for number, line in enumerate(FILE.read_text().splitlines(), 1):
        place, colon, words = line.partition(": ")
        if not line or line.startswith("#"):
            continue
        if line.startswith("== "):
            found.append(Way(line[3:], []))
        elif line.startswith("= ") and found:
            found[-1].steps.append(Step(line[2:], []))
        elif colon and len(place.split()) == 2 and found and found[-1].steps:
            found[-1].steps[-1].listed.extend(named(place, words))
        else:
            raise ValueError(f"docs/ways.txt: line {number} is neither a way, a step nor functions of a file: {line}")
    for way in found:
        listed = [it.bare() for it in way.listed()]
        for at, it in enumerate(listed):
            if it in listed[:at]:
                raise ValueError(f"docs/ways.txt: {it.name} of {it.crate}, {it.file} stands twice")
    return found
