"""Must-fail edits: what each says, and whether it can be applied. Those of the gate stand in crates/NAME/must-fail, the others in edits/NAME."""

import re
from pathlib import Path
from typing import NamedTuple

TOP = Path(__file__).resolve().parent.parent
# The parts of a crate that an edit may change, and a proof reads.
PARTS = ("src", "specs", "proofs")
# As rt reads the name of an edit.
NAME = re.compile(r"[A-Za-z0-9_-][A-Za-z0-9_.-]*\.edit")


class Fault(Exception):
    """What is wrong with an input, and what to do."""


class Edit(NamedTuple):
    """An edit of a crate."""

    crate: str
    file: Path

    @property
    def name(self):
        return f"{self.crate}/{self.file.stem}"

    @property
    def path(self):
        return self.file.relative_to(TOP)


class Change(NamedTuple):
    """A text that stands in a file once, and what stands there instead."""

    file: str
    old: str
    new: str


def edits_in(folder, crates):
    """The edits in a folder of each of these crates, given as a form such as edits/{}."""
    places = [(it, TOP / folder.format(it)) for it in crates]
    return [Edit(crate, file) for crate, place in places if place.is_dir() for file in sorted(place.iterdir()) if file.suffix != ".md"]


def known_crates():
    """The names in crates.txt."""
    lines = (TOP / "crates.txt").read_text().splitlines()
    return [it.split(":")[0].split()[0] for it in lines if ":" in it and not it.startswith("#")]


def crates_with_edits():
    """The names of the folders of edits/, in the order of crates.txt; those that it lacks come last."""
    order = {crate: place for place, crate in enumerate(known_crates())}
    folders = [it.name for it in (TOP / "edits").iterdir() if it.is_dir() and it.name != "__pycache__"]
    return sorted(folders, key=lambda it: (order.get(it, len(order)), it))


def strange_folders(crates):
    """What is wrong with folders of edits/ that are no crate."""
    for crate in sorted(set(crates) - set(known_crates())):
        yield f"edits/{crate}: crates.txt has no such crate: rename the folder as its crate, or remove it"


def doubled(edits):
    """What is wrong with edits of edits/ that stand in must-fail/ too."""
    both = [it.name for it in edits if (TOP / "crates" / it.crate / "must-fail" / it.file.name).exists()]
    for crate in sorted({it.split("/")[0] for it in both}):
        names = [it.split("/")[1] for it in both if it.startswith(f"{crate}/")]
        yield f"crates/{crate}/must-fail: {', '.join(names)}: stands in edits/{crate} too, perhaps since an edits/try was killed: remove it from one of them"


def changes_of(edit):
    """What an edit changes, in its order. Raises Fault where it doesn't say so."""
    file, old, changes = "", "", []
    for number, line in enumerate(edit.file.read_text().splitlines(), 1):
        if line.startswith("file: "):
            file = line.removeprefix("file: ").strip()
        elif line.startswith("old: "):
            old = line.removeprefix("old: ")
        elif line.startswith("new:"):
            if not file or not old:
                raise Fault(f"{edit.path}:{number}: 'new:' stands before any 'file:' or 'old:': put these above it")
            changes.append(Change(file, old, line.removeprefix("new:").removeprefix(" ")))
            old = ""
        elif line.strip() and not line.startswith("#"):
            raise Fault(f"{edit.path}:{number}: begins with none of 'file: ', 'old: ', 'new:' and '#', so nobody reads it: mend or remove the line")
    if old:
        raise Fault(f"{edit.path}: its last 'old:' has no 'new:': add one")
    if not changes:
        raise Fault(f"{edit.path}: has no pair of 'old:' and 'new:': add one, or remove the file")
    return changes


def texts_with(edit):
    """The texts of the files that an edit changes, with its changes made one after the other. Raises Fault where one can't be made."""
    texts, before = {}, {}
    for change in changes_of(edit):
        if ".." in change.file.split("/") or change.file.split("/")[0] not in PARTS:
            raise Fault(f"{edit.path}: {change.file} isn't below src/, specs/ or proofs/: name a file there")
        if change.file not in texts:
            file = TOP / "crates" / edit.crate / change.file
            if not file.is_file():
                raise Fault(f"{edit.path}: {file.relative_to(TOP)} isn't there: name the file that has the text now, or remove the edit")
            texts[change.file] = before[change.file] = file.read_text()
        count = texts[change.file].count(change.old)
        if count != 1:
            raise Fault(f"{edit.path}: 'old: {change.old.strip()[:60]}' stands {count} times in {change.file}, and not once: mend the edit")
        texts[change.file] = texts[change.file].replace(change.old, change.new)
    if texts == before:
        raise Fault(f"{edit.path}: changes nothing: mend or remove it")
    return texts
