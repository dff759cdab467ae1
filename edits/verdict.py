"""The verdicts on the edits in edits/, as the file edits/verdicts has them."""

import functools
import hashlib
import re
from typing import NamedTuple

from edit import PARTS, TOP, Fault, changes_of

FILE = TOP / "edits/verdicts"
MOST_WATCHED = 100
HEAD = """\
# The verdicts on the edits of edits/, which edits/try --write writes. A line: whether the edit is watched, the edit, the sum of the texts that the
# verdict stands on (the crate's src/, specs/ and proofs/, and the edit's own), the day, and what refused it. A line of a watched edit may have - for these three.
"""
KINDS = {"watched": True, "other": False}


class Verdict(NamedTuple):
    """That an edit was refused, and by what; or that it is watched and wasn't tried."""

    is_watched: bool
    edit: str
    sum: str
    day: str
    by: str

    def line(self):
        kind = next(name for name, watched in KINDS.items() if watched == self.is_watched)
        return " | ".join((kind, self.edit, self.sum, self.day, self.by))


def read_line(number, line):
    """The verdict of a line."""
    fields = [it.strip() for it in line.split(" | ", 4)]
    if len(fields) != 5 or fields[0] not in KINDS or not re.fullmatch(r"[\w-]+/[\w.-]+", fields[1]):
        raise Fault(f"edits/verdicts:{number}: isn't 'watched' or 'other', CRATE/EDIT, sum, day and what refused it, with ' | ' between: mend or remove the line")
    return Verdict(KINDS[fields[0]], *fields[1:])


def read_verdicts():
    """The verdicts by the names of their edits."""
    try:
        lines = FILE.read_text().splitlines()
    except (OSError, UnicodeError) as error:
        raise Fault(f"edits/verdicts can't be read ({error}): take it from the repository again: git checkout edits/verdicts") from error
    found = {}
    for number, line in enumerate(lines, 1):
        if not line.strip() or line.startswith("#"):
            continue
        verdict = read_line(number, line)
        if verdict.edit in found:
            raise Fault(f"edits/verdicts:{number}: {verdict.edit} stands twice: remove one of the lines")
        found[verdict.edit] = verdict
    return found


def write_verdicts(verdicts):
    """Writes all verdicts: those of watched edits first, each part in order of name. A run that is killed leaves the file as it was."""
    ordered = sorted(verdicts.values(), key=lambda it: (not it.is_watched, it.edit))
    beside = FILE.with_suffix(".new")
    beside.write_text(HEAD + "".join(f"{it.line()}\n" for it in ordered))
    beside.replace(FILE)


@functools.cache
def crate_sum(crate):
    """The sum of a crate's texts."""
    told = hashlib.sha256()
    for part in PARTS:
        for file in sorted((TOP / "crates" / crate / part).rglob("*")):
            if file.suffix in (".rt", ".antt"):
                told.update(f"{file.relative_to(TOP)}\0".encode() + file.read_bytes() + b"\0")
    return told.hexdigest()


def sum_for(edit):
    """The sum of the texts that a verdict on an edit stands on: its crate's, and what it changes there."""
    told = hashlib.sha256(crate_sum(edit.crate).encode())
    told.update(repr([tuple(it) for it in changes_of(edit)]).encode())
    return told.hexdigest()[:12]


def is_stale(edit, verdicts):
    """Whether an edit has no verdict, or one on other texts."""
    verdict = verdicts.get(edit.name)
    return verdict is None or verdict.sum != sum_for(edit)
