"""Runs of the program, as the files tests/program/NAME.runs say them. README.md has the format."""

import contextlib
import dataclasses
import re
import socket


class BadLine(Exception):
    """A line that can't be read, by its number from 1."""


@dataclasses.dataclass
class Run:
    """A run of the program: its command line and its input, and what must come of it."""

    at: int  # the line that begins it
    words: list
    ports: dict  # those of this run, by name
    stdin: bytes = b""
    status: int = 0
    out: list = dataclasses.field(default_factory=list)  # all lines of standard output, unless texts are said that stand in it
    err: list = dataclasses.field(default_factory=list)
    out_has: list = dataclasses.field(default_factory=list)
    err_has: list = dataclasses.field(default_factory=list)

    def fault(self, status, out, err):
        """What is wrong with how it ended, or nothing."""
        if status != self.status:
            return f"status {status}, and not {self.status}; standard error: {shown(err)}"
        return stream_fault("standard output", out, self.out, self.out_has) or stream_fault("standard error", err, self.err, self.err_has)


def stream_fault(name, said, lines, texts):
    if not texts and said != b"".join(it + b"\n" for it in lines):
        return f"{name} is\n{shown(said)}and not\n{shown(b''.join(it + bytes([10]) for it in lines))}"
    lacking = [it for it in texts if it not in said]
    return f"{name} lacks '{shown(lacking[0])}': {shown(said)}" if lacking else None


def shown(text):
    text = text if len(text) < 2_000 else text[:2_000] + b".."
    return text.decode(errors="backslashreplace")


def read_runs(text, ports):
    """The runs of a file. `{NAME}` in a command line, or behind `in-ports`, is a port of this machine, by its name."""
    runs = []
    for number, line in enumerate(text.split(b"\n"), 1):
        if not line or line.startswith(b"#"):
            continue
        word, _, rest = line.partition(b" ")
        try:
            if word == b"$":
                runs.append(Run(number, [], {}))
                runs[-1].words = named(runs[-1], rest, ports).split()
            elif word == b"in-ports":
                runs[-1].stdin += named(runs[-1], rest, ports).encode() + b"\n"
            else:
                read_line(runs[-1], word.decode(), rest)
        except (IndexError, KeyError, ValueError):
            raise BadLine(f"line {number}: bad") from None
    return runs


def named(run, text, ports):
    """The text with the run's port in place of each `{NAME}`."""
    for it in re.findall(r"\{(\w+)\}", text.decode()):
        if it not in run.ports:
            run.ports[it] = ports.of(it)
    return text.decode().format(**run.ports)


def read_line(run, word, rest):
    if word == "in":
        run.stdin += spelled(rest) + b"\n"
    elif word == "in-end":
        run.stdin += spelled(rest)
    elif word == "in-times":
        times, _, line = rest.partition(b" ")
        run.stdin += (spelled(line) + b"\n") * int(times)
    elif word == "in-hex":
        run.stdin += bytes.fromhex(rest.decode())
    elif word == "status":
        run.status = int(rest)
    elif word in ("out", "err"):
        getattr(run, word).append(spelled(rest))
    elif word in ("out-has", "err-has"):
        getattr(run, word.replace("-", "_")).append(rest)
    else:
        raise ValueError(word)


def spelled(text):
    """The text that stands there, with N times the character x for a word `x*N`."""
    return re.sub(rb"(?<![^ ])([^ ])\*(\d+)(?![^ ])", lambda it: it[1] * int(it[2]), text)


class Ports:
    """UDP ports of loopback: `taken`, which a socket of the player has, and others that nobody has, each of them one run's."""

    def __init__(self):
        self.sockets, self.taken = contextlib.ExitStack(), self.bound()

    def bound(self):
        one = socket.socket(socket.AF_INET, socket.SOCK_DGRAM)
        one.bind(("127.0.0.1", 0))
        return one

    def of(self, name):
        one = self.taken if name == "taken" else self.sockets.enter_context(self.bound())
        return one.getsockname()[1]

    def free(self):
        """Lets the ports go that nobody is to have."""
        self.sockets.close()
