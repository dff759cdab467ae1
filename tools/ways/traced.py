"""The program for valgrind: compiled with checks as `rt try` compiles it, but without the sanitizer of addresses, under which no program runs in valgrind.

`rt try` gives clang a module that has the checks, and clang adds the sanitizer. So this takes the module from there, and has it compiled without. No function is
inlined, and each symbol says whose function it is."""
import contextlib
import os
import signal
import subprocess
import sys
import time

from listed import TOP

sys.path.insert(0, str(TOP / "tools"))
import checked  # noqa: E402

SANITIZER = b"-fsanitize=address"
MODULE = "module.bc"


def program():
    """The words that run it, once it is compiled. Raises checked.Unready."""
    return Traced(TOP / "crates/srm_main", [], who="tools/ways/run").ready()


class Traced(checked.Crate):
    """A crate's program without the sanitizer, kept beside the one that has it."""

    def __init__(self, folder, flags, **how):
        super().__init__(folder, flags, **how)
        self.prefix = f"{self.name}.traced-"
        self.kept = self.all_kept / f"{self.prefix}{self.text}"

    def caught(self, tried, room, ready):
        """Compiles the module that clang is given, and returns no words: the program starts by itself."""
        words, libraries = self.taken(tried, room)
        if not words:
            return None
        tried.terminate()
        tried.wait()
        build(room, [it for it in words if it != SANITIZER], libraries, ready)
        return []

    def taken(self, tried, room):
        """Takes the module, and returns clang's words and what is linked with it; nothing where rt ends before that."""
        while tried.poll() is None:
            self.shown.count()
            libraries = []
            for process in checked.below(tried.pid):
                with contextlib.suppress(OSError):
                    line = (process / "cmdline").read_bytes()
                    if checked.HINTS.match(line):
                        os.kill(int(process.name), signal.SIGTERM)
                    words = line.split(b"\0")[:-1]
                    # Who begins clang is told what to link.
                    libraries += [after for word, after in zip(words, words[1:]) if word == b"--link"]
                    if SANITIZER in words:
                        checked.second_name(process / "cwd" / MODULE, room / MODULE)
                        return words, libraries
            time.sleep(checked.LOOK)
        return [], []


def build(room, compiler, libraries, ready):
    """Compiles the module in a folder, and links it."""
    for words in (compiler, ["cc", "-o", ready, "module.o", *libraries, "-lm"]):
        ended = subprocess.run(words, cwd=room, stdin=subprocess.DEVNULL, capture_output=True, check=False)
        if ended.returncode:
            why = f"can't compile it without the sanitizer: {os.fsdecode(words[0])} ended with status {ended.returncode}"
            raise checked.Unready(checked.NOT_NOW, why, ended.stderr.decode(errors="replace"))
