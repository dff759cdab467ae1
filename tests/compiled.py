"""The tests of tests/unit and the program that plays the cases, compiled with checks. tools/checked.py keeps what it compiled for as long as the text is the same.

tests/compiled.py NAME ..: compiles these tests together, and prints the words that run them, a line each. The status is that of tools/checked.py."""
import json
import signal
import sys
import tempfile
from pathlib import Path

sys.path.insert(0, str(Path(__file__).resolve().parent))
from units import TOP, UNIT, all_names, is_inside, is_program, lay_out_crates, naming_full_disk, read_lines, write_first, write_program, write_tests

sys.path.append(str(TOP / "tools"))
import checked

free_memory = checked.free_memory
KEPT = TOP / "out" / "checked"
# What it takes to compile tests, in bytes.
MEMORY = 5_000_000_000


def groups():
    """All tests in two lists, since two builds are compiled in less time than one: those that wait for clocks, and the others."""
    lines = read_lines(UNIT / "uses.txt")
    return {"tests_of_clocks": [it for it in all_names() if lines[it].waits()], "tests_of_none": [it for it in all_names() if not lines[it].waits()]}


def crate_of(names):
    """What the crate is called that has the tests of these names. What was compiled of another text goes, by this."""
    whole = [crate for crate, of in groups().items() if of == names]
    return whole[0] if whole else f"tests_of_{names[0]}" if len(names) == 1 else "tests_of_some"


def laid_out(names, folder):
    """What tools/checked.py is to keep: a program, the tests inside a crate, or those of these names as one crate."""
    lay_out_crates(folder)
    if is_program(names[0]):
        crate, flags = write_program(names[0], folder), []
    elif is_inside(names[0]):
        crate, flags = write_first(names[0], folder), ["--test"]
    else:
        crate, flags = write_tests(crate_of(names), names, folder), ["--test"]
    return checked.Crate(crate, flags, kept=KEPT, memory=MEMORY, who="tests/compiled")


def words_of(names, may_compile=True):
    """The words that run a program, or these tests. With no leave to compile, nothing where they aren't kept."""
    with tempfile.TemporaryDirectory(prefix="unit-") as folder:
        with naming_full_disk(folder):
            crate = laid_out(names, Path(folder))
        return crate.ready() if may_compile else crate.words()


def builds(names):
    """The lists of names that are compiled together: those of all tests where one wants all or these are kept already, and one list of what is left."""
    inside = [[it] for it in names if is_inside(it)]
    found = [it for it in groups().values() if it and ({*it} <= {*names} or ({*it} & {*names} and words_of(it, may_compile=False)))]
    rest = [it for it in names if not any(it in build for build in found + inside)]
    return found + ([rest] if rest else []) + inside


def main(names):
    try:
        print(json.dumps(words_of(names)))
    except checked.Unready as why:
        sys.exit(f"{why.said}{why}")
    except OSError as error:
        sys.exit(f"{error.filename}: {error.strerror}: mend this, and run it again")


if __name__ == "__main__":
    for it in (signal.SIGINT, signal.SIGTERM):
        signal.signal(it, lambda number, _: sys.exit(128 + number))
    main(sys.argv[1:])
