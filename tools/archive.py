"""Static libraries that `rt lib` makes: whether one is there, and no older than what it is made from.

python3 tools/archive.py CRATE ..: builds those of these crates that aren't there, or are older than a source.

Over the libraries that `rt ci` left in out/, it proves the crate itself and nothing below it: `rt lib` would prove all of these again, since it takes no library that
holds statements alone. Elsewhere it is `rt lib`, which takes what `./srm build` left and proves the rest. What is built is also kept in out/archives/, since `rt ci`
clears what it finds in the out/ of a crate."""

import os
import pathlib
import shutil
import subprocess
import sys

TOP = pathlib.Path(__file__).resolve().parent.parent


def archive_of(crate):
    """The file of a static library."""
    return TOP / f"crates/{crate}/out/lib{crate}.a"


def kept_of(crate):
    """Where a static library is kept that was built here."""
    return TOP / f"out/archives/lib{crate}.a"


def kit():
    """The kit's folder, or None where there is no rt."""
    if shutil.which("rt") is None:
        return None
    # rt prints the path of a page that stands at the kit's top. The rt on the path may lie elsewhere.
    page = subprocess.run(["rt", "doc"], capture_output=True, text=True, check=True).stdout.strip()
    return pathlib.Path(page).parent


def kit_c():
    """The folder of the kit's two small C libraries: KIT_C names it, else it is the kit's. None where there is neither."""
    named = os.environ.get("KIT_C")
    if named:
        return pathlib.Path(named)
    top = kit()
    return top and top / "c"


def lack_of(crate):
    """Why a static library can't be used, or nothing."""
    archive = archive_of(crate)
    if not archive.exists():
        return f"there is no static library of {crate}; python3 tools/archive.py {crate} makes it"
    file = newer_than(archive, crate)
    return file and f"{file} is newer than the static library of {crate}; python3 tools/archive.py {crate} makes that anew"


def lines():
    """The lines of crates.txt: what stands before the colon, and what stands behind it."""
    for line in (TOP / "crates.txt").read_text().splitlines():
        head, colon, names = line.partition("#")[0].partition(":")
        if colon:
            yield head.split(), names.split()


def uses():
    """What each crate of the repository uses, by crates.txt."""
    return {head[0]: names for head, names in lines()}


def heads():
    """What crates.txt says of each crate behind its name."""
    return {head[0]: head[1:] for head, _ in lines()}


def crates_below(name):
    """A crate and those of the repository that it stands on."""
    below = uses()
    found, left = set(), [name]
    while left:
        crate = left.pop()
        if crate in below and crate not in found:
            found.add(crate)
            left += below[crate]
    return sorted(found)


def newer_than(archive, name):
    """A file that is newer than the library that is made from it, or nothing."""
    made = archive.stat().st_mtime
    for crate in crates_below(name):
        for folder in ("src", "specs", "proofs"):
            for file in sorted((TOP / "crates" / crate / folder).rglob("*.*t*")):
                if file.is_file() and file.stat().st_mtime > made:
                    return file.relative_to(TOP)
    return None


def is_of_gate(rlib):
    """Whether `rt ci` left a library there. That of another command has a stamp beside it, and may be of an older text."""
    return (rlib / "format").exists() and not (rlib.parent / "stamp").exists()


def built_over_gate(crate, rlibs):
    """Builds a static library over the libraries that `rt ci` left. The status."""
    top = kit()
    used = {it: rlibs.get(it, top / f"rlibs/{it}.rlib") for it in ("std", *uses()[crate])}
    words = ["--crate-name", crate, "src/lib.rt", "--crate-type", "staticlib", "--links", f"{crate}=", "--jobs", "2", "--backend", "llvm"]
    words += [word for it, rlib in used.items() for word in ("--extern", f"{it}={rlib}")]
    words += [word for rlib in (top / "rlibs/std.rlib", *rlibs.values()) for word in ("-L", f"dependency={rlib.parent}")]
    words += ["--antt-project", top / "rattle/logic/antt-project.json", "--logic-built", top / "logic_built", "--toolchain", top / "toolchain"]
    archive_of(crate).parent.mkdir(exist_ok=True)
    return ran_in(crate, top / "bin/rattle", "build", *words, "-o", archive_of(crate))


def ran_in(crate, *words):
    """Runs a command in a crate's folder, and tells what it said where it fails. The status."""
    ran = subprocess.run(words, cwd=TOP / "crates" / crate, capture_output=True, text=True, check=False)
    if ran.returncode:
        print(ran.stdout[-4000:] + ran.stderr[-4000:], file=sys.stderr)
    return ran.returncode


def built(crate):
    """Builds a static library unless one is there. The status."""
    if lack_of(crate) is None:
        return 0
    if kept_of(crate).exists() and newer_than(kept_of(crate), crate) is None:
        archive_of(crate).parent.mkdir(exist_ok=True)
        shutil.copy2(kept_of(crate), archive_of(crate))
        return 0
    if kit() is None:
        print("tools/archive.py: there is no rt on the path: install the Rattle kit, and put its folder bin on PATH", file=sys.stderr)
        return 127
    rlibs = {it: TOP / f"crates/{it}/out/rlib/{it}.rlib" for it in crates_below(crate) if it != crate}
    status = built_over_gate(crate, rlibs) if all(map(is_of_gate, rlibs.values())) else ran_in(crate, "rt", "lib")
    if status == 0:
        kept_of(crate).parent.mkdir(parents=True, exist_ok=True)
        shutil.copy2(archive_of(crate), kept_of(crate))
    return status


def main(crates):
    """The status."""
    unknown = [it for it in crates if "staticlib" not in heads().get(it, [])]
    if unknown or not crates:
        made = ", ".join(it for it, words in heads().items() if "staticlib" in words)
        print(f"tools/archive.py: name static libraries of crates.txt: {made}", file=sys.stderr)
        return 2
    return next(filter(None, map(built, crates)), 0)


if __name__ == "__main__":
    sys.exit(main(sys.argv[1:]))
