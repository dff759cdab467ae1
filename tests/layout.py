"""The layout of the files of tests/unit: rt fmt's, as that of crates/ is."""
import re
import subprocess
import tempfile
from pathlib import Path

from units import UNIT, naming_full_disk


def laid_out_otherwise(folder):
    """The files of tests/unit that rt fmt would lay out otherwise, with the text that it would give each. rt fmt looks below the folder, where they stand as a crate's."""
    files = {it.relative_to(UNIT): it.read_text() for it in sorted(UNIT.rglob("*.rattle"))}
    for path, text in files.items():
        copy = folder / "src" / path.with_suffix(".rt")
        copy.parent.mkdir(parents=True, exist_ok=True)
        copy.write_text(text)
    ended = subprocess.run(["rt", "fmt"], cwd=folder, capture_output=True, text=True)
    laid_out = {path: (folder / "src" / path.with_suffix(".rt")).read_text() for path in files}
    wrong = re.sub(rf"{re.escape(str(folder))}/|\bsrc/(?=\S*\.rt)", "tests/unit/", ended.stdout + ended.stderr) if ended.returncode else ""
    return {path: text for path, text in laid_out.items() if text != files[path]}, re.sub(r"\.rt\b", ".rattle", wrong)


def compare(is_written):
    """How many files there are, and what is wrong with each that isn't in the layout; or lays these out and says which."""
    with tempfile.TemporaryDirectory(prefix="layout-") as folder, naming_full_disk(folder):
        others, refused = laid_out_otherwise(Path(folder))
    for path, text in others.items() if is_written else ():
        (UNIT / path).write_text(text)
    told = [f"tests/unit/{it} {'was laid out' if is_written else 'is not as rt fmt lays it out: run ./test --fmt'}" for it in others]
    return len(list(UNIT.rglob("*.rattle"))), told + refused.splitlines()
