"""./test --prove: proves the tests of tests/unit over the repository's libraries, which are proved first where they aren't."""
import subprocess
import sys
import tempfile
from pathlib import Path

import units


def prove(names):
    """Proves the tests of these names, those of each as a crate. How many aren't."""
    lacking = 0
    with tempfile.TemporaryDirectory(prefix="prove-") as place, units.naming_full_disk(place):
        folder = Path(place)
        units.lay_out_crates(folder, ("src", "specs", "proofs"))
        for name in names:
            crate = units.write_tests(f"tests_of_{name}", [name], folder, first=None)
            status = subprocess.run(["rt", "check", "--test"], cwd=crate).returncode
            print(f"{name}: {'not proved, as said above' if status else 'proved'}", flush=True)
            lacking += status != 0
    return lacking


def main(names):
    lacking = prove(names)
    print(f"{len(names) - lacking} proved, {lacking} not")
    return 1 if lacking else 0
