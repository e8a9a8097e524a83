#!/usr/bin/env python3
"""Tries the wrong bodies of some crates that the gate doesn't try: the prover has to refuse each.

    tests/wrong_bodies.py NAME..    those of crates/NAME/wrong-bodies/, which have the form of the edits of must-fail/

Whoever changes a contract of a crate runs it for that crate. It works on a copy of the tree, and ends with rt's status.
"""

import pathlib
import shutil
import subprocess
import sys
import tempfile

TOP = pathlib.Path(__file__).resolve().parent.parent
KEPT_OUT = shutil.ignore_patterns("out", "must-fail", "wrong-bodies")


def main(names):
    edits = {name: sorted((TOP / "crates" / name / "wrong-bodies").glob("*.edit")) for name in names}
    if not names or not all(edits.values()):
        without = [name for name in names if not edits[name]]
        print(f"no wrong bodies beside the gate: {', '.join(without) or 'name a crate'}", file=sys.stderr)
        return 2
    with tempfile.TemporaryDirectory() as folder:
        copy = pathlib.Path(folder)
        for file in ("crates.txt", "HANDLES"):
            shutil.copy2(TOP / file, copy / file)
        shutil.copytree(TOP / "crates", copy / "crates", ignore=KEPT_OUT)
        for name, files in edits.items():
            (copy / "crates" / name / "must-fail").mkdir()
            for file in files:
                shutil.copy2(file, copy / "crates" / name / "must-fail" / file.name)
        return subprocess.run(["rt", "must-fail", *names], cwd=copy).returncode


if __name__ == "__main__":
    sys.exit(main(sys.argv[1:]))
