#!/usr/bin/env python3
"""Writes docs/windows.svg, a mission of two satellites at a moment, and docs/conflict.svg, as a program draws them.

usage: docs/drawings.py PROGRAM [check]

PROGRAM is the path that `./stn build` prints. With `check` it says whether the files are what it would write.
"""
import subprocess
import sys
import tempfile
from pathlib import Path

DOCS = Path(__file__).resolve().parent
PLAN = [f"{DOCS.parent}/examples/satellites.{ending}" for ending in ("pddl", "plan")]
# The commands that make a log, and at last what is drawn of it.
DRAWINGS = {
    "windows.svg": [
        ["loosen", "satellites.log", "1", *PLAN, "--early=1", "--late=2"],
        *(["add", "satellites.log", "1", *bound.split()] for bound in ("z e7 --hi=36", "z e13 --hi=60")),
        *(["done", "satellites.log", "1", *event.split()] for event in (
            "s1 0", "e1 5", "s2 0.2", "e2 5.3", "s3 0.1", "e3 2.1", "s4 0.4", "e4 2.4", "s5 5.2", "s6 5.4")),
        ["draw", "satellites.log", "1", f"--plan={PLAN[1]}", "--now=14"],
    ],
    "conflict.svg": [
        ["bare", "conflict.log", "1", "1"],
        ["add", "conflict.log", "1", "s1", "e1", "--lo=5"],
        ["add", "conflict.log", "2", "z", "e1", "--hi=4"],
        ["draw", "conflict.log", "1"],
    ],
}


def drawn(program, commands):
    """What the last of some commands prints."""
    with tempfile.TemporaryDirectory() as folder:
        for words in commands:
            printed = subprocess.run([program, *words], cwd=folder, check=True, stdout=subprocess.PIPE, stderr=subprocess.DEVNULL).stdout
    return printed


def main():
    if len(sys.argv) not in (2, 3) or sys.argv[2:] not in ([], ["check"]):
        sys.exit(__doc__)
    program, wrong = str(Path(sys.argv[1]).resolve()), []
    for name, commands in DRAWINGS.items():
        picture = drawn(program, commands)
        if not sys.argv[2:]:
            (DOCS / name).write_bytes(picture)
        elif (DOCS / name).read_bytes() != picture:
            wrong.append(f"docs/{name} is not what the program draws")
    sys.exit("\n".join(wrong) or None)


if __name__ == "__main__":
    main()
