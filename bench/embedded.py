#!/usr/bin/env python3
"""Compiles and runs C++ programs that embed shells: the example, and one whose shells run at once and fail. It prints `passed`,
or what differs, with status 1.

usage: bench/embedded.py PROGRAM

PROGRAM is the built program, whose path ./stn build prints. The compiler is $CXX, or c++.
"""
import os
import subprocess
import sys
import tempfile
from pathlib import Path

TOP = Path(__file__).resolve().parent.parent
EXAMPLE = """added 1.2
e1 7.000 9.000
code 2
status 1
"""
TRIED = """added 1.1 added 2.1
0 1 0
no program: Failed: PROGRAM.none: No such file or directory
no log: Failed: fault file
asked again: Failed: the shell has ended
status 1 1
two lines: invalid_argument
a comment: invalid_argument
refused 4: no such event
a refusal: Refused: refused 5
after its end: Failed: the shell has ended
"""


def try_source(source, folder, program, logs, wanted):
    """Compiles a source, and compares what it prints for new logs of one step. A program that hangs is stopped."""
    built = os.path.join(folder, "embedded")
    compiler = os.environ.get("CXX", "c++")
    subprocess.run([compiler, "-std=c++17", "-Wall", "-Wextra", "-Werror", "-o", built, source], check=True)
    paths = [os.path.join(folder, f"{source.parent.name}.{site}.log") for site in range(1, logs + 1)]
    for site, path in enumerate(paths, 1):
        subprocess.run([program, "bare", path, str(site), "1"], check=True, stdout=subprocess.DEVNULL)
    done = subprocess.run([built, program, *paths], capture_output=True, text=True, timeout=60, check=False)
    if (done.returncode, done.stdout, done.stderr) != (0, wanted.replace("PROGRAM", program), ""):
        sys.exit(f"failed: {source.relative_to(TOP)}: {done.returncode} {done.stdout!r} {done.stderr!r}")


def main():
    if len(sys.argv) != 2:
        sys.exit(__doc__)
    program = os.path.abspath(sys.argv[1])
    with tempfile.TemporaryDirectory(prefix="embedded.") as folder:
        try_source(TOP / "examples" / "embedded.cpp", folder, program, 1, EXAMPLE)
        try_source(TOP / "bench" / "embedded.cpp", folder, program, 2, TRIED)
    print("passed")


if __name__ == "__main__":
    main()
