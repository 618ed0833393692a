#!/usr/bin/env python3
"""Tries the must-fail edits in bench/edits, which are no part of the gate: prints what rt says of each, and at the end how
many were refused, and which were not, with status 1.

usage: bench/edits.py [CRATE ..]    with no crate: all that have edits there
       bench/edits.py fit           tries none: says which edits, those of the gate too, no longer fit their files

rt tries them in a copy of the repository, where the edits of bench/edits/CRATE take the place of those of
crates/CRATE/must-fail. The copy shares what is built with the repository, so only what isn't built yet is proved first.

How to write an edit:

- Its line `file:` names a file of the crate. The text after `old:` has to occur once in it; with that after `new:`, the crate
  still has to compile. The line `shows:` names the call whose clause refuses the wrong body; a second such line, a call that
  only passes it on.
- The prover must refuse it at once. If it searches until its limit, write an answer that names the clause on which the right body
  rests. Keep the names that answers cite, or the edit shows only that they are gone: another operator (`!=` for `==`), `&&`, `||`,
  a `return` or another call renames goals; another argument, `&`, `|`, `.max(..)`, `.and(..)`, `.or(..)?` and `.map_err(..)?` keep
  them.
- A goal that it breaks has an answer in proofs/, if only `search rules` or `grind (arith, common_steps)`, or the prover runs once
  more to offer one. An edit that gives its goal another name can't have one.
"""
import re
import shutil
import subprocess
import sys
import tempfile
from pathlib import Path

TOP = Path(__file__).resolve().parent.parent
EDITS = TOP / "bench" / "edits"


def copy_to(top, crates):
    """Copies the crates to a folder, each with its edits of bench/edits alone."""
    for name in ("crates.txt", "HANDLES"):
        shutil.copy(TOP / name, top / name)
    shutil.copytree(TOP / "crates", top / "crates", symlinks=True, ignore=shutil.ignore_patterns("out", "must-fail"))
    for folder in (top / "crates").iterdir():
        built = TOP / "crates" / folder.name / "out"
        built.mkdir(exist_ok=True)
        (folder / "out").symlink_to(built)
    for crate in crates:
        shutil.copytree(EDITS / crate, top / "crates" / crate / "must-fail")


def refused(top, crates):
    """Tries the edits, and returns the names of those that the prover refused, as CRATE/NAME."""
    found = set()
    with subprocess.Popen(["rt", "must-fail", *crates], cwd=top, stdout=subprocess.PIPE, text=True, errors="replace") as ran:
        for line in ran.stdout:
            print(line, end="", flush=True)
            said = re.match(r"rt: must-fail (\w+/[\w.-]+)\.edit: refused, as it must be", line)
            if said:
                found.add(said[1])
    return found


def misfits(edit, crate):
    """Returns the texts of an edit that don't stand exactly once in their file, after the edit's texts before them."""
    texts, path, old, found = {}, None, "", []
    for line in edit.read_text(encoding="utf-8").split("\n"):
        word, _, text = line.partition(": ")
        if word == "file":
            path = TOP / "crates" / crate / text
            texts.setdefault(path, path.read_text(encoding="utf-8") if path.is_file() else "")
        elif word == "old":
            old = text
        elif word.rstrip(":") == "new":
            found += [old] * (texts[path].count(old) != 1)
            texts[path] = texts[path].replace(old, text)
    return found


def fit():
    """Prints which edits, those of the gate too, don't fit their files, and returns the status."""
    edits = sorted(EDITS.glob("*/*.edit")) + sorted((TOP / "crates").glob("*/must-fail/*.edit"))
    wrong = [(edit, old) for edit in edits for old in misfits(edit, edit.relative_to(TOP).parts[2 if EDITS in edit.parents else 1])]
    for edit, old in wrong:
        print(f"{edit.relative_to(TOP)}: not once in its file: {old}")
    return 1 if wrong else 0


def main():
    known = sorted(it.name for it in EDITS.iterdir())
    if sys.argv[1:] == ["fit"]:
        return fit()
    crates = sys.argv[1:] or known
    unknown = [it for it in crates if it not in known]
    if unknown:
        sys.exit(f"bench/edits has no folder {unknown[0]}")
    edits = sorted(f"{crate}/{it.stem}" for crate in crates for it in (EDITS / crate).glob("*.edit"))
    with tempfile.TemporaryDirectory(prefix="stn-edits-") as folder:
        top = Path(folder)
        copy_to(top, crates)
        found = refused(top, crates)
    left = [it for it in edits if it not in found]
    print(f"{len(edits) - len(left)} of {len(edits)} edits were refused")
    for edit in left:
        print(f"not refused: {edit}")
    return 1 if left else 0


if __name__ == "__main__":
    sys.exit(main())
