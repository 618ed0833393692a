#!/usr/bin/env python3
"""Compares the names of what shows that the program is right with those of an earlier commit: must-fail edits, named tests, rows
of stored runs, and clauses of public functions. Prints those that are gone, moved, rewritten and new, and how many there are.

usage: bench/names.py COMMIT    the working tree against this commit; status 1 if anything is gone

An edit goes by its name, and its place is a crate's folder `must-fail` or `bench/edits`; a test goes by its function. A row is
a line of the input of a program of tests, after the part or the script that it belongs to (rows that stand more than once are
counted). A clause goes by its function, its place is the crate; one without a name has the name `-`.
"""
import io
import re
import subprocess
import sys
import tarfile
from collections import Counter
from pathlib import Path

TOP = Path(__file__).resolve().parent.parent
HEAD = re.compile(r"^(?P<end>\}|\});?$|^(?:pub )?(?:unsafe )?(?P<kind>impl|trait)\b(?P<owner>[^{]*)\{"
                  r"|^ *(?P<public>pub )?(?:pub\(crate\) )?(?:const )?fn (?P<function>\w+)"
                  r"|^ *(?P<what>ensures|requires)(?: (?P<clause>\w+))? \{", re.M)
# The programs whose input has rows, of earlier commits too, and how a line begins a part. A part of `answers` has scripts.
ROWS, OF_SCRIPTS = {"answers": "== ", "command_lines": "\0", "script_outputs": "= "}, "== scripts"
KINDS = "edit", "test", "row", "clause"


def texts_now():
    """Returns the texts of the working tree that have names, by path."""
    found = [*TOP.glob("crates/*/must-fail/*.edit"), *TOP.glob("bench/edits/*/*.edit"), *TOP.glob("crates/*/src/**/*.rt"),
             *(it for name in ROWS for it in TOP.glob(f"crates/{name}/stdin"))]
    return {str(it.relative_to(TOP)): it.read_text(encoding="utf-8", errors="replace") for it in found}


def texts_of(commit):
    """Returns the same texts of a commit."""
    packed = subprocess.run(["git", "archive", commit, "crates", "bench"], cwd=TOP, stdout=subprocess.PIPE, check=True).stdout
    found = {}
    with tarfile.open(fileobj=io.BytesIO(packed)) as files:
        for it in files:
            if it.isfile() and re.fullmatch(r"crates/\w+/(must-fail/.*\.edit|src/.*\.rt|stdin)|bench/edits/\w+/.*\.edit", it.name):
                found[it.name] = files.extractfile(it).read().decode(errors="replace")
    return found


def owner_of(words):
    """Returns the type that an impl, or the trait, is of."""
    words = re.sub(r"<[^<>]*>", "", re.sub(r"<[^<>]*>", "", words)).split(" where ")[0]
    return words.split(" for ")[-1].split(":")[0].strip()


def clauses_of(text):
    """Yields the name of each clause of a public function, or of a function of a trait."""
    owner, in_trait, function = "", False, None
    for at in HEAD.finditer(text):
        if at["end"]:
            owner, in_trait = "", False
        elif at["kind"]:
            owner, in_trait = owner_of(at["owner"]), at["kind"] == "trait"
        elif at["function"]:
            is_public = at["public"] or in_trait
            function = f"{owner}::{at['function']}".removeprefix("::") if is_public else None
        elif function:
            yield f"{function} {at['what']} {at['clause'] or '-'}"


def names_of(texts):
    """Returns for each kind the names with their places: name -> Counter of (place, text)."""
    found = {kind: {} for kind in KINDS}

    def add(kind, name, place, text=""):
        found[kind].setdefault(name, Counter())[place, text] += 1

    for path, text in texts.items():
        parts = path.split("/")
        if path.endswith(".edit"):
            name, crate = parts[-1].removesuffix(".edit"), parts[1] if parts[0] == "crates" else parts[2]
            add("edit", name, f"{crate} in the gate" if parts[0] == "crates" else f"{crate} beside it", text)
        elif path.endswith("/stdin") and parts[1] in ROWS:
            part, begins = "", ROWS[parts[1]]
            for line in text.splitlines():
                part = line if line.startswith(begins) else part
                begins = ROWS["script_outputs"] if line == OF_SCRIPTS else begins
                add("row", f"{line}  ({part})" if part not in ("", line) else line, parts[1])
        elif path.endswith(".rt"):
            for name in re.findall(r"#\[test\]\s+(?:#\[[^\]]*\]\s+)*fn (\w+)", text):
                add("test", name, parts[1])
            for name in clauses_of(text):
                add("clause", name, parts[1])
    return found


def compare(kind, before, after):
    """Prints how the names of a kind differ, and returns how many are gone."""
    gone = [it for it in before if sum(after.get(it, Counter()).values()) < sum(before[it].values())]
    new = [it for it in after if sum(after[it].values()) > sum(before.get(it, Counter()).values())]
    for name in gone:
        print(f"gone: {kind} {name} ({', '.join(place for place, _ in before[name])})")
    for name in sorted(set(before) & set(after)):
        was, now = ({place for place, _ in it[name]} for it in (before, after))
        if was != now:
            print(f"moved: {kind} {name}: {', '.join(sorted(was))} -> {', '.join(sorted(now))}")
        if {text for _, text in before[name]} != {text for _, text in after[name]}:
            print(f"rewritten: {kind} {name}")
    for name in new:
        print(f"new: {kind} {name} ({', '.join(place for place, _ in after[name])})")
    return len(gone)


def main():
    if len(sys.argv) != 2:
        sys.exit(__doc__)
    before, after = names_of(texts_of(sys.argv[1])), names_of(texts_now())
    gone = sum(compare(kind, before[kind], after[kind]) for kind in KINDS)
    for kind in KINDS:
        print(f"{kind}s: {sum(sum(it.values()) for it in before[kind].values())} -> {sum(sum(it.values()) for it in after[kind].values())}")
    return 1 if gone else 0


if __name__ == "__main__":
    sys.exit(main())
