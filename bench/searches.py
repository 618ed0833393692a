#!/usr/bin/env python3
"""Answers the goals of a crate that the checker finds by itself, but not by its first search.

usage: bench/searches.py CRATE [SECONDS]

For a goal without an answer the checker first tries `search rules`. Where that finds nothing, one to five seconds are gone before it
tries `grind`. So this proves the crate anew, and takes the functions whose proofs took so many seconds (1.5) or more. It tries
`search rules` on each of their goals, and the next tactics on those that it doesn't find. What finds one stays as its answer. The seconds
are those between the files that the checker saves, so run nothing beside it. Commit first: while it runs, it changes the crate's proofs.
"""
import collections
import glob
import os
import re
import shutil
import sys

from shorter import TOP, check, errors_in, one_use, read, with_imports, write

SEARCH = "search rules"
TACTICS = "grind (arith, common_steps)", "grind (arith, elements)"
# What the saved file of a proof names beside the goals that can have an answer.
OTHERS = re.compile(r"(?:lives|joined|branch)-.*|(?:from_residual|drop)-(?:.*-)?requires.*|ensures-at|.*_spec|.*◌.*|[^-]*")


class Crate:
    """A crate, and what the checker saved of it when it was proved anew."""

    def __init__(self, name):
        self.name, self.saved = name, f"{TOP}/crates/{name}/out/incremental"
        shutil.rmtree(self.saved, ignore_errors=True)
        said, is_proved = check(name)
        if not is_proved:
            sys.exit(f"{name} is not proved:\n{said[-2000:]}")
        self.seconds = self.times()

    def files(self):
        return glob.glob(f"{self.saved}/**/*.oantt", recursive=True)

    def module(self, file):
        return os.path.basename(file).removesuffix(".oantt").removesuffix(".decls").removeprefix(f"Rattle-{self.name}-proofs.")

    def times(self):
        """Returns how many seconds passed before each module was saved, after the one before it."""
        found, before = collections.Counter(), None
        for at, file in sorted((os.stat(it).st_mtime, it) for it in self.files()):
            found[self.module(file)] += at - before if before else 0
            before = at
        return found

    def functions(self, least):
        """Returns the functions whose proofs take that long, as their folders in proofs/, those without a proof by hand."""
        found = [it.removesuffix(".Proof").replace(".", "/") for it, much in self.seconds.most_common() if it.endswith(".Proof") and much >= least]
        return [it for it in found if "+" not in it and not os.path.exists(f"{self.folder(it)}/Proof.antt")]

    def folder(self, function):
        return f"{TOP}/crates/{self.name}/proofs/{function}"

    def goals(self, function):
        """Returns the goals of a function that have no answer. The saved file of its proof has their names."""
        module = f"{function.replace('/', '.')}.Proof"
        [file] = (it for it in self.files() if self.module(it) == module and not it.endswith(".decls.oantt"))
        with open(file, "rb") as it:
            names = {word.decode() for word in re.findall(rb'"spelling":"([^"]+)"', it.read())}
        names = {it for it in names if not OTHERS.fullmatch(it)}
        whole = {it for it in names if any(part.startswith(f"{it}-clause-") for part in names)}
        return sorted(names - whole - set(re.findall(r"(?m)^pub (\S+) : goal\.", text_of(self.folder(function)))))

    def answered(self, function, old, answers):
        """Returns the text of a function's answers with these in addition."""
        text = old or f"use Rattle.{self.name}.proofs.{function.replace('/', '.')}.Goals as goal\n"
        for tactic in {it for _, it in answers}:
            text = with_imports(text, tactic)
        return one_use(text) + "".join(f"\npub {goal} : goal.{goal}\n{goal} g c = {tactic}\n" for goal, tactic in answers)

    def refused(self, goals, tactic):
        """Returns those of the goals, each with its function, that the tactic doesn't prove, and those that can have no answer."""
        functions = {it for it, _ in goals}
        texts = {it: text_of(self.folder(it)) for it in functions}
        for function in functions:
            answers = [(goal, tactic) for of, goal in sorted(goals) if of == function]
            write_answers(self.folder(function), self.answered(function, texts[function], answers))
        said, _ = check(self.name)
        found, none = set(), set()
        for path, line, _ in errors_in(self.name, said):
            function = os.path.relpath(os.path.dirname(path), self.folder(""))
            heads = re.findall(r"(?m)^pub (\S+) : goal\.", "\n".join(read(path).split("\n")[:line])) if function in functions else []
            found |= {(function, heads[-1])} if heads else set()
        for function, goal in re.findall(r"(?m)^\./proofs/(\S+)/Answers\.antt:\S+ error: .* has no `([^`]+)` that can be named", said):
            none.add((function, goal))
        for function, text in texts.items():
            write_answers(self.folder(function), text)
        return found & goals, none


def text_of(folder):
    return read(f"{folder}/Answers.antt") if os.path.exists(f"{folder}/Answers.antt") else ""


def write_answers(folder, text):
    """Writes a function's answers, or removes the file if there are none."""
    if text:
        os.makedirs(folder, exist_ok=True)
        write(f"{folder}/Answers.antt", text)
    else:
        os.remove(f"{folder}/Answers.antt")
        if not os.listdir(folder):
            os.rmdir(folder)


def main():
    crate, least = Crate(sys.argv[1]), float(sys.argv[2]) if len(sys.argv) > 2 else 1.5
    functions, found = crate.functions(least), collections.defaultdict(list)
    goals = {(it, goal) for it in functions for goal in crate.goals(it)}
    left, none = crate.refused(goals, SEARCH)
    # A file is not read on after a name that is unknown.
    if none:
        left, _ = crate.refused(goals - none, SEARCH)
    for tactic in TACTICS:
        still, _ = crate.refused(left, tactic) if left else (set(), set())
        for function, goal in sorted(left - still):
            found[function].append((goal, tactic))
        left = still
    for function, answers in found.items():
        write_answers(crate.folder(function), crate.answered(function, text_of(crate.folder(function)), answers))
    for function in functions:
        print(f"{crate.seconds[function.replace('/', '.') + '.Proof']:5.1f} seconds: {function}, {len(found[function])} answers more")


if __name__ == "__main__":
    main()
