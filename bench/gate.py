#!/usr/bin/env python3
"""Runs the gate, rt ci, with nothing kept of earlier runs, and prints for each crate where its time went, the longest chain
of crates, and whether the gate keeps to its budget.

usage: bench/gate.py [JOBS]    so many proofs at once, or as many as RT_JOBS says, or else as many as there are processors

Once a second it asks the system how long each process of the prover has run. Edits begin with what a check of the unchanged
crate proved: this is the base, with which another such check after the last edit is counted. A process that begins and ends
within a second is missed; the line `in all` counts everything.

- Machines differ, and so does one from hour to hour. So it says how long rt selftest, which is the same work everywhere, took before
  and after the gate.
- Each proof gets one processor, and as many run as there are processors, or as RT_JOBS says (.ci/run): a second processor saves
  a proof a tenth of its time at most.
- A library with more than one edit is proved once more, as the base. With one edit it has no base: the edit is tried from
  nothing, which costs what the base alone would.
- Each edit costs a check of its crate, which reads all libraries below: 5 seconds of one processor in stn_refusal, 9 to 14 in most
  crates, and 5 to 10 more for the functions that it changes and their callers.
- A program of tests is proved once and compiled twice. One with a single line over stn_shell takes one and a half to four minutes
  of one processor. So cases are a module of another program. A program has one stored run: stn shows that a process ends with 0,
  answers with 1, command_lines with 2.
"""
import os
import re
import resource
import subprocess
import sys
import threading
import time

TOP = os.path.dirname(os.path.dirname(os.path.realpath(__file__)))
TICK = os.sysconf("SC_CLK_TCK")
# What the gate may take, in minutes: of one processor, and by the clock if so many proofs run at once.
MOST_PROCESSOR, MOST_CLOCK, BUDGET_JOBS = 240, 135, 2
# How many edits of a crate are named.
NAMED = 3


def read(path):
    try:
        with open(path, "rb") as it:
            return it.read()
    except OSError:
        return b""


def fields_of(pid):
    """Returns what the system says of a process, from its state on, or nothing if it has ended."""
    return read(f"/proc/{pid}/stat").rpartition(b")")[2].split()


def edited(edit, crate):
    """Returns the texts of the crate's files after an edit, by their paths."""
    texts, path, old = {}, "", ""
    for line in read(edit).decode(errors="replace").split("\n"):
        if line.startswith("file: "):
            path = line[len("file: "):].strip()
            texts.setdefault(path, read(f"{TOP}/crates/{crate}/{path}").decode(errors="replace"))
        elif line.startswith("old: "):
            old = line[len("old: "):]
        elif line.startswith("new:") and path:
            texts[path] = texts[path].replace(old, line[len("new:"):].removeprefix(" "))
    return texts


class Gate:
    """The run of a gate, as far as it was seen."""

    def __init__(self, process):
        self.process, self.seen, self.checks = process, {}, {}
        self.edits = {}
        for folder in os.listdir(f"{TOP}/crates"):
            edits = f"{TOP}/crates/{folder}/must-fail"
            names = os.listdir(edits) if os.path.isdir(edits) else []
            self.edits[folder] = {it.removesuffix(".edit"): edited(f"{edits}/{it}", folder) for it in names if it.endswith(".edit")}

    def edit_in(self, folder, crate):
        """Returns the name of the edit in a folder in which rt tries one, or nothing if the crate there is unchanged."""
        for name, texts in self.edits[crate].items():
            if all(read(f"{folder}/{path}").decode(errors="replace") == text for path, text in texts.items()):
                return name
        return ""

    def part_of_edit(self, folder, crate):
        """Returns the part to which the check in such a folder belongs: the base if nothing is edited."""
        if folder not in self.checks:
            name = self.edit_in(folder, crate)
            self.checks[folder] = ("edits", crate, name) if name else ("base", crate, "")
        return self.checks[folder]

    def part_of(self, pid):
        """Returns what a process proves, as a kind of part, a crate and an edit, or None if it is not the prover."""
        words = read(f"/proc/{pid}/cmdline").decode(errors="replace").split("\0")
        if os.path.basename(words[0]) != "rattle" or "--crate-name" not in words:
            return None
        crate = words[words.index("--crate-name") + 1]
        try:
            folder = os.readlink(f"/proc/{pid}/cwd")
        except OSError:
            return None
        if os.path.basename(folder).startswith("rt-edit-"):
            return self.part_of_edit(folder, crate)
        return ("tests" if "--test" in words else "proof"), crate, ""

    def sample(self):
        """Notes how long each process of the gate's prover has run, without those that it started itself. rt starts a process
        that leads the group of all others that it starts."""
        for pid in filter(str.isdigit, os.listdir("/proc")):
            fields = fields_of(pid)
            leader = fields_of(int(fields[2])) if len(fields) > 19 else []
            if len(leader) > 1 and int(leader[1]) == self.process.pid:
                key = pid, fields[19]
                part = self.seen[key][0] if key in self.seen else self.part_of(pid)
                if part:
                    self.seen[key] = part, (int(fields[11]) + int(fields[12])) / TICK

    def watch(self, ended):
        while not ended.wait(1):
            self.sample()

    def parts(self):
        """Returns the seconds of each part."""
        found = {}
        for part, seconds in self.seen.values():
            found[part] = found.get(part, 0) + seconds
        return found


def below():
    """Returns the crates, lowest first, each with what crates.txt names after it."""
    with open(f"{TOP}/crates.txt", encoding="utf-8") as it:
        return {name: words.split() for name, words in re.findall(r"(?m)^(\w+)[^:\n]*:(.*)$", it.read())}


def chain(crates, seconds):
    """Returns the longest chain of crates that stand on each other, by the seconds of their proofs and tests."""
    best = {}

    def longest(name):
        if name not in best:
            under = max((longest(it) for it in crates[name] if it in crates), default=(0, []))
            best[name] = under[0] + seconds[name], [*under[1], name]
        return best[name]

    return max(longest(it) for it in crates)


def from_nothing():
    """Returns the words by which this rt takes over nothing of earlier runs: none, if it never does."""
    helped = subprocess.run(["rt", "help"], stdout=subprocess.PIPE, stderr=subprocess.STDOUT, errors="replace")
    return ["--anew"] if "--anew" in helped.stdout else []


def selftest_seconds():
    """Returns how many seconds of one processor the kit's own example takes to prove, build and run: how fast this machine is now."""
    before = used_seconds()
    subprocess.run(["rt", "selftest"], stdout=subprocess.DEVNULL, stderr=subprocess.DEVNULL, check=True)
    return used_seconds() - before


def used_seconds():
    """Returns how many seconds of a processor the programs that ended have used."""
    used = resource.getrusage(resource.RUSAGE_CHILDREN)
    return used.ru_utime + used.ru_stime


def print_table(parts, crates):
    """Prints the seconds of each crate's parts, and its dearest edits."""

    def of(kind, crate):
        return sum(it for part, it in parts.items() if part[0] == kind and crate in (None, part[1]))

    print(f"{'seconds':16} {'proof':>6} {'tests':>6} {'base':>6} {'edits':>6}  dearest edits")
    for crate in crates:
        named = sorted(((it, part[2]) for part, it in parts.items() if part[:2] == ("edits", crate)), reverse=True)[:NAMED]
        row = " ".join(f"{of(kind, crate):6.0f}" for kind in ("proof", "tests", "base", "edits"))
        print(f"{crate:16} {row}  {', '.join(f'{name} {it:.0f}' for it, name in named)}".rstrip())
    row = " ".join(f"{of(kind, None) / 60:6.0f}" for kind in ("proof", "tests", "base", "edits"))
    print(f"{'minutes in all':16} {row}")
    seconds, names = chain(crates, {it: of("proof", it) + of("tests", it) for it in crates})
    print(f"longest chain: {seconds / 60:.0f} minutes: {', '.join(names)}")


def is_within(processor, clock, jobs):
    """Prints whether the gate keeps to its budget, and returns it."""
    said = [f"{processor:.0f} of {MOST_PROCESSOR} minutes of one processor"]
    held = processor <= MOST_PROCESSOR
    if jobs == str(BUDGET_JOBS):
        said.append(f"{clock:.0f} of {MOST_CLOCK} minutes by the clock with {jobs} proofs at once")
        held = held and clock <= MOST_CLOCK
    print(f"budget {'kept' if held else 'NOT KEPT'}: {', '.join(said)}")
    return held


def main():
    jobs = sys.argv[1] if len(sys.argv) > 1 else os.environ.get("RT_JOBS", "")
    yardstick = selftest_seconds()
    ended, began, before = threading.Event(), time.time(), used_seconds()
    with subprocess.Popen(["rt", "ci", *from_nothing()], cwd=TOP, stdin=subprocess.DEVNULL, env={**os.environ, "RT_JOBS": jobs}) as process:
        gate = Gate(process)
        watcher = threading.Thread(target=gate.watch, args=(ended,), daemon=True)
        watcher.start()
        status = process.wait()
        ended.set()
        watcher.join()
    processor, clock = (used_seconds() - before) / 60, (time.time() - began) / 60
    print_table(gate.parts(), below())
    print(f"rt selftest: {yardstick:.0f} seconds of one processor before the gate, {selftest_seconds():.0f} after it")
    print(f"in all: {processor:.0f} minutes of one processor, {clock:.0f} by the clock")
    held = is_within(processor, clock, jobs)
    return status or int(not held)


if __name__ == "__main__":
    sys.exit(main())
