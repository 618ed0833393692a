#!/usr/bin/env python3
"""Tries shells on one log with single commands beside them: prints `passed`, or what failed, with status 1.

usage: bench/shells.py PROGRAM

PROGRAM is the built program, whose path ./stn build prints. The log is made in a fresh folder, which is removed at the end.

Two shells and single commands add bounds, withdraw them and ask, in turns that chance decides, and at once. Then each bound
that was acknowledged is in the log, and none else; no id was given twice; and each question saw all that was acknowledged
before it was asked. A stopped shell leaves the log as its last answer said, or with the change that it was asked for.

A log that last changed some seconds ago is not read between two lines. If it changes then, in whichever way, the next answer
is that of the log as it is.
"""
import os
import random
import re
import signal
import subprocess
import sys
import tempfile
import threading
import time
from pathlib import Path

sys.path.insert(0, str(Path(__file__).resolve().parent.parent / "examples"))
from stn import Failed, Refused, Shell  # noqa: E402

ROUNDS = 40
TURNS = 300
STOPPED = 60
SETTLED = 3.5


def check(holds, what):
    if not holds:
        raise SystemExit(f"failed: {what}")


class Single:
    """Single commands, asked as a shell is."""

    def __init__(self, program, log):
        self.program, self.log = program, log

    def ask(self, command, *words):
        done = subprocess.run(
            [self.program, command, self.log, "1", *words], capture_output=True, text=True, timeout=60, check=False
        )
        check(done.returncode == 0, f"{command} {words}: {done.stdout}{done.stderr}")
        return done.stdout.splitlines()


def live(asked):
    """The ids of the live records, as `records` prints them."""
    lines = [line.split() for line in asked.ask("records")]
    return {words[0] for words in lines if "withdrawn" not in words and "replaced" not in words}


def make(program, log):
    subprocess.run([program, "bare", log, "1", "4"], check=True, stdout=subprocess.DEVNULL)


def in_turns(program, log):
    """One after the other: each question sees what any of them did before."""
    make(program, log)
    chance = random.Random(1)
    with Shell(program, log, 1) as one, Shell(program, log, 1) as two:
        hands, kept, given = [one, two, Single(program, log)], set(), set()
        for number in range(TURNS):
            hand = chance.choice(hands)
            if kept and chance.random() < 0.3:
                gone = chance.choice(sorted(kept))
                check(hand.ask("withdraw", gone) == [f"withdrawn {gone}"], f"withdraw {gone}")
                kept.remove(gone)
            else:
                made = hand.ask("add", "z", "s1", f"--hi={1000 + number}")[0].split()[1]
                check(made not in given, f"{made} was given twice")
                given.add(made)
                kept.add(made)
            check(live(chance.choice(hands)) == kept, f"records after turn {number}")


def at_once(program, log):
    """All at once: nothing that was acknowledged is lost, and each sees its own."""
    make(program, log)
    ids, faults = [], []

    def adds(hand, first):
        try:
            for number in range(ROUNDS):
                made = hand.ask("add", "z", "s1", f"--hi={first + number}")[0].split()[1]
                ids.append(made)
                seen = list(ids)
                check(set(seen) <= live(hand), "a question missed what was acknowledged before it")
        except (SystemExit, Refused, Failed) as fault:
            faults.append(fault)

    with Shell(program, log, 1) as one, Shell(program, log, 1) as two:
        hands = [one, two, Single(program, log)]
        running = [threading.Thread(target=adds, args=(hand, 1000 * place)) for place, hand in enumerate(hands, 1)]
        for thread in running:
            thread.start()
        for thread in running:
            thread.join()
    check(not faults, faults)
    check(len(ids) == len(set(ids)) == ROUNDS * len(hands), f"{len(set(ids))} ids of {len(ids)} bounds")
    check(live(Single(program, log)) == set(ids), "the log has other bounds than were acknowledged")


def stopped(program, log):
    """A shell that is killed: what it acknowledged stays, and at most one change more."""
    make(program, log)
    chance = random.Random(2)
    kept = set()
    for _ in range(STOPPED):
        shell = Shell(program, log, 1)
        timer = threading.Timer(chance.random() / 20, os.kill, (shell.process.pid, signal.SIGKILL))
        timer.start()
        try:
            while True:
                kept.add(shell.ask("add", "z", "s1", "--hi=1000")[0].split()[1])
        except Failed:
            pass
        timer.join()
        check(shell.end() == -signal.SIGKILL, "a killed shell")
        found = live(Single(program, log))
        check(kept <= found and len(found - kept) <= 1, f"{sorted(kept - found)} lost, {sorted(found - kept)} more")
        kept = found


def read_by(shell):
    """How many bytes the process of a shell has read."""
    return int(re.search(r"^rchar: ([0-9]+)$", Path(f"/proc/{shell.process.pid}/io").read_text(), re.M)[1])


def in_place(log, contents):
    """Puts contents of the same length into the file."""
    with open(log, "r+b") as file:
        file.write(contents)


def unseen_by_its_time(log, contents):
    """The same, and gives the file the time back at which it was written."""
    times = os.stat(log)
    in_place(log, contents)
    os.utime(log, ns=(times.st_atime_ns, times.st_mtime_ns))


def renamed(log, contents):
    """Puts another file in place of it."""
    Path("other.log").write_bytes(contents)
    os.rename("other.log", log)


def earliest(asked):
    """The earliest time of s1, as `report` prints it."""
    return next(line.split()[1] for line in asked.ask("report") if line.startswith("s1 "))


def settled(program, log):
    """A log that nobody changed for a while: it isn't read again, and each change is seen."""
    made = []
    for least in "2", "3":
        make(program, log)
        for number in range(200):
            Single(program, log).ask("add", "z", "s1", f"--lo={least}", f"--hi={1000 + number}")
        made.append(Path(log).read_bytes())
        os.remove(log)
    check(len(made[0]) == len(made[1]), "two logs of one length")
    for change in in_place, unseen_by_its_time, renamed:
        Path(log).write_bytes(made[0])
        time.sleep(SETTLED)
        with Shell(program, log, 1) as shell:
            check(earliest(shell) == "2.000", "report")
            before = read_by(shell)
            for _ in range(3):
                check(earliest(shell) == "2.000", "report")
            check(read_by(shell) - before < len(made[0]), "a log that did not change was read")
            change(log, made[1])
            check(earliest(shell) == "3.000", f"{change.__name__}: a change was not seen")
        os.remove(log)


def refusals(program, log):
    """What a refusal leaves, and how a shell ends."""
    make(program, log)
    shell = Shell(program, log, 1)
    for words, code, place in [
        (("add", "s1", "s1"), 5, ""),
        (("withdraw", "1.1"), 42, ""),
        (("bare", "4"), 70, "3"),
        (("done", "x", "1"), 70, "0"),
        (("next", "1", "--lo=5"), 70, "5"),
    ]:
        try:
            answer = shell.ask(*words)
            check(False, f"{words}: {answer}")
        except Refused as refusal:
            check((refusal.code, refusal.place) == (code, place), f"{words}: {refusal}")
    check(shell.ask("next", "0") == Single(program, log).ask("next", "0"), "next")
    check(shell.end() == 1, "the status of a shell that refused")
    with Shell(program, log, 1) as other:
        check(other.ask("records") == [], "a refusal changed something")
        check(other.end() == 0, "the status of a shell that refused nothing")
    none = Shell(program, "none.log", 1)
    try:
        none.ask("next", "0")
        check(False, "a log that is not there")
    except Failed:
        check(none.end() == 1, "the status of a shell without a log")


def main():
    if len(sys.argv) != 2:
        sys.exit(__doc__)
    program = os.path.abspath(sys.argv[1])
    for trial in (in_turns, at_once, settled, stopped, refusals):
        with tempfile.TemporaryDirectory(prefix="shells.") as folder:
            os.chdir(folder)
            trial(program, "a.log")
            os.chdir("/")
    print("passed")


if __name__ == "__main__":
    main()
