#!/usr/bin/env python3
"""Makes mistakes of new users, and prints what the program says of each on standard error: a table, and at the end
`passed`, or which of them lack the word that mends them, with status 1.

usage: bench/mistakes.py PROGRAM

PROGRAM is the built program, whose path ./stn build prints. Each mistake is made in a fresh folder, with a log t.log of site
1 over two steps. What is said has to have a word of the mistake, or say what was expected. `yes` says that one who has
read no document can mend it by that, as 19 of 20 have to; `no`, that an explanation is needed. Root makes two of them as
another user.
"""
import fcntl
import os
import shutil
import socket
import subprocess
import sys
import tempfile
from pathlib import Path

TOP = Path(__file__).resolve().parent.parent
EXAMPLES = TOP / "examples"
NOBODY = 65534
SECONDS = 60
MENDED = 0.95


def put(name, text):
    """Makes a file of a text or of bytes."""
    Path(name).write_bytes(text if isinstance(text, bytes) else text.encode())


class Tried:
    """The program in a folder of its own."""

    def __init__(self, program):
        self.program = program

    def start(self, *words, **options):
        options = {"stdin": subprocess.DEVNULL, "stdout": subprocess.DEVNULL, "stderr": subprocess.PIPE, **options}
        return subprocess.Popen([self.program, *words], **options)

    def says(self, *words, **options):
        """What a command says on standard error."""
        running = self.start(*words, **options)
        return running.communicate(timeout=SECONDS)[1].decode()

    def done(self, *words):
        """Does what is no mistake."""
        subprocess.run([self.program, *words], stdout=subprocess.DEVNULL, check=True)


def simple(*words, **options):
    """A mistake in the words of a command."""
    return lambda stn: stn.says(*words, **options)


def as_nobody(stn, *words):
    """What another user is told, or what root can't be refused."""
    if os.geteuid() == 0:
        return stn.says(*words, user=NOBODY, group=NOBODY, extra_groups=[])
    return stn.says(*words)


def unreadable(stn):
    os.chmod("t.log", 0o000)
    return as_nobody(stn, "report", "t.log", "1")


def unwritable(stn):
    os.chmod("t.log", 0o444)
    return as_nobody(stn, "add", "t.log", "1", "s1", "e1", "--lo=5")


def folder(stn):
    os.mkdir("plans")
    return stn.says("report", "plans", "1")


def notes(stn):
    put("notes.txt", "buy milk\n")
    return stn.says("report", "notes.txt", "1")


def empty(stn):
    put("empty.log", "")
    return stn.says("report", "empty.log", "1")


def other_plan(stn):
    stn.done("bare", "other.log", "2", "3")
    return stn.says("merge", "t.log", "1", "other.log")


def same_number(stn):
    stn.done("bare", "copy.log", "1", "2")
    stn.done("add", "copy.log", "1", "s1", "e1", "--lo=7")
    stn.done("add", "t.log", "1", "s1", "e1", "--lo=5")
    return stn.says("merge", "t.log", "1", "copy.log")


def exchanged(stn):
    return stn.says("init", "c.log", "1", EXAMPLES / "cellar.plan", EXAMPLES / "cellar.pddl")


def other_action(stn):
    put("typed.plan", "0.000: (light-mach m)\n")
    return stn.says("init", "c.log", "1", EXAMPLES / "cellar.pddl", "typed.plan")


def other_duration(stn):
    put("long.plan", "0.000: (light-match m) [9.000]\n")
    return stn.says("init", "c.log", "1", EXAMPLES / "cellar.pddl", "long.plan")


def not_robust(stn):
    put("ends.plan", "0: (light-match m)\n3: (mend-fuse f)\n")
    return stn.says("loosen", "c.log", "1", EXAMPLES / "cellar.pddl", "ends.plan", "--late=0.5", "--robust")


def port_in_use(stn):
    with socket.socket() as one:
        one.bind(("127.0.0.1", 0))
        one.listen()
        return stn.says("serve", "t.log", "1", f"127.0.0.1:{one.getsockname()[1]}", "1")


def full(stn):
    with open("/dev/full", "wb") as out:
        return stn.says("report", "t.log", "1", stdout=out)


def own_lock(stn):
    put("t.log.lock", "mine\n")
    return stn.says("add", "t.log", "1", "s1", "e1", "--lo=5")


def held(stn):
    """Another program holds the log for a while."""
    with open("t.log.lock", "ab") as lock:
        fcntl.flock(lock, fcntl.LOCK_EX)
        waiting = stn.start("add", "t.log", "1", "s1", "e1", "--lo=5")
        said = waiting.stderr.readline()
        if waiting.poll() is not None:
            return "did not wait"
    return (said + waiting.communicate(timeout=SECONDS)[1]).decode()


def two_names(stn):
    os.link("t.log", "again.log")
    return stn.says("add", "again.log", "1", "s1", "e1", "--lo=5")


def contradiction(stn):
    stn.done("add", "t.log", "1", "s1", "e1", "--lo=5")
    return stn.says("add", "t.log", "1", "s1", "e1", "--hi=4")


def twice(stn):
    stn.done("done", "t.log", "1", "s1", "2")
    return stn.says("done", "t.log", "1", "s1", "2")


def amended_done(stn):
    stn.done("done", "t.log", "1", "s1", "2")
    return stn.says("amend", "t.log", "1", "1.1", "z", "s1", "--lo=3")


def crlf_log(stn):
    """A log that was sent as a text, with other ends of lines."""
    stn.done("add", "t.log", "1", "s1", "e1", "--lo=0.01", "--hi=10.25")
    put("t.log", Path("t.log").read_bytes().replace(b"\n", b"\r\n"))
    return stn.says("report", "t.log", "1")


# The mistake, what is said, a word that has to be there, and whether that is enough.
MISTAKES = [
    ("a command is misspelled", simple("ad", "t.log", "1", "s1", "e1"), "'ad'", True),
    ("SITE is left out", simple("report", "t.log"), "<SITE>", True),
    ("SITE is a name", simple("report", "t.log", "one"), "'one'", True),
    ("SITE is 65", simple("report", "t.log", "65"), "64", True),
    ("an event in capitals", simple("add", "t.log", "1", "S1", "e1", "--lo=5"), "S1: not an event (z, s1 to s2, e1 to e2)", True),
    ("an event that the plan lacks", simple("add", "t.log", "1", "s1", "e3", "--lo=5"), "e3: not an event of the plan", True),
    ("a bound from an event to itself", simple("add", "t.log", "1", "s1", "s1", "--lo=5"), "names one event twice", True),
    ("sides in the wrong order", simple("add", "t.log", "1", "s1", "e1", "--lo=5", "--hi=3"), "lo is above hi", True),
    ("a time with a unit", simple("add", "t.log", "1", "s1", "e1", "--lo=5s"), "5s: not a time (seconds", True),
    ("a time with a comma", simple("done", "t.log", "1", "s1", "2,5"), "2,5: not a time (seconds", True),
    ("a time of the clock", simple("next", "t.log", "1", "12:30"), "12:30: not a time (seconds", True),
    ("digits of another script", simple("next", "t.log", "1", "٣"), "٣: not a time (seconds", True),
    ("finer than a millisecond", simple("done", "t.log", "1", "s1", "0.0005"), "finer than a millisecond", True),
    ("milliseconds of this century", simple("next", "t.log", "1", "1750000000000"), "more than a year", True),
    ("a negative time after a space", simple("add", "t.log", "1", "s1", "e1", "--lo", "-5"), "-5", True),
    ("a side that is open", simple("add", "t.log", "1", "s1", "e1", "--lo=5", "--hi=*"), "leave out --lo or --hi", True),
    ("another name of an option", simple("add", "t.log", "1", "s1", "e1", "--low=5"), "--lo", True),
    ("a record by its counter alone", simple("withdraw", "t.log", "1", "1"), "1: not an id (as 1.2)", True),
    ("a record that is not there", simple("withdraw", "t.log", "1", "2.1"), "no such record", True),
    ("a bound of the plan withdrawn", simple("withdraw", "t.log", "1", "plan.1"), "plan.1: a bound of the plan, which stays", True),
    ("too few times", simple("check", "t.log", "1", "0"), "1 times for 4 events", True),
    ("steps with a space for a comma", simple("next", "t.log", "1", "0", "--steps=1-"), "1-: not steps (as 2,4-6)", True),
    ("--own without steps", simple("guard", "t.log", "1", "--own=2"), "2: not a site and its steps (as 2:4-6)", True),
    ("a step that the plan lacks", simple("next", "t.log", "1", "0", "--steps=9"), "--steps: the plan has steps 1 to 2", True),
    ("a site's step that the plan lacks", simple("guard", "t.log", "1", "--own=2:9"), "--own: the plan has steps 1 to 2", True),
    ("names of a bare plan", simple("report", "t.log", "1", "--names"), "give --plan=PLAN", True),
    ("a code that there is not", simple("explain", "99"), "explain lists them", True),
    ("a log that is not there", simple("report", "tt.log", "1"), "tt.log: no such file or folder", True),
    ("a change of a log that is not there", simple("add", "tt.log", "1", "s1", "e1"), "tt.log: no such file or folder", True),
    ("a log that is there already", simple("bare", "t.log", "1", "2"), "see t.log", True),
    ("a folder in place of a log", folder, "plans: is a folder", True),
    ("a file of another program", notes, "see notes.txt", True),
    ("an empty file", empty, "see empty.log", True),
    ("a log with other ends of lines", crlf_log, "see t.log", True),
    ("a log that may not be read", unreadable, "t.log: permission denied", True),
    ("a log that may not be written", unwritable, "permission denied", True),
    ("domain and plan exchanged", exchanged, "see ", True),
    ("a misspelled action", other_action, "see typed.plan, step 1", True),
    ("a duration that is not the domain's", other_duration, "see long.plan, step 1", True),
    ("a plan that can't be robust", not_robust, "45", True),
    ("the log of another plan", other_plan, "see other.log", True),
    ("two sites with one number", same_number, "two different records", False),
    ("a port that is in use", port_in_use, "is in use", True),
    ("an address without a port", simple("serve", "t.log", "1", "localhost", "1"), "localhost: is not an address and a port (as 127.0.0.1:7000)", True),
    ("nobody serves there", simple("send", "t.log", "1", "127.0.0.1:1"), "127.0.0.1:1: nobody answers", True),
    ("a full output", full, "standard output", True),
    ("a lock that is somebody's file", own_lock, "t.log.lock: is not empty", True),
    ("a log that is held", held, "t.log: another program holds it, waiting", True),
    ("a log with two names", two_names, "has another name too", True),
    ("a bound that contradicts others", contradiction, "no schedule is left (see repairs)", True),
    ("an event that is done twice", twice, "s1 is recorded as done twice", True),
    ("a correction of what was done", amended_done, "1.1 said that an event was done, which no longer counts", True),
    ("a bound without sides", simple("add", "t.log", "1", "s1", "e1"), "the bound has no side", True),
]


def try_one(program, make):
    """What is said of a mistake, in a folder of its own."""
    room, before = tempfile.mkdtemp(), os.getcwd()
    os.chmod(room, 0o777)
    os.chdir(room)
    try:
        stn = Tried(program)
        stn.done("bare", "t.log", "1", "2")
        return make(stn)
    finally:
        os.chdir(before)
        shutil.rmtree(room)


def main(program):
    program = os.path.abspath(program)
    lacking, mended = [], 0
    print("| Mistake | What is said | Mended by it |\n|---|---|---|")
    for name, make, word, enough in MISTAKES:
        said = try_one(program, make)
        mended += enough
        print(f"| {name} | {' / '.join(said.split(chr(10))).strip(' /')} | {'yes' if enough else 'no'} |", flush=True)
        if word not in said:
            lacking.append(f"{name}: {word!r} is not in {said!r}")
    print(f"{len(MISTAKES)} mistakes, {mended} of them mended by what is said")
    if mended < MENDED * len(MISTAKES):
        lacking.append("too few are mended")
    return "\n".join(lacking)


if __name__ == "__main__":
    if len(sys.argv) != 2:
        sys.exit(__doc__.strip())
    wrong = main(sys.argv[1])
    if wrong:
        sys.exit(wrong)
    print("passed")
