#!/usr/bin/env python3
"""Tries what ./stn says and does before the program is built, once it is built, and when its sources have changed since.

usage: bench/first_run.py [NAME ..]    with no name: every trial

It works on a copy of the repository in a fresh folder, which it removes at the end. A stand-in for `rt` proves nothing, and
builds a stand-in for the program. Only in the last trial the real `rt` runs a script, unproved, which takes a minute or two.
It says `passed`, or what failed, with status 1.
"""
import os
import re
import shutil
import subprocess
import sys
import tempfile
import time
from pathlib import Path

TOP = Path(__file__).resolve().parent.parent
# What the launcher calls, beside rt.
TOOLS = "awk cat cp date dirname find head mkdir mktemp mv readlink rm sed sh sha256sum sort tail tee xargs".split()
# The stand-in for rt: ENDS says how an unproved run, or a build, ends. An unproved run gets its input as a file, since the
# real rt takes no more of a pipe that falls silent.
RT = """#!/bin/sh
test -f /dev/stdin || [ "$1" = ci ] || exit 99
case "$1 $ENDS" in
    'ci fails') echo 'rt: stn_text NOT PROVED'; exit 1 ;;
    ci*)
        echo 'rt: stn_text is kept: an earlier run proved the same'
        for crate in $(sed -n 's/:.*//p' crates.txt | sed 1d); do echo "rt: $crate proved"; done
        mkdir -p crates/stn/out
        cp "$STAND_IN" crates/stn/out/stn
        exit ;;
    'try limit') printf '%s\\n' 'the end of the output:' '| x' 'checked: no-answer: the cause' 'run=no-answer proved=no' >&2; exit 6 ;;
    'try fault') printf '%s\\n' 'checked: fault: the cause' 'run=fault proved=no' >&2; exit 4 ;;
    'try refused') printf '%s\\n' 'error: no such name' 'run=none proved=no' >&2; exit 1 ;;
esac
shift
echo "tried $*"
cat
printf '%s\\n' 'said by the program' "checked: ended status=$ENDS" "run=ended status=$ENDS runners=1 proved=no" >&2
exit "$ENDS"
"""
# The stand-in for the program.
PROGRAM = """#!/bin/sh
echo "program: $*"
if [ "${1-}" = run ]; then cat; fi
exit 7
"""
FAILED = []


def check(what, holds, shown=""):
    print(f"{'ok    ' if holds else 'FAILED'} {what}{'' if holds else f': {shown!r}'}", flush=True)
    if not holds:
        FAILED.append(what)


class Copy:
    """A copy of the repository that was never built, and the tools, with which its ./stn is run."""

    def __init__(self, folder):
        self.folder, self.top, self.tools = folder, folder / "stn", folder / "tools"
        shutil.copytree(TOP, self.top, symlinks=True, ignore=shutil.ignore_patterns("out", ".git"))
        self.tools.mkdir()
        for tool in TOOLS:
            (self.tools / tool).symlink_to(shutil.which(tool))
        for name, text in (("rt", RT), ("program", PROGRAM)):
            (folder / name).write_text(text)
            (folder / name).chmod(0o755)

    def run(self, *words, given=b"", ends="0", rt=True):
        """What ./stn prints, what it says, and its status."""
        path = f"{self.folder}:{self.tools}" if rt else str(self.tools)
        environment = {"PATH": path, "ENDS": ends, "STAND_IN": str(self.folder / "program")}
        done = subprocess.run([self.top / "stn", *words], cwd=self.folder, env=environment, input=given, capture_output=True, check=False)
        return done.stdout, done.stderr.decode(), done.returncode

    def check(self, what, found, printed, status, *said):
        """The output is this, to the byte, so is the status, and among what is said are these texts in this order."""
        place = 0
        for text in said:
            place = found[1].find(text, place) if place >= 0 else place
        check(what, found[0] == printed and found[2] == status and place >= 0, found)

    def build(self):
        self.run("build")

    def change(self):
        """Changes a byte of a source, and neither its size nor the time of its last change."""
        source = self.top / "crates" / "stn_text" / "src" / "lib.rt"
        times, text = source.stat(), source.read_bytes()
        source.write_bytes(text.replace(b"e", b"f", 1))
        os.utime(source, ns=(times.st_atime_ns, times.st_mtime_ns))

    def path(self):
        return f"{self.top}/out/stn\n".encode()


UNBUILT = "stn: the program is not built yet"
WAITS = "about half an hour"
NEWER = "stn: the sources are newer than the program"
NO_RT = "rt, the tool of the Rattle toolchain, is not on the path"
UNPROVED = ", so this run is unproved"
FROM_BUILD = ": stn_text, kept\n"


def stored(words):
    """What the program prints for these words, by the stored run that the gate compares with it."""
    lines = (TOP / "crates" / "command_lines" / "stdout").read_text().splitlines()
    place = lines.index(f"> :told {words}") + 1
    ends = next(at for at in range(place, len(lines)) if not lines[at].startswith("out|"))
    return "".join(line.removeprefix("out|") + "\n" for line in lines[place:ends]).encode()


def commands():
    """The commands of the program, by its table."""
    table = (TOP / "crates" / "stn_line" / "src" / "commands.rt").read_text()
    return re.findall(r'^        name: "(\w+)",', table, re.M)


def no_words(copy):
    copy.check("no words, not built", copy.run(), b"", 2, "usage: ", "build ", "run ", UNBUILT)
    copy.build()
    copy.check("no words, built", copy.run(), b"program: \n", 7, "usage: ")
    copy.change()
    copy.check("no words, changed", copy.run(), b"program: \n", 7, "usage: ", NEWER)


def told_at_once(copy):
    """Help, the version and a wrong word, without rt."""
    for words in (["--help"], ["-h"], ["--version"], ["-V"]):
        printed = stored("--help" if "h" in words[0] else "--version")
        copy.check(f"not built: {words[0]}", copy.run(*words, rt=False), printed, 0)
    copy.check("not built: help", copy.run("help", rt=False), stored("--help"), 0)
    names = commands()
    for name in names:
        for words in ([name, "--help"], ["help", name]):
            copy.check(f"not built: {' '.join(words)}", copy.run(*words, rt=False), stored(f"{name} --help"), 0)
    check("each has its own help", len({stored(f"{name} --help") for name in names}) == len(names) > 20, names)
    listed = re.search(r"^Commands:\n((?:  .*\n)*)", stored("--help").decode(), re.M)[1]
    check("the help lists the commands", [line.split()[0] for line in listed.splitlines()] == [*names, "help"], listed)
    copy.check("not built: help of no command", copy.run("help", "fly", rt=False), b"", 2, "stn: no such command: fly", "--help")
    for word in ("fly", "--fly", "reports", "Commands:", "a b", "add\nbare", "-", "*"):
        copy.check(f"not built, no command: {word!r}", copy.run(word, rt=False), b"", 2, f"stn: no such command: {word}", "--help")
    for name in names:
        if name != "run":
            copy.check(f"not built: {name}", copy.run(name, "a b"), b"", 2, UNBUILT, name, "build", WAITS)
    check("nothing was built", not (copy.top / "out").exists())


def unproved(copy):
    script = b"steps 1\n\0 \xff"
    printed = b"tried -- run\n" + script
    for status in (0, 1):
        found = copy.run("run", given=script, ends=str(status))
        copy.check(f"an unproved run of status {status}", found, printed, status, UNBUILT + UNPROVED, "build proves", "said by the program\n")
        check("of what rt says, only the program's own words are left", "run=ended" not in found[1] and "checked:" not in found[1], found)
    copy.check("wrong words", copy.run("run", "a b", ends="2"), b"tried -- run a b\n", 2, UNBUILT + UNPROVED)
    copy.check("a limit", copy.run("run", ends="limit"), b"", 2, UNPROVED, "stn: no answer: the cause\n", "60 seconds", "1 MiB", "build")
    copy.check("a fault", copy.run("run", ends="fault"), b"", 2, UNPROVED, "checked: fault: the cause", "stn: no answer")
    copy.check("a refused crate", copy.run("run", ends="refused"), b"", 2, UNPROVED, "error: no such name", "stn: no answer")
    check("nothing was built", not (copy.top / "out").exists())


def building(copy):
    crates = [line.split(":")[0] for line in (TOP / "crates.txt").read_text().splitlines()]
    count = sum(not name.startswith("#") for name in crates[:crates.index("stn") + 1])
    last = f"stn: {count} of {count}: stn\n"
    copy.check("a build", copy.run("build"), copy.path(), 0, WAITS, FROM_BUILD, "minute", last)
    copy.check("the path of a built program", copy.run("build", rt=False), copy.path(), 0)
    copy.check("a built program runs", copy.run("run", given=b"x\n"), b"program: run\nx\n", 7)
    found = copy.run("fly", "")
    copy.check("any words are handed on", found, b"program: fly \n", 7)
    check("and nothing is said", found[1] == "", found)
    copy.change()
    copy.check("a build anew", copy.run("build"), copy.path(), 0, FROM_BUILD)
    copy.check("a build of the same", copy.run("build"), copy.path(), 0)


def failing(copy):
    copy.check("a build that fails", copy.run("build", ends="fails"), b"", 2, "stn_text NOT PROVED")
    copy.check("a command that needs it", copy.run("report", ends="fails"), b"", 2, UNBUILT)
    copy.build()
    copy.change()
    copy.check("a build anew that fails", copy.run("build", ends="fails"), b"", 2, "stn_text NOT PROVED")
    copy.check("what was built stays", copy.run("run", rt=False), b"program: run\n", 7, NEWER, "build")


def changed(copy):
    copy.build()
    (copy.top / "crates" / "stn_text" / "src" / "lib.rt").touch()
    found = copy.run("run")
    copy.check("a source that was only touched", found, b"program: run\n", 7)
    check("and nothing is said", found[1] == "", found)
    copy.change()
    for words in (["run"], ["report"], ["--help"]):
        copy.check(f"a changed source: {words[0]}", copy.run(*words), f"program: {words[0]}\n".encode(), 7, NEWER, "build")
    copy.build()
    more = copy.top / "crates" / "stn_text" / "specs" / "more.antt"
    more.touch()
    copy.check("a new source", copy.run("report"), b"program: report\n", 7, NEWER)
    more.unlink()
    found = copy.run("report")
    copy.check("a removed one", found, b"program: report\n", 7)
    check("and nothing is said", found[1] == "", found)


def no_rt(copy):
    for words in (["run"], ["build"]):
        copy.check(f"no rt, not built: {words[0]}", copy.run(*words, rt=False), b"", 2, NO_RT)
    copy.build()
    copy.check("no rt, built", copy.run("run", rt=False), b"program: run\n", 7)
    copy.change()
    copy.check("no rt, changed: run", copy.run("run", rt=False), b"program: run\n", 7, NEWER)
    copy.check("no rt, changed: build", copy.run("build", rt=False), b"", 2, NO_RT)


def linked(copy):
    """By a link, from another folder, the program runs in the caller's folder."""
    copy.build()
    link = copy.folder / "link"
    link.symlink_to(copy.top / "stn")
    (copy.folder / "program").write_text("#!/bin/sh\npwd\n")
    copy.change()
    copy.build()
    done = subprocess.run([link, "run"], cwd="/", env={"PATH": str(copy.tools)}, capture_output=True, check=False)
    check("by a link", done.stdout == b"/\n" and not done.stderr, done)


def for_real(copy):
    if not shutil.which("rt"):
        print("not tried: rt is not on the path")
        return
    script = (TOP / "examples" / "first.stn").read_bytes()
    wanted = subprocess.run([TOP / "bench" / "scripts.py", "-"], input=script, stdout=subprocess.PIPE, check=True).stdout
    begun = time.monotonic()
    done = subprocess.run([copy.top / "stn", "run"], input=script, capture_output=True, check=False)
    print(f"the first command: {time.monotonic() - begun:.0f} s on {os.cpu_count()} processors, load {os.getloadavg()[0]:.0f}")
    copy.check("the first command", (done.stdout, done.stderr.decode(), done.returncode), wanted, 0, UNBUILT + UNPROVED)
    check("rt says nothing more", len(done.stderr.splitlines()) == 2, done.stderr)


TRIED = [no_words, told_at_once, unproved, building, failing, changed, no_rt, linked, for_real]


def main():
    if not set(sys.argv[1:]) <= {trial.__name__ for trial in TRIED}:
        sys.exit(__doc__)
    for trial in TRIED:
        if trial.__name__ in (sys.argv[1:] or [trial.__name__]):
            with tempfile.TemporaryDirectory(prefix="first_run.") as folder:
                trial(Copy(Path(folder).resolve()))
    print("passed" if not FAILED else f"FAILED: {len(FAILED)}")
    return 1 if FAILED else 0


if __name__ == "__main__":
    sys.exit(main())
