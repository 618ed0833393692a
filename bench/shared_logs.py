#!/usr/bin/env python3
"""Tries logs that several programs use: prints `passed`, or what failed, with status 1.

usage: bench/shared_logs.py PROGRAM [NAME ..]    with no name: every trial

PROGRAM is the built program, whose path ./stn build prints. The logs are made in a fresh folder, which is
removed at the end. What can't be tried here, as for lack of rights, is said so. It takes about a minute.

Several programs work on one log, also while another removes its lock; 150 programs are stopped at random moments. It tries
what a log and its lock permit; other files under the names that a save uses; logs with two names, or that may not be
written; full disks, also under `serve`; a site that is stopped once it has replied; sessions that a signal interrupts; and
the second address of a name. Each command that changes a log has to wait while another program holds it, and a report must
not.
"""
import fcntl
import os
import random
import re
import resource
import shutil
import signal
import socket
import stat
import subprocess
import sys
import tempfile
import threading
import time

ADDED = 200
STOPPED = 150
REMOVED = 120
TOLD = 30
SECONDS = 60
LITTER = re.compile(r"^(.*)\.saving-[0-9]+$")
NOBODY = 65534
WAITING = ": another program holds it, waiting\n"


def besides(err):
    """What a standard error says besides hints, and that a command waits."""
    return "".join(it for it in err.splitlines(True) if not it.startswith("hint: ") and not it.endswith(WAITING))


def fault_in(err):
    """The first line of a standard error but for these: the fault. Its reason stands after it."""
    return "".join(besides(err).splitlines(True)[:1])


class Wrong(Exception):
    """Something is not as it is to be."""


def check(holds, what):
    if not holds:
        raise Wrong(what)


class Program:
    """The program, and what a call of it answered."""

    def __init__(self, path):
        self.path = os.path.abspath(path)

    def start(self, *words, **options):
        options.setdefault("stdout", subprocess.PIPE)
        options.setdefault("stderr", subprocess.PIPE)
        return subprocess.Popen([self.path, *words], stdin=subprocess.DEVNULL, **options)

    def run(self, *words, **options):
        running = self.start(*words, **options)
        try:
            out, err = running.communicate(timeout=SECONDS)
        except subprocess.TimeoutExpired:
            running.kill()
            running.communicate()
            raise Wrong(f"{words}: no end within {SECONDS} seconds")
        return running.returncode, (out or b"").decode(), (err or b"").decode()

    def answers(self, wanted, *words, **options):
        status, out, err = self.run(*words, **options)
        check((status, out, besides(err)) == (0, wanted, ""), f"{words}: {status} {out!r} {err!r} in place of {wanted!r}")

    def refuses(self, wanted, *words, **options):
        status, out, err = self.run(*words, **options)
        check((status, out) == (1, wanted), f"{words}: {status} {out!r} {err!r} in place of {wanted!r}")

    def fails(self, wanted, *words, **options):
        status, out, err = self.run(*words, **options)
        check((status, out, fault_in(err)) == (1, "", wanted), f"{words}: {status} {out!r} {err!r} in place of {wanted!r}")

    def add(self, log, number=0, site="1", **options):
        """Adds a bound: its id."""
        status, out, err = self.run("add", log, site, "z", "s1", f"--hi={1000 + number}", **options)
        check(status == 0 and out.startswith("added ") and besides(err) == "", f"add {log}: {status} {out!r} {err!r}")
        return out.split()[1]

    def records(self, log, site="1"):
        """How many live records a log has."""
        status, out, err = self.run("report", log, site)
        found = re.search(r"^records ([0-9]+) live 0 withdrawn$", out, re.M)
        check(status == 0 and found and err == "", f"report {log}: {status} {out!r} {err!r}")
        return int(found.group(1))


def contents(path):
    with open(path, "rb") as file:
        return file.read()


def mode_of(path):
    return stat.S_IMODE(os.lstat(path).st_mode)


def no_litter(folder="."):
    left = [name for name in os.listdir(folder) if LITTER.match(name)]
    check(not left, f"left beside: {left}")


def adders_and_merger(stn):
    """Two programs add to one log while a third merges into it."""
    stn.answers("made\n", "bare", "a.log", "1", "1")
    stn.answers("made\n", "bare", "b.log", "2", "1")
    for number in range(5):
        stn.add("b.log", number, "2")
    ids, faults, done = [], [], threading.Event()

    def adds(first):
        try:
            for number in range(ADDED):
                ids.append(stn.add("a.log", first + number))
        except Wrong as wrong:
            faults.append(str(wrong))

    def merges():
        try:
            while not done.is_set():
                stn.answers("merged\n", "merge", "a.log", "1", "b.log")
        except Wrong as wrong:
            faults.append(str(wrong))

    adders = [threading.Thread(target=adds, args=(first,)) for first in (0, ADDED)]
    merger = threading.Thread(target=merges)
    for thread in [merger, *adders]:
        thread.start()
    for thread in adders:
        thread.join()
    done.set()
    merger.join()
    check(not faults, faults)
    check(len(set(ids)) == 2 * ADDED, f"{len(set(ids))} ids of {2 * ADDED} bounds")
    check(stn.records("a.log") == 2 * ADDED + 5, f"{stn.records('a.log')} records of {2 * ADDED + 5}")
    no_litter()


def one_new_log(stn):
    """Of two programs that make one log, one does."""
    for turn in range(30):
        name = f"new{turn}.log"
        both = [stn.start("bare", name, "1", steps) for steps in ("1", "2")]
        said = sorted(running.communicate(timeout=SECONDS)[0] for running in both)
        check(said == [b"made\n", b"refused 64\n"], f"bare {name}: {said}")
        check(stn.records(name) == 0, f"{name} has records")
    no_litter()


def waits(stn):
    """Who changes a log waits for who holds it, and says so; who reads it doesn't, and who is refused by its words neither."""
    stn.answers("made\n", "bare", "a.log", "1", "1")
    first = stn.add("a.log")
    with open("a.log.lock", "rb") as lock:
        fcntl.flock(lock, fcntl.LOCK_EX)
        adding = stn.start("add", "a.log", "1", "z", "s1", "--hi=9")
        time.sleep(0.5)
        check(adding.poll() is None, "add didn't wait")
        check(stn.records("a.log") == 1, "report of a log that is held")
        refused = stn.run("add", "a.log", "1", "z", "S1")
        check(refused[1] == "refused 70 0\n" and WAITING not in refused[2], f"words of a log that is held: {refused}")
        check(first == "1.1", first)
    out, err = adding.communicate(timeout=SECONDS)
    check((out, err.decode()) == (b"added 1.2\n", "a.log" + WAITING), f"add after the wait: {out!r} {err!r}")


def all_wait(stn):
    """Each command that changes a log waits for who holds it."""
    stn.answers("made\n", "bare", "a.log", "1", "1")
    stn.answers("made\n", "bare", "b.log", "2", "1")
    stn.add("a.log")
    changes = [
        (b"added 1.2\n", "done", "a.log", "1", "s1", "1"),
        (b"amended 1.3\n", "amend", "a.log", "1", "1.1", "z", "s1"),
        (b"withdrawn 1.3\n", "withdraw", "a.log", "1", "1.3"),
        (b"merged\n", "merge", "a.log", "1", "b.log"),
    ]
    for wanted, *words in changes:
        with open("a.log.lock", "rb") as lock:
            fcntl.flock(lock, fcntl.LOCK_EX)
            running = stn.start(*words)
            time.sleep(0.3)
            check(running.poll() is None, f"{words[0]} didn't wait")
        answer = running.communicate(timeout=SECONDS)
        check(answer[0] == wanted and answer[1].decode().startswith("a.log" + WAITING), f"{words}: {answer} in place of {wanted}")


def holder_stopped(stn):
    """The lock of a program that is stopped is let go."""
    stn.answers("made\n", "bare", "a.log", "1", "1")
    stn.add("a.log")
    script = "import fcntl, time; f = open('a.log.lock'); fcntl.flock(f, fcntl.LOCK_EX); print(flush=True); time.sleep(600)"
    holder = subprocess.Popen([sys.executable, "-c", script], stdout=subprocess.PIPE)
    holder.stdout.readline()
    adding = stn.start("add", "a.log", "1", "z", "s1")
    time.sleep(0.3)
    check(adding.poll() is None, "add didn't wait")
    holder.kill()
    holder.communicate()
    check(adding.communicate(timeout=SECONDS)[0] == b"added 1.2\n", "add after the holder was stopped")


def stopped_at_any_moment(stn):
    """A program that is stopped leaves a log that loads, and the next command works at once."""
    stn.answers("made\n", "bare", "a.log", "1", "1")
    start = time.monotonic()
    stn.add("a.log")
    whole = time.monotonic() - start
    acknowledged, asked = 1, 1
    for turn in range(STOPPED):
        running = stn.start("add", "a.log", "1", "z", "s1", f"--hi={1000 + turn}")
        asked += 1
        time.sleep(random.random() * whole * 1.5)
        running.send_signal(random.choice([signal.SIGKILL, signal.SIGTERM, signal.SIGINT]))
        if running.communicate(timeout=SECONDS)[0].startswith(b"added "):
            acknowledged += 1
        records = stn.records("a.log")
        check(acknowledged <= records <= asked, f"{records} records, {acknowledged} acknowledged, {asked} asked for")
        start = time.monotonic()
        stn.add("a.log", turn)
        check(time.monotonic() - start < 10, "the next command waited")
        acknowledged, asked = acknowledged + 1, asked + 1
    known = {"a.log", "a.log.lock"}
    others = [name for name in os.listdir(".") if name not in known and not LITTER.match(name)]
    check(not others, f"left beside: {others}")


def planted(stn):
    """What stands beside a log is left alone, whatever its name."""
    stn.answers("made\n", "bare", "a.log", "1", "1")
    stn.answers("made\n", "bare", "a.log.new", "1", "1")
    with open("victim", "wb") as file:
        file.write(b"precious")
    os.symlink("victim", "a.log.saving-0")
    os.mkfifo("a.log.saving-1")
    os.mkdir("a.log.saving-2")
    os.symlink("nowhere", "a.log.saving-3")
    with open("a.log.saving-4", "wb") as file:
        file.write(b"mine")
    before = contents("a.log.new")
    stn.add("a.log")
    stn.answers("merged\n", "merge", "a.log", "1", "a.log.new")
    check(contents("a.log.new") == before, "a.log.new was changed")
    check(contents("victim") == b"precious" and contents("a.log.saving-4") == b"mine", "a file was changed")
    check(os.readlink("a.log.saving-0") == "victim" and os.readlink("a.log.saving-3") == "nowhere", "a link was changed")
    check(not os.path.exists("nowhere"), "a link was followed")
    check(stat.S_ISFIFO(os.lstat("a.log.saving-1").st_mode), "a FIFO was changed")
    check(sorted(os.listdir(".")) == sorted(
        ["a.log", "a.log.lock", "a.log.new", "a.log.new.lock", "victim", *(f"a.log.saving-{n}" for n in range(5))]
    ), os.listdir("."))


def planted_lock(stn):
    """What is no empty file is no lock."""
    for name in ("l.log", "f.log", "d.log", "t.log"):
        stn.answers("made\n", "bare", name, "1", "1")
        os.remove(name + ".lock")
    with open("victim", "wb"):
        pass
    os.symlink("elsewhere", "l.log.lock")
    os.mkfifo("f.log.lock")
    os.mkdir("d.log.lock")
    with open("t.log.lock", "wb") as file:
        file.write(b"a text")
    for name in ("l.log", "f.log", "d.log", "t.log"):
        stn.fails("fault file\n", "add", name, "1", "z", "s1")
        check(stn.records(name) == 0, f"{name} was changed")
    check(not os.path.exists("elsewhere"), "a link was followed")
    check(contents("t.log.lock") == b"a text", "a text was changed")
    no_litter()


def missing(stn):
    """A command of a log that isn't there leaves nothing."""
    stn.fails("fault file\n", "add", "none.log", "1", "z", "s1")
    stn.fails("fault file\n", "amend", "none.log", "1", "1.1", "z", "s1")
    stn.fails("fault file\n", "withdraw", "none.log", "1", "1.1")
    stn.fails("fault file\n", "done", "none.log", "1", "s1", "1")
    stn.fails("fault file\n", "merge", "none.log", "1", "none.log")
    stn.fails("fault file\n", "bare", "none/a.log", "1", "1")
    stn.fails("fault file\n", "bare", "", "1", "1")
    check(os.listdir(".") == [], os.listdir("."))


def modes(stn):
    """A log keeps its mode; its lock is open to who may write the log, and to nobody else."""
    old = os.umask(0o022)
    try:
        stn.answers("made\n", "bare", "a.log", "1", "1")
        check(mode_of("a.log") == 0o644, f"{mode_of('a.log'):o}")
        os.remove("a.log.lock")
        for mode in (0o600, 0o640, 0o664, 0o606):
            os.chmod("a.log", mode)
            stn.add("a.log")
            check(mode_of("a.log") == mode, f"{mode:o} became {mode_of('a.log'):o}")
            wanted = (mode & 0o222) | (mode & 0o222) << 1
            check(mode_of("a.log.lock") == wanted, f"lock {mode_of('a.log.lock'):o} of a log {mode:o}")
    finally:
        os.umask(old)
    no_litter()


def owners(stn):
    """A log keeps its owner, where the system lets it."""
    if os.geteuid() != 0:
        return "owners: only root may give files away"
    stn.answers("made\n", "bare", "a.log", "1", "1")
    os.chown("a.log", NOBODY, NOBODY)
    stn.add("a.log")
    for name in ("a.log", "a.log.lock"):
        found = os.stat(name)
        check((found.st_uid, found.st_gid) == (NOBODY, NOBODY), f"{name}: owner {found.st_uid}, group {found.st_gid}")


def links(stn):
    """A log that is a link is written, and held, where the link leads."""
    os.mkdir("there")
    stn.answers("made\n", "bare", "there/a.log", "1", "1")
    os.symlink("there/a.log", "one.log")
    os.symlink("one.log", "two.log")
    check([stn.add("two.log"), stn.add("there/a.log"), stn.add("one.log")] == ["1.1", "1.2", "1.3"], "ids")
    check(os.readlink("one.log") == "there/a.log" and os.readlink("two.log") == "one.log", "a link was changed")
    check(stn.records("there/a.log") == 3, "records")
    check(sorted(os.listdir("there")) == ["a.log", "a.log.lock"], os.listdir("there"))
    check(sorted(os.listdir(".")) == ["one.log", "there", "two.log"], os.listdir("."))
    with open("there/a.log.lock", "rb") as lock:
        fcntl.flock(lock, fcntl.LOCK_EX)
        adding = stn.start("add", "two.log", "1", "z", "s1")
        time.sleep(0.3)
        check(adding.poll() is None, "add by a link didn't wait")
    check(adding.communicate(timeout=SECONDS)[0] == b"added 1.4\n", "add by a link")
    os.symlink("nowhere", "lost.log")
    stn.refuses("refused 64\n", "bare", "lost.log", "1", "1")
    stn.fails("fault file\n", "add", "lost.log", "1", "z", "s1")
    check(not os.path.exists("nowhere"), "a link to nothing was followed")


def as_user(user, group, *groups):
    """Options by which a program runs as another user, of a group and of further groups."""

    def become():
        os.setgroups(groups)
        os.setgid(group)
        os.setuid(user)

    return {"preexec_fn": become}


def reachable(stn, **options):
    """Whether another user can run the program here."""
    try:
        return subprocess.run([os.path.abspath(stn.path), "--version"], capture_output=True, check=False, **options).returncode == 0
    except (OSError, subprocess.SubprocessError):
        return False


def link_changes(stn):
    """A command goes on with the log that its name led to when it was held, whatever the name becomes."""
    stn.answers("made\n", "bare", "a.log", "1", "1")
    stn.answers("made\n", "bare", "b.log", "1", "1")
    os.symlink("a.log", "one.log")
    with open("a.log.lock", "rb") as lock:
        fcntl.flock(lock, fcntl.LOCK_EX)
        adding = stn.start("add", "one.log", "1", "z", "s1")
        time.sleep(0.5)
        check(adding.poll() is None, "add didn't wait")
        os.symlink("b.log", "next")
        os.rename("next", "one.log")
    answer = adding.communicate(timeout=SECONDS)
    check((answer[0], besides(answer[1].decode())) == (b"added 1.1\n", ""), f"add: {answer}")
    check((stn.records("a.log"), stn.records("b.log")) == (1, 0), "the bound is in the other log")
    check(os.readlink("one.log") == "b.log", "the link was changed")
    check(stn.add("one.log") == "1.1" and stn.records("b.log") == 1, "the next command follows the link as it is")
    no_litter()


def log_changes(stn):
    """What took the place of a log that is held is left alone."""
    stn.answers("made\n", "bare", "a.log", "1", "1")
    stn.answers("made\n", "bare", "b.log", "2", "1")
    stn.add("b.log", 0, "2")
    address = f"127.0.0.1:{free_port()}"
    stn.add("a.log")
    server = stn.start("serve", "a.log", "1", address, "1")
    try:
        check(server.stdout.readline() == b"listening\n", "serve")
        os.rename("a.log", "moved.log")
        os.symlink("moved.log", "a.log")
        check(stn.run("send", "b.log", "2", address)[0] == 0, "send")
        check(server.wait(timeout=SECONDS) == 0, "serve")
    finally:
        server.kill()
        server.communicate()
    check(os.readlink("a.log") == "moved.log" and stn.records("moved.log") == 2, "the log that a link leads to by then")
    no_litter()


def removed_lock(stn):
    """Three programs add while a fourth removes the lock: each bound that was acknowledged is there, and no id is given twice."""
    stn.answers("made\n", "bare", "a.log", "1", "1")
    ids, faults, done = [], [], threading.Event()

    def adds(first):
        try:
            for number in range(REMOVED):
                status, out, err = stn.run("add", "a.log", "1", "z", "s1", f"--hi={first + number}")
                if status == 0:
                    ids.append(out.split()[1])
                else:
                    check((status, out, fault_in(err)) == (1, "", "fault file\n"), f"add: {status} {out!r} {err!r}")
        except Wrong as wrong:
            faults.append(str(wrong))

    def removes():
        while not done.is_set():
            try:
                os.remove("a.log.lock")
            except FileNotFoundError:
                pass
            time.sleep(random.random() * 0.02)

    adders = [threading.Thread(target=adds, args=(1000 * number,)) for number in range(1, 4)]
    remover = threading.Thread(target=removes)
    for thread in [remover, *adders]:
        thread.start()
    for thread in adders:
        thread.join()
    done.set()
    remover.join()
    check(not faults, faults)
    check(ids, "none of the bounds was acknowledged")
    check(len(set(ids)) == len(ids), f"{len(set(ids))} ids of {len(ids)} bounds")
    check(stn.records("a.log") == len(ids), f"{stn.records('a.log')} records of {len(ids)} acknowledged")
    no_litter()


def next_lock(stn):
    """Who waited for a lock whose name was removed takes the next one."""
    stn.answers("made\n", "bare", "a.log", "1", "1")
    with open("a.log.lock", "rb") as removed:
        fcntl.flock(removed, fcntl.LOCK_EX)
        adding = stn.start("add", "a.log", "1", "z", "s1")
        time.sleep(0.5)
        os.remove("a.log.lock")
        with open("a.log.lock", "wb") as lock:
            fcntl.flock(lock, fcntl.LOCK_EX)
            fcntl.flock(removed, fcntl.LOCK_UN)
            time.sleep(0.5)
            check(adding.poll() is None, "add took a lock that was removed")
    answer = adding.communicate(timeout=SECONDS)
    check((answer[0], besides(answer[1].decode())) == (b"added 1.1\n", ""), f"add by the next lock: {answer}")


def hard_links(stn):
    """A log that has two names is read, and not changed."""
    stn.answers("made\n", "bare", "a.log", "1", "1")
    stn.add("a.log")
    os.link("a.log", "b.log")
    before = contents("a.log")
    for name in ("a.log", "b.log"):
        stn.fails("fault file\n", "add", name, "1", "z", "s1")
        stn.fails("fault file\n", "serve", name, "1", "127.0.0.1:0", "1")
        check(stn.records(name) == 1, f"report {name}")
    check(contents("a.log") == before and os.path.samefile("a.log", "b.log"), "a log was changed")
    os.remove("b.log")
    check(stn.add("a.log") == "1.2", "add when there is one name again")
    no_litter()


def read_only(stn):
    """A log that may not be written is not replaced."""
    stn.answers("made\n", "bare", "a.log", "1", "1")
    os.chmod("a.log", 0o444)
    before = contents("a.log")
    stn.fails("fault file\n", "add", "a.log", "1", "z", "s1")
    stn.fails("fault file\n", "serve", "a.log", "1", "127.0.0.1:0", "1")
    check(contents("a.log") == before and mode_of("a.log") == 0o444, "a log was changed")
    check(stn.records("a.log") == 0, "report")
    no_litter()
    if os.geteuid() != 0:
        return "a log of another user: only root may give files away"
    options = as_user(NOBODY, NOBODY)
    os.chmod(".", 0o777)
    os.chmod("a.log", 0o644)
    if not reachable(stn, **options):
        return "a log of another user: another user can't run the program"
    stn.fails("fault file\n", "add", "a.log", "1", "z", "s1", **options)
    check(contents("a.log") == before, "a log of another user was changed")
    no_litter()
    return None


def blind_folder(stn):
    """A folder that can't be opened can't be forced to the disk: nothing is changed there."""
    if os.geteuid() != 0:
        return "a folder that can't be opened: only root may give files away"
    options = as_user(NOBODY, NOBODY)
    if not reachable(stn, **options):
        return "a folder that can't be opened: another user can't run the program"
    os.mkdir("blind")
    stn.answers("made\n", "bare", "blind/a.log", "1", "1")
    for name in ("blind", "blind/a.log", "blind/a.log.lock"):
        os.chown(name, NOBODY, NOBODY)
    before = contents("blind/a.log")
    os.chmod("blind", 0o333)
    try:
        stn.fails("fault file\n", "add", "blind/a.log", "1", "z", "s1", **options)
        stn.fails("fault file\n", "bare", "blind/b.log", "1", "1", **options)
        stn.fails("fault file\n", "serve", "blind/a.log", "1", "127.0.0.1:0", "1", **options)
    finally:
        os.chmod("blind", 0o755)
    check(contents("blind/a.log") == before and not os.path.exists("blind/b.log"), "a log was changed")
    no_litter("blind")
    check(stn.run("add", "blind/a.log", "1", "z", "s1", **options)[0] == 0, "add when the folder can be opened")
    return None


def two_writers(stn):
    """Who may write a log by its group may hold it; who may only read it may not."""
    if os.geteuid() != 0:
        return "writers of one group: only root may give files away"
    one, two, reader, group = NOBODY, NOBODY - 1, NOBODY - 2, NOBODY - 3
    if not reachable(stn, **as_user(one, one, group)):
        return "writers of one group: another user can't run the program"
    os.chmod(".", 0o777)
    old = os.umask(0o077)
    try:
        stn.answers("made\n", "bare", "a.log", "1", "1", **as_user(one, one, group))
        os.chown("a.log", one, group)
        os.chmod("a.log", 0o664)
        check(stn.add("a.log", **as_user(one, one, group)) == "1.1", "the owner")
        check(stn.add("a.log", **as_user(two, two, group)) == "1.2", "the second writer")
        check(stn.add("a.log", **as_user(one, one, group)) == "1.3", "the owner again")
    finally:
        os.umask(old)
    found = os.stat("a.log.lock")
    check((found.st_gid, mode_of("a.log.lock")) == (group, 0o660), f"lock {found.st_gid} {mode_of('a.log.lock'):o}")
    opened = subprocess.run(["/bin/cat", "a.log.lock"], capture_output=True, check=False, **as_user(reader, reader))
    check(opened.returncode != 0, "who may only read the log can open its lock")
    check(stn.run("report", "a.log", "1", **as_user(reader, reader))[0] == 0, "who may only read the log can't")
    no_litter()
    return None


def small_device(stn):
    """Where the device takes no more, the old log stays."""
    stn.answers("made\n", "bare", "a.log", "1", "1")
    stn.add("a.log")
    before = contents("a.log")

    def limited():
        signal.signal(signal.SIGXFSZ, signal.SIG_IGN)
        resource.setrlimit(resource.RLIMIT_FSIZE, (8, 8))

    stn.fails("fault write\n", "add", "a.log", "1", "z", "s1", preexec_fn=limited)
    stn.fails("fault write\n", "bare", "b.log", "1", "1", preexec_fn=limited)
    check(contents("a.log") == before and not os.path.exists("b.log"), "a log was changed")
    no_litter()
    check(stn.add("a.log") == "1.2", "the id of a bound that couldn't be saved")


def full_device(stn):
    """The same on a small file system."""
    os.mkdir("small")
    mounted = subprocess.run(["mount", "-t", "tmpfs", "-o", "size=16k", "none", "small"], capture_output=True)
    if mounted.returncode != 0:
        return "a full file system: it can't be mounted"
    try:
        stn.answers("made\n", "bare", "small/a.log", "1", "1")
        try:
            with open("small/filler", "wb", buffering=0) as file:
                while file.write(b"x" * 512):
                    pass
        except OSError:
            pass
        before = contents("small/a.log")
        status, out, err = stn.run("add", "small/a.log", "1", "z", "s1")
        check((status, out, fault_in(err)) == (1, "", "fault write\n"), f"{status} {out!r} {err!r}")
        check(contents("small/a.log") == before, "a log was changed")
        no_litter("small")
        os.remove("small/filler")
        check(stn.add("small/a.log") == "1.1", "add after there is room again")
    finally:
        subprocess.run(["umount", "small"], check=False)
    return None


def full_under_serve(stn):
    """A log that can't be saved under `serve`: the site that sends is not told that its records are in, and the old log stays."""
    os.mkdir("small")
    mounted = subprocess.run(["mount", "-t", "tmpfs", "-o", "size=16k", "none", "small"], capture_output=True)
    if mounted.returncode != 0:
        return "a full file system under serve: it can't be mounted"
    address = f"127.0.0.1:{free_port()}"
    server = None
    try:
        stn.answers("made\n", "bare", "small/a.log", "1", "1")
        stn.answers("made\n", "bare", "b.log", "2", "1")
        stn.add("b.log", 0, "2")
        server = stn.start("serve", "small/a.log", "1", address, "1")
        check(server.stdout.readline() == b"listening\n", "serve")
        try:
            with open("small/filler", "wb", buffering=0) as file:
                while file.write(b"x" * 512):
                    pass
        except OSError:
            pass
        before = contents("small/a.log")
        sent = stn.run("send", "b.log", "2", address)
        check(sent[0] == 1, f"send was told that its records are in: {sent}")
        out, err = server.communicate(timeout=SECONDS)
        check((server.returncode, out) == (1, b"") and fault_in(err.decode()) == "fault write\n", f"serve: {server.returncode} {out} {err}")
        check(contents("small/a.log") == before, "a log was changed")
        check(stn.records("b.log", "2") == 1, "what the sender had is lost")
        no_litter("small")
    finally:
        if server is not None:
            server.kill()
            server.communicate()
        subprocess.run(["umount", "small"], check=False)
    return None


def unprinted(stn):
    """An answer that can't be printed comes after the save."""
    stn.answers("made\n", "bare", "a.log", "1", "1")
    with open("/dev/full", "wb") as full:
        stn.fails("fault write\n", "add", "a.log", "1", "z", "s1", stdout=full)
    check(stn.records("a.log") == 1, "the bound is in the log")


def closed_folder(stn):
    """A folder that can't be written."""
    options = as_user(NOBODY, NOBODY) if os.geteuid() == 0 else {}
    if not reachable(stn, **options):
        return "a folder that can't be written: another user can't run the program"
    os.mkdir("closed")
    stn.answers("made\n", "bare", "closed/a.log", "1", "1")
    before = contents("closed/a.log")
    os.chmod("closed", 0o555)
    try:
        stn.fails("fault file\n", "add", "closed/a.log", "1", "z", "s1", **options)
        stn.fails("fault file\n", "bare", "closed/b.log", "1", "1", **options)
        check(stn.run("report", "closed/a.log", "1", **options)[0] == 0, "report in a closed folder")
        stn.fails("fault file\n", "serve", "closed/a.log", "1", "127.0.0.1:0", "1", **options)
    finally:
        os.chmod("closed", 0o755)
    check(contents("closed/a.log") == before, "a log was changed")
    check(sorted(os.listdir("closed")) == ["a.log", "a.log.lock"], os.listdir("closed"))
    return None


def free_port():
    with socket.socket() as probe:
        probe.bind(("127.0.0.1", 0))
        return probe.getsockname()[1]


def serving(stn):
    """What is added while a site serves is there afterwards, and is handed on in the next session."""
    stn.answers("made\n", "bare", "a.log", "1", "1")
    stn.answers("made\n", "bare", "b.log", "2", "1")
    stn.add("b.log", 0, "2")
    address = f"127.0.0.1:{free_port()}"
    server = stn.start("serve", "a.log", "1", address, "2")
    try:
        check(server.stdout.readline() == b"listening\n", "serve")
        stn.add("a.log", 1)
        check(stn.run("send", "b.log", "2", address)[0] == 0, "send")
        check(stn.records("b.log", "2") == 2, "what was added before the session wasn't handed on")
        stn.add("a.log", 2)
        check(stn.run("send", "b.log", "2", address)[0] == 0, "send")
        check(stn.records("b.log", "2") == 3, "what was added between two sessions wasn't handed on")
        check(server.wait(timeout=SECONDS) == 0, "serve")
    finally:
        server.kill()
        server.communicate()
    check(stn.records("a.log") == 3, "what was added while the site served is lost")
    no_litter()


def told_and_killed(stn):
    """What a site was told to be in is in the log, though the one that serves is killed at once."""
    stn.answers("made\n", "bare", "a.log", "1", "1")
    stn.answers("made\n", "bare", "b.log", "2", "1")
    for turn in range(TOLD):
        stn.add("b.log", turn, "2")
        address = f"127.0.0.1:{free_port()}"
        server = stn.start("serve", "a.log", "1", address, "1")
        try:
            check(server.stdout.readline() == b"listening\n", "serve")
            check(stn.run("send", "b.log", "2", address)[0] == 0, "send")
        finally:
            server.kill()
            server.communicate()
        check(stn.records("a.log") == turn + 1, "a record that a site was told to be in is lost")


def told_within_a_session(stn):
    """The same where the session goes on, and the one that serves is killed after its reply to the records."""
    stn.answers("made\n", "bare", "a.log", "1", "1")
    port = free_port()
    server = stn.start("serve", "a.log", "1", f"127.0.0.1:{port}", "1")
    try:
        check(server.stdout.readline() == b"listening\n", "serve")
        with socket.create_connection(("127.0.0.1", port), timeout=SECONDS) as peer:
            peer.sendall(bytes.fromhex("0000000407000001"))
            check(received(peer) == b"\x06", "HELLO")
            peer.sendall(bytes.fromhex("0000001e0800010003000100000000010000000757b137b80000000757b137b80000"))
            check(received(peer)[:1] == b"\x08", "RECORDS")
            server.kill()
            server.communicate()
    finally:
        server.kill()
        server.communicate()
    check(stn.records("a.log") == 1, "a record that a site was told to be in is lost")


def stopped_and_continued(process):
    """A signal comes while the process waits for its connection."""
    time.sleep(0.3)
    os.kill(process.pid, signal.SIGSTOP)
    time.sleep(0.3)
    os.kill(process.pid, signal.SIGCONT)
    time.sleep(0.3)


def received(peer):
    """The body of the next frame."""
    with peer.makefile("rb") as frames:
        return frames.read(int.from_bytes(frames.read(4), "big"))


def interrupted(stn):
    """A session and an exchange that a signal interrupts go on."""
    stn.answers("made\n", "bare", "a.log", "1", "1")
    stn.answers("made\n", "bare", "b.log", "2", "1")
    stn.add("b.log", 0, "2")
    port = free_port()
    server = stn.start("serve", "a.log", "1", f"127.0.0.1:{port}", "2", "--seconds=20")
    try:
        check(server.stdout.readline() == b"listening\n", "serve")
        with socket.create_connection(("127.0.0.1", port), timeout=SECONDS) as peer:
            stopped_and_continued(server)
            peer.sendall(bytes.fromhex("0000000407000001"))
            check(received(peer) == b"\x06", "HELLO after a signal")
            stopped_and_continued(server)
            peer.sendall(bytes.fromhex("0000000103"))
            check(received(peer)[:1] == b"\x04", "ASK after a signal")
        check(server.stdout.readline() == b"session 2 closed\n", "the session")
        check(stn.run("send", "b.log", "2", f"127.0.0.1:{port}")[0] == 0, "send")
        check(server.wait(timeout=SECONDS) == 0, "serve")
    finally:
        server.kill()
        server.communicate()
    check(stn.records("a.log") == 1, "the records of the second session")
    with socket.create_server(("127.0.0.1", 0)) as listener:
        sending = stn.start("send", "b.log", "2", f"127.0.0.1:{listener.getsockname()[1]}", "--seconds=20")
        try:
            peer = listener.accept()[0]
            with peer:
                stopped_and_continued(sending)
                peer.sendall(bytes.fromhex("000000020528"))
            check(sending.communicate(timeout=SECONDS)[0] == b"refused 40\n", "send after a signal")
        finally:
            sending.kill()
            sending.communicate()
    no_litter()


def second_address(stn):
    """Where the first address of a name refuses, or doesn't answer, the second is tried within the limit."""
    if os.geteuid() != 0:
        return "two addresses of a name: only root may give names to addresses"
    with open("hosts", "w", encoding="ascii") as hosts:
        hosts.write("127.0.0.2 twice.test\n127.0.0.1 twice.test\n")
    named = ["unshare", "--mount", "sh", "-c", 'mount --bind hosts /etc/hosts && exec "$@"', "sh"]
    found = subprocess.run([*named, "getent", "ahostsv4", "twice.test"], capture_output=True, check=False).stdout.decode()
    addresses = [line.split()[0] for line in found.splitlines() if "STREAM" in line]
    if len(addresses) != 2:
        return "two addresses of a name: a name can't be given to two here"
    first, second = addresses
    stn.answers("made\n", "bare", "a.log", "1", "1")
    stn.answers("made\n", "bare", "b.log", "2", "1")
    stn.add("b.log", 0, "2")
    port = free_port()
    server = stn.start("serve", "a.log", "1", f"{second}:{port}", "2")
    try:
        check(server.stdout.readline() == b"listening\n", "serve")

        def sends():
            began = time.monotonic()
            sent = subprocess.run([*named, stn.path, "send", "b.log", "2", f"twice.test:{port}", "--seconds=8"], capture_output=True, timeout=SECONDS, check=False)
            check(sent.returncode == 0, f"send: {sent.returncode} {sent.stdout} {sent.stderr}")
            check(time.monotonic() - began < 8, "the limit")

        sends()
        with socket.socket() as deaf:
            deaf.bind((first, port))
            deaf.listen(0)
            callers = [socket.socket() for _ in range(4)]
            try:
                for caller in callers:
                    caller.setblocking(False)
                    caller.connect_ex((first, port))
                time.sleep(0.2)
                sends()
            finally:
                for caller in callers:
                    caller.close()
        check(server.wait(timeout=SECONDS) == 0, "serve")
    finally:
        server.kill()
        server.communicate()
    check(stn.records("a.log") == 1, "the records that were sent")
    return None


def edges(stn):
    """Words that are no text, and the first cause of a refusal."""
    status, out, err = stn.run(b"report", b"\xff\xfe.log", b"1")
    check((status, out) == (2, "") and err.startswith("error: ") and err.count("\n") == 1, f"{status} {out!r} {err!r}")
    with open("file", "wb"):
        pass
    stn.refuses("refused 34\n", "bare", "file/x", "1", "257")
    stn.fails("fault file\n", "bare", "file/x", "1", "1")
    check(os.listdir(".") == ["file"], os.listdir("."))


TRIED = [
    adders_and_merger,
    one_new_log,
    waits,
    all_wait,
    holder_stopped,
    stopped_at_any_moment,
    planted,
    planted_lock,
    missing,
    modes,
    owners,
    links,
    link_changes,
    log_changes,
    removed_lock,
    next_lock,
    hard_links,
    read_only,
    blind_folder,
    two_writers,
    small_device,
    full_device,
    full_under_serve,
    told_and_killed,
    told_within_a_session,
    unprinted,
    closed_folder,
    serving,
    interrupted,
    second_address,
    edges,
]


def main():
    if len(sys.argv) < 2 or not set(sys.argv[2:]) <= {trial.__name__ for trial in TRIED}:
        sys.exit(__doc__)
    stn = Program(sys.argv[1])
    chosen = sys.argv[2:]
    top = os.path.realpath(tempfile.mkdtemp(prefix="shared_logs."))
    os.chmod(top, 0o755)
    failed = False
    for trial in TRIED:
        if chosen and trial.__name__ not in chosen:
            continue
        folder = os.path.join(top, trial.__name__)
        os.mkdir(folder)
        os.chdir(folder)
        try:
            untried = trial(stn)
            if untried:
                print(f"not tried: {untried}")
        except (Wrong, subprocess.TimeoutExpired) as wrong:
            failed = True
            print(f"failed: {trial.__name__}: {wrong}")
    os.chdir("/")
    shutil.rmtree(top)
    print("something failed" if failed else "passed")
    sys.exit(1 if failed else 0)


if __name__ == "__main__":
    main()
