#!/usr/bin/env python3
"""Makes inputs of a known size and runs the built program on them: wall time, and instructions where valgrind is there.

usage: bench.py [NAME ..]    with no name: every benchmark
"""
import os
import random
import re
import shutil
import socket
import struct
import subprocess
import sys
import tempfile
import threading
import time
from pathlib import Path

TOP = Path(__file__).resolve().parent.parent
PROGRAM = TOP / "out" / "stn"
HORIZON = 31_536_000_000
# Over how many milliseconds the events of a hidden schedule are spread: the same at every horizon, so that figures compare.
SPREAD = 1_000_000_000
COUNTED = ["valgrind", "--tool=callgrind", f"--callgrind-out-file={os.devnull}"]


def text(millis):
    return f"{'-' if millis < 0 else ''}{abs(millis) // 1000}.{abs(millis) % 1000:03}"


def event(number):
    return "z" if number == 0 else f"{'s' if number % 2 else 'e'}{(number + 1) // 2}"


def bounds(rng, events, count):
    """Random bounds that a hidden schedule meets."""
    schedule = [0] + [rng.randrange(SPREAD) for _ in range(events)]
    for _ in range(count):
        first, second = rng.sample(range(events + 1), 2)
        gap = schedule[second] - schedule[first]
        low = max(-SPREAD, gap - rng.randrange(1_000_000))
        high = min(SPREAD, gap + rng.randrange(1_000_000))
        yield f"{event(first)} {event(second)} {text(low)} {text(high)}"


def windows():
    """512 events, 2,000 bounds that have a schedule, one report."""
    rng = random.Random(1)
    lines = ["steps 256", "sites 1"]
    lines += [f"1 add {bound}" for bound in bounds(rng, 512, 2000)]
    return lines + ["1 report"]


def merged(command):
    """64 sites over 128 events, 4,096 records, 1,024 random merges, two rounds of a ring, and two reports."""
    rng = random.Random(2)
    lines = ["steps 64", "sites 64"]
    for number, bound in enumerate(bounds(rng, 128, 4096)):
        site, counter = number % 64 + 1, number // 64 + 1
        lines.append(f"{site} {command(site, counter)} {bound}")
    lines += ["{} merge {}".format(*rng.sample(range(1, 65), 2)) for _ in range(1024)]
    lines += [f"{site % 64 + 1} merge {site}" for _ in range(2) for site in range(1, 65)]
    return lines + ["1 report", "64 report"]


def merges():
    """All records are added."""
    return merged(lambda site, counter: "add")


def amended():
    """Every fourth record of a site replaces the one before it."""
    return merged(lambda site, counter: "add" if counter % 4 else f"amend {site}.{counter - 1}")


def conflict():
    """512 events, 4,095 bounds that have a schedule and one that contradicts them, one report."""
    rng = random.Random(3)
    lines = ["steps 256", "sites 1"]
    lines += [f"1 add {bound}" for bound in bounds(rng, 512, 4095)]
    return lines + ["1 add s1 e256 * -1000000.000", "1 report"]


def repairs():
    """As `conflict`, but what mends it in place of the report."""
    return conflict()[:-1] + ["1 repairs"]


def rehearse():
    """512 events, 2,000 bounds that have a schedule, and the rehearsal of all."""
    rng = random.Random(4)
    lines = ["steps 256", "sites 1"]
    lines += [f"1 add {bound}" for bound in bounds(rng, 512, 2000)]
    return lines + ["1 rehearse 0.000"]


def packets():
    """64 sites over 128 events, 1,024 records, 256 packets of all that a site holds, 4,096 random deliveries, and two reports."""
    rng = random.Random(5)
    lines = ["steps 64", "sites 64"]
    lines += [f"{number % 64 + 1} add {bound}" for number, bound in enumerate(bounds(rng, 128, 1024))]
    for sent in range(256):
        lines.append(f"{rng.randrange(64) + 1} send")
        lines += [f"{rng.randrange(64) + 1} deliver {rng.randrange(sent + 1) + 1}" for _ in range(16)]
    return lines + ["1 report", "64 report"]


def dense():
    """A plan of 256 steps that all interfere, so with 131,328 bounds of its own, 64 sites, one report."""
    domain = ["domain", "(define (domain one-at-a-time)", " (:durative-action go", "  :parameters ()", "  :duration (= ?duration 0.500)",
              "  :condition (over all (free))", "  :effect (and (at start (free)) (at end (not (free))))))", "end"]
    plan = ["plan"] + [f"{step}: (go)" for step in range(256)] + ["end"]
    return domain + plan + ["sites 64", "64 report"]


SCRIPTS = {made.__name__: made for made in (windows, merges, amended, conflict, repairs, dense, rehearse, packets)}


def processor():
    for line in Path("/proc/cpuinfo").read_text().split("\n"):
        if line.startswith("model name"):
            return line.split(":", 1)[1].strip()
    return "unknown"


def timed(words, folder, given, begin=lambda: None):
    """The best wall time of three runs, each after `begin`, and the last run."""
    best = None
    for _ in range(3):
        begin()
        with given.open("rb") as text:
            begun = time.monotonic()
            done = subprocess.run([str(PROGRAM), *words], cwd=folder, stdin=text, stdout=subprocess.PIPE, check=False)
            spent = time.monotonic() - begun
        best = spent if best is None else min(best, spent)
    return best, done


def found_in(report):
    found = re.search(r"Collected : (\d+)", report)
    return int(found.group(1)) if found else None


def instructions(words, folder, given):
    """How many instructions a program takes; none without valgrind."""
    if not shutil.which("valgrind"):
        return None
    with given.open("rb") as text:
        counted = subprocess.run([*COUNTED, *words], cwd=folder, stdin=text,
                                 stdout=subprocess.DEVNULL, stderr=subprocess.PIPE, text=True, check=False)
    return found_in(counted.stderr)


def run_script(name, folder):
    made = SCRIPTS[name]()
    script = folder / f"{name}.stn"
    script.write_text("\n".join(made) + "\n")
    best, done = timed(["run"], folder, script)
    row = f"{name}: {len(made)} lines, {len(done.stdout)} bytes printed, status {done.returncode}, {best:.3f} s"
    count = instructions([str(PROGRAM), "run"], folder, script)
    print(row if count is None else f"{row}, {count / 1e6:.0f} million instructions", flush=True)


def by_hand(folder):
    """The script of `windows`, and the same work by hand in C++, where g++ is there: both print the same bytes."""
    if not shutil.which("g++"):
        print("by_hand: not tried, as there is no g++", flush=True)
        return
    program, script = folder / "by_hand", folder / "by_hand.stn"
    script.write_text("\n".join(windows()) + "\n")
    subprocess.run(["g++", "-O2", "-std=c++20", "-o", str(program), str(TOP / "bench" / "windows.cpp")], check=True)
    printed, counts = [], []
    for words in ([str(PROGRAM), "run"], [str(program)]):
        with script.open("rb") as text:
            printed.append(subprocess.run(words, stdin=text, stdout=subprocess.PIPE, check=True).stdout)
        counts.append(instructions(words, folder, script))
    row = f"by_hand: {'the same bytes' if printed[0] == printed[1] else 'OTHER BYTES'}"
    if None not in counts:
        row += f", {counts[0] / 1e6:.1f} million instructions, {counts[1] / 1e6:.1f} by hand, {counts[0] / counts[1]:.1f} times"
    print(row, flush=True)


def memory(folder):
    """The most memory that a script of 64 sites over 256 steps takes, with 1,000 records that all sites come to hold."""
    rng = random.Random(7)
    lines = ["steps 256", "sites 64"]
    lines += [f"{number % 64 + 1} add {bound}" for number, bound in enumerate(bounds(rng, 512, 1000))]
    lines += [f"{site % 64 + 1} merge {site}" for _ in range(2) for site in range(1, 65)]
    script = folder / "memory.stn"
    script.write_text("\n".join(lines + ["1 report", "64 report"]) + "\n")
    with script.open("rb") as text:
        started = subprocess.Popen([str(PROGRAM), "run"], stdin=text, stdout=subprocess.DEVNULL)
        _, status, used = os.wait4(started.pid, 0)
    print(f"memory: status {os.waitstatus_to_exitcode(status)}, {used.ru_maxrss / 1024:.1f} MB at most", flush=True)


def frame(body):
    return struct.pack(">I", len(body)) + body


def log_of(records):
    """A log of a bare plan of 256 steps and so many records that bound nothing."""
    listed = b"".join(struct.pack(">HHBHHQQ", 1, number + 1, 0, 0, 1, 0, 2 * HORIZON) for number in range(records))
    return frame(struct.pack(">BBH", 7, 0, 256)) + frame(struct.pack(">BH", 8, records) + listed + struct.pack(">H", 0))


def frames(folder):
    """4,096 records: two logs of them are decoded, and one is encoded, by a merge of a log with itself."""
    nothing = folder / "nothing"
    nothing.write_bytes(b"")
    counts = []
    for records in (0, 4096):
        (folder / "frames.log").write_bytes(log_of(records))
        words = ["merge", "frames.log", "1", "frames.log"]
        best, _ = timed(words, folder, nothing)
        counts.append(instructions([str(PROGRAM), *words], folder, nothing))
    size = len(log_of(4096))
    row = f"frames: 2 logs of {size} bytes decoded and 1 encoded, {best:.3f} s"
    if None not in counts:
        row += f", {(counts[1] - counts[0]) / (3 * size):.0f} instructions a byte"
    print(row, flush=True)


def bounded_log(records):
    """A log of a bare plan of 256 steps and so many random records of site 1 that have a schedule."""
    rng = random.Random(6)
    schedule = [0] + [rng.randrange(SPREAD) for _ in range(512)]
    listed = []
    for number in range(records):
        first, second = rng.sample(range(513), 2)
        gap = schedule[second] - schedule[first]
        low = max(-SPREAD, gap - rng.randrange(1_000_000))
        high = min(SPREAD, gap + rng.randrange(1_000_000))
        listed.append(struct.pack(">HHBHHQQ", 1, number + 1, 0, first, second, low + HORIZON, high + HORIZON))
    times = " ".join(text(time) for time in schedule[1:])
    return frame(struct.pack(">BBH", 7, 0, 256)) + frame(struct.pack(">BH", 8, records) + b"".join(listed) + struct.pack(">H", 0)), times


def run_command(name, words, folder, begin):
    """A command on a log, which `begin` makes as it was before each run."""
    nothing = folder / "nothing"
    nothing.write_bytes(b"")
    best, done = timed(words, folder, nothing, begin)
    begin()
    count = instructions([str(PROGRAM), *words], folder, nothing)
    row = f"{name}: {len(done.stdout)} bytes printed, status {done.returncode}, {best:.3f} s"
    print(row if count is None else f"{row}, {count / 1e6:.1f} million instructions", flush=True)


def commands(folder):
    """Single commands on a log of 4,000 records over 256 steps."""
    made, times = bounded_log(4000)
    log = folder / "commands.log"
    for words in ("add s1 e256 --lo=-1000000", "done s1 500", "withdraw 1.2000", "records", f"check {times}", "report", "why e128",
                  "draw", "next 0", "ready 0", "rehearse 0"):
        command, *rest = words.split()
        run_command(command, [command, log.name, "1", *rest], folder, lambda: log.write_bytes(made))
    run_command("draw --now", ["draw", log.name, "1", "--now=0"], folder, lambda: log.write_bytes(made))
    subprocess.run([str(PROGRAM), "add", log.name, "1", "s1", "e1", "--lo=1000000"], cwd=folder, stdout=subprocess.DEVNULL, check=True)
    contrary = log.read_bytes()
    for command in ("repairs", "draw"):
        run_command(f"in a conflict: {command}", [command, log.name, "1"], folder, lambda: log.write_bytes(contrary))


def crowded(folder):
    """Single commands on a log of a plan of 256 steps that all interfere, every other of which is another site's for its guard."""
    domain, _, plan = "\n".join(dense()[1:-2]).partition("\nend\nplan\n")
    log = folder / "crowded.log"
    (folder / "domain.pddl").write_text(domain + "\n")
    (folder / "plan.txt").write_text(plan.removesuffix("\nend") + "\n")
    subprocess.run([str(PROGRAM), "init", log.name, "1", "domain.pddl", "plan.txt"], cwd=folder, stdout=subprocess.DEVNULL, check=True)
    made = log.read_bytes()
    other = ",".join(str(step) for step in range(2, 257, 2))
    for words in ("report", "why e128", "draw", "next 0", "ready 0", f"guard --own=2:{other}"):
        command, *rest = words.split()
        run_command(f"crowded {command}", [command, log.name, "1", *rest], folder, lambda: log.write_bytes(made))
    loose = folder / "loose.log"
    for robust in ([], ["--robust"]):
        words = ["loosen", loose.name, "1", "domain.pddl", "plan.txt", "--early=0.1", "--late=0.4", *robust]
        run_command(" ".join(["crowded loosen", *robust]), words, folder, lambda: loose.unlink(missing_ok=True))


def shell_lines(name, log, folder, lines):
    """The best wall time of a line of a shell on a log, of three runs, and its instructions."""
    made = log.read_bytes()
    asked = folder / "asked"
    asked.write_text("\n".join(lines) + "\n")
    best, done = timed(["shell", log.name, "1"], folder, asked, lambda: log.write_bytes(made))
    log.write_bytes(made)
    count = instructions([str(PROGRAM), "shell", log.name, "1"], folder, asked) if len(lines) <= 100 else None
    log.write_bytes(made)
    row = f"{name}: {len(lines)} lines, status {done.returncode}, {best / len(lines) * 1000:.3f} ms a line"
    print(row if count is None else f"{row}, {count / len(lines) / 1e6:.2f} million instructions a line", flush=True)


def shell_turns(name, log, folder, lines):
    """How long a shell takes over each change, each first question after it, and each that is asked again, from the line to the end of
    its answer."""
    made = log.read_bytes()
    spent = {"changes": [], "first questions": [], "asked again": []}
    before = None
    words = [str(PROGRAM), "shell", log.name, "1"]
    with subprocess.Popen(words, cwd=folder, stdin=subprocess.PIPE, stdout=subprocess.PIPE) as talk:
        for line in lines:
            begun = time.monotonic()
            talk.stdin.write(f"{line}\n".encode())
            talk.stdin.flush()
            while talk.stdout.readline().strip():
                pass
            what = "asked again" if line == before else "first questions" if line.startswith("next") else "changes"
            spent[what].append(time.monotonic() - begun)
            before = line
        talk.stdin.close()
    log.write_bytes(made)
    for what, times in spent.items():
        times = [1000 * one for one in sorted(times)]
        print(f"{name}: {len(times)} {what}, half within {times[len(times) // 2]:.3f} ms, "
              f"nine in ten within {times[len(times) * 9 // 10]:.3f} ms, the longest {times[-1]:.1f} ms", flush=True)


def shell(folder):
    """A shell that is asked `next`, also between lines that record and withdraw, and single commands that ask and record."""
    log = folder / "shell.log"
    for steps, records in ((12, 0), (256, 4000)):
        subprocess.run([str(PROGRAM), "bare", log.name, "1", str(steps)], cwd=folder, stdout=subprocess.DEVNULL, check=True)
        if records:
            log.write_bytes(bounded_log(records)[0])
        name = f"shell of {steps} steps, {records} records"
        changes = min(2500, 4095 - records)
        changed = [line for number in range(records + 1, records + changes + 1)
                   for line in (f"done s1 {SPREAD // 2000}", "next 0", f"withdraw 1.{number}", "next 0")]
        for many in (100, 10_000):
            shell_lines(f"{name}, next", log, folder, ["next 0"] * many)
            shell_lines(f"{name}, done, withdraw and next", log, folder, changed[:many])
        turns = [line for line in changed for _ in range(2 if line.startswith("next") else 1)]
        shell_turns(name, log, folder, turns)
        # Where no write is forced to a disk.
        with tempfile.TemporaryDirectory(dir="/dev/shm") as other:
            unforced = Path(other) / log.name
            unforced.write_bytes(log.read_bytes())
            shell_turns(f"{name}, unforced", unforced, Path(other), turns)
        made = log.read_bytes()
        for words in ("next 0", f"done s1 {SPREAD // 2000}"):
            command, *rest = words.split()
            run_command(f"{name}, single {command}", [command, log.name, "1", *rest], folder, lambda: log.write_bytes(made))
        log.unlink()


def send_pieces(port, data, piece):
    """Sends the bytes in pieces, and reads all that comes back."""
    with socket.create_connection(("127.0.0.1", port)) as link:
        link.setsockopt(socket.IPPROTO_TCP, socket.TCP_NODELAY, 1)
        reader = threading.Thread(target=lambda: [None for _ in iter(lambda: link.recv(65536), b"")])
        reader.start()
        for place in range(0, len(data), piece):
            link.sendall(data[place:place + piece])
        link.shutdown(socket.SHUT_WR)
        reader.join()


def feed(folder):
    """Sessions of HELLO frames, in pieces of one byte (1 MiB of them), of 1,460 bytes and whole (16 MiB)."""
    hello = frame(struct.pack(">BBH", 7, 0, 1))
    for piece, size in ((1, 1 << 20), (1460, 1 << 24), (1 << 24, 1 << 24)):
        subprocess.run([str(PROGRAM), "bare", f"feed{piece}.log", "1", "1"], cwd=folder, stdout=subprocess.DEVNULL, check=False)
        with socket.socket() as probe:
            probe.bind(("127.0.0.1", 0))
            port = probe.getsockname()[1]
        served = subprocess.Popen([str(PROGRAM), "serve", f"feed{piece}.log", "1", f"127.0.0.1:{port}", "1"],
                                  cwd=folder, stdout=subprocess.PIPE, text=True)
        served.stdout.readline()
        begun = time.monotonic()
        send_pieces(port, hello * (size // len(hello)), piece)
        said = served.stdout.readline().strip()
        print(f"feed: {size} bytes in pieces of {min(piece, size)}: {said}, {time.monotonic() - begun:.3f} s", flush=True)
        served.wait()


OTHERS = {made.__name__: made for made in (by_hand, memory, frames, commands, crowded, shell, feed)}


def main():
    if not set(sys.argv[1:]) <= {*SCRIPTS, *OTHERS}:
        sys.exit(__doc__)
    subprocess.run([str(TOP / "stn"), "build"], stdout=subprocess.DEVNULL, check=True)
    print(f"{os.cpu_count()} processors, {processor()}")
    with tempfile.TemporaryDirectory() as name:
        folder = Path(name)
        for wanted in sys.argv[1:] or [*SCRIPTS, *OTHERS]:
            if wanted in SCRIPTS:
                run_script(wanted, folder)
            else:
                OTHERS[wanted](folder)


if __name__ == "__main__":
    main()
