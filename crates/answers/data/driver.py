#!/usr/bin/env python3
"""Runs a plan against a clock: a planner's plan, loosened, with steps that end earlier or later than planned.

usage: driver.py PROGRAM DOMAIN PLAN [--early=T] [--late=T] [--robust] [--seeds=N] [--first=SEED] [--quiet]

PROGRAM is the program `stn`, DOMAIN and PLAN are a planner's files. T is a time in seconds, 0 if it is not given.
One run goes like this:

- `loosen` makes a log of the plan, in which each step may end up to `--early` earlier and up to `--late` later. With
  `--robust`, the log also bounds the starts, so that the plan completes however long the steps take.
- The driver reads the clock and asks, by `ready` in a shell on the log, which events may come next: one question for each
  decision. It waits until the first of them that it can start may start, and starts that step; or it waits until the
  machine says that a step has ended. In a robust plan it asks `ready --starts`: a start may then take place at any time
  of its window, whatever steps still run, as long as none of them takes longer than its tolerance.
- Each event that takes place is recorded with `done`, at the time that the clock showed. No end is ever commanded.

The run ends with `all done`, or with `overdue` and the event that can't take place any more, or with `conflict`. The
machine and its clock are simulated: no one waits. With `--seeds=N` there are N runs, from SEED on (1 if it is not
given), and a line at the end counts those that came to `all done`.

To drive a real machine, write a class with the three methods of SimulatedMachine; real_time.py has a small one.
"""
import argparse
import random
import shutil
import subprocess
import sys
import tempfile
from pathlib import Path

from stn import Failed, Refused, Shell, millis_of, time_text

SITE = "1"
HORIZON = 31_536_000_000


def make_log(program, command, path, *words):
    """Makes a log with `init` or `loosen`. If that fails, the driver ends."""
    done = subprocess.run([program, command, str(path), SITE, *words], capture_output=True, text=True, check=False)
    if done.returncode != 0:
        sys.exit(f"{command} {' '.join(words)}: {(done.stdout + done.stderr).strip()}")


class SimulatedMachine:
    """A machine that does the steps of a plan, and its clock. Each step ends at a random time within the tolerance."""

    def __init__(self, durations, early, late, seed):
        self.durations = durations
        self.early = early
        self.late = late
        self.chance = random.Random(seed)
        self.ends = {}
        self.time = 0

    def now(self):
        """What the clock shows: milliseconds since the origin."""
        return self.time

    def start_step(self, step):
        """Starts a step. Only the machine knows when it will end."""
        duration = self.durations[step] + self.chance.randint(-self.early, self.late)
        self.ends[step] = self.time + max(duration, 0)

    def wait_until(self, time):
        """Waits until the clock shows a time. If a step ends before that, it waits no longer, and returns when the step
        ended, and the step."""
        end, step = min(((end, step) for step, end in self.ends.items()), default=(None, None))
        if step is None or end > time:
            self.time = max(self.time, time)
            return None
        del self.ends[step]
        self.time = max(self.time, end)
        return end, step


def planned_durations(program, domain, plan, folder):
    """The duration of each step, in milliseconds, as `steps` prints it of the exact plan."""
    path = folder / "exact.log"
    make_log(program, "init", path, domain, plan)
    with Shell(program, path, SITE) as log:
        return {words[0]: millis_of(words[-1]) for words in (line.split() for line in log.ask("steps"))}


def longest_durations(log):
    """The longest duration of each step, in milliseconds, by the bounds of a log; steps that may take any time have none."""
    longest = {}
    for _, first, second, _, most in (line.split() for line in log.ask("bounds")):
        step = first[1:]
        if (first, second) == ("s" + step, "e" + step) and most != "*":
            longest[step] = min(millis_of(most), longest.get(step, HORIZON))
    return longest


def told_by_names(program, path, plan):
    """Prints the line of an event that took place, with the action and the arguments of its step, as the plan names them."""
    words = [program, "steps", str(path), SITE, "--plan=" + plan]
    steps = subprocess.run(words, capture_output=True, text=True, check=True).stdout
    names = dict(line.split(" ", 1) for line in steps.splitlines())
    return lambda line: print(line, names[line.split()[1][1:]])


def run(log, machine, tell, robust=False):
    """Runs the plan of a log, which a shell is asked of, on a machine. Returns how the run ended: `all done`, or `overdue`
    with an event, or `conflict`, and when that was found."""
    options = ["--starts"] if robust else []
    longest = longest_durations(log) if robust else {}
    # By when each step that runs has to end, where `ready` says nothing of ends.
    due = {}

    def record(event, time):
        log.ask("done", event, time_text(time))
        tell(f"{time_text(time)} {event}")

    while True:
        now = machine.now()
        late = [step for step, time in due.items() if time < now]
        if late:
            return f"overdue e{late[0]} at {time_text(now)}"
        answer = log.ask("ready", time_text(now), *options)
        if answer[0] == "all done" and not due:
            return answer[0]
        if answer[0] == "conflict" or answer[0].startswith("overdue"):
            return f"{answer[0]} at {time_text(now)}"
        # Lines are in order of the first time, and each has the same last time.
        ready = [(line.split()[0], *map(millis_of, line.split()[1:])) for line in answer if line != "all done"]
        start, first, _ = next((line for line in ready if line[0][0] == "s"), (None, HORIZON, None))
        last = min([time for _, _, time in ready[:1]] + list(due.values()))
        ended = machine.wait_until(min(first, last + 1))
        if ended:
            time, step = ended
            due.pop(step, None)
            record("e" + step, time)
        elif start and machine.now() <= last:
            now, step = machine.now(), start[1:]
            machine.start_step(step)
            record(start, now)
            if robust:
                due[step] = now + longest.get(step, HORIZON)


def main():
    parser = argparse.ArgumentParser(description="Runs a plan against a clock.")
    parser.add_argument("program")
    parser.add_argument("domain")
    parser.add_argument("plan")
    parser.add_argument("--early", type=float, default=0)
    parser.add_argument("--late", type=float, default=0)
    parser.add_argument("--robust", action="store_true", help="bound the starts so that every run completes")
    parser.add_argument("--seeds", type=int, default=1)
    parser.add_argument("--first", type=int, default=1)
    parser.add_argument("--quiet", action="store_true", help="print how each run ends, and not its events")
    words = parser.parse_args()
    early, late = round(words.early * 1000), round(words.late * 1000)
    complete = 0
    with tempfile.TemporaryDirectory() as name:
        folder = Path(name)
        durations = planned_durations(words.program, words.domain, words.plan, folder)
        loose, path = folder / "loose.log", folder / "run.log"
        robust = ["--robust"] if words.robust else []
        tolerance = ["--early=" + time_text(early), "--late=" + time_text(late)]
        make_log(words.program, "loosen", loose, words.domain, words.plan, *tolerance, *robust)
        for seed in range(words.first, words.first + words.seeds):
            shutil.copyfile(loose, path)
            with Shell(words.program, path, SITE) as log:
                tell = (lambda line: None) if words.quiet else told_by_names(words.program, path, words.plan)
                end = run(log, SimulatedMachine(durations, early, late, seed), tell, words.robust)
            complete += end == "all done"
            print(f"seed {seed}: {end}")
    print(f"{complete} of {words.seeds} runs came to `all done`")


if __name__ == "__main__":
    try:
        main()
    except (Refused, Failed) as error:
        sys.exit(str(error))
