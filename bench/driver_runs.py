#!/usr/bin/env python3
"""Runs examples/driver.py over four plans with 200 seeds each, loosened and robust, and checks each run: prints how many
runs came to `all done`, and at the end `passed`, or what is wrong, with status 1.

usage: bench/driver_runs.py PROGRAM [PROCESSES]

PROGRAM is the built program, whose path ./stn build prints. So many drivers run side by side, each with a part of the seeds
(as many as there are processors, if it is not given). A run is checked by bench/plans.py, which reads domains and plans by
the formats alone:

- each step takes its planned duration, with the tolerance;
- events that interfere keep the planner's order, as far as they took place;
- a run that doesn't come to `all done` stops at an event that can't take place any more;
- each run of a robust plan comes to `all done`, and there is a robust plan exactly if there is a promise.
"""
import os
import subprocess
import sys
import tempfile
from concurrent.futures import ThreadPoolExecutor
from pathlib import Path

import plans

SEEDS = 200
# How many of them one driver runs.
PART = 25
ROOT = Path(__file__).resolve().parent.parent
EXAMPLES = ROOT / "examples"
PLANS = ("cellar", "doors", "workshop", "satellites")
TOLERANCES = (("0", "0.5"), ("0.5", "0.5"), ("1", "4"))


class Wrong(Exception):
    """A run is not as it is to be."""


def check(holds, what):
    if not holds:
        raise Wrong(what)


def loosened(bounds, steps, early, late):
    """The plan's bounds with durations that give: those of the horizon, of the durations, and the orders."""
    events = 2 * steps
    loose = [
        (start, end, max(low - early, 0), min(high + late, plans.HORIZON))
        for start, end, low, high in bounds[events:events + steps]
    ]
    return bounds[:events] + loose + bounds[events + steps:]


def robust(bounds, steps):
    """The bounds of a loosened plan, and those of its orders and its horizon, moved from ends of steps to their starts."""
    events = 2 * steps
    durations = {end: (start, low, high) for start, end, low, high in bounds[events:events + steps]}
    moved = []
    for first, second, low, high in bounds[:events] + bounds[events + steps:]:
        start, least, most = durations.get(first, (first, 0, 0))
        other, shortest, longest = durations.get(second, (second, 0, 0))
        moved.append((start, other, low - shortest + most, high - longest + least))
    return bounds + moved


def latest_times(bounds, done, events):
    """The latest time of each event, if these took place at these times; None if there is no schedule."""
    bounds = bounds + [(0, event, time, time) for event, time in done.items()]
    links = [link for start, end, low, high in bounds for link in ((start, end, high), (end, start, -low))]
    latest = [0] + [plans.HORIZON] * events
    for _ in range(events + 1):
        before = list(latest)
        for start, end, most in links:
            latest[end] = min(latest[end], latest[start] + most)
        if latest == before:
            return latest if latest[0] == 0 else None
    return None


def check_run(lines, end, bounds, steps):
    """One run: its events in the order of their times, and how it ended."""
    done = {}
    now = 0
    for line in lines:
        time, event, *_ = line.split()
        check(plans.read_time(time) >= now, f"{line}: the clock goes back")
        now = plans.read_time(time)
        check(plans.EVENTS[event] not in done, f"{line}: a second time")
        done[plans.EVENTS[event]] = now
    latest = latest_times(bounds, done, 2 * steps)
    if end == "all done":
        check(len(done) == 2 * steps, "all done, and events are left")
        check(latest is not None, "all done, and a bound is not met")
    elif end.startswith("conflict"):
        check(latest is None, "a conflict, and there is a schedule")
    else:
        _, event, _, time = end.split()
        event = plans.EVENTS[event]
        asked = plans.read_time(time)
        check(latest is not None and event not in done and latest[event] < asked, f"{end}: it may still take place")


def runs_of(program, domain, plan, options, first):
    """The lines of each run of a part of the seeds, and how it ended."""
    words = [sys.executable, ROOT / "examples/driver.py", program, domain, plan, *options, f"--first={first}", f"--seeds={PART}"]
    done = subprocess.run(words, capture_output=True, text=True, check=False)
    check(done.returncode == 0, done.stderr)
    runs, lines = [], []
    for line in done.stdout.splitlines()[:-1]:
        if line.startswith("seed "):
            runs.append((lines, line.partition(": ")[2]))
            lines = []
        else:
            lines.append(line)
    return runs


def complete_runs(pool, words, bounds, steps):
    """How many of all runs of a plan with a tolerance came to `all done`."""
    parts = pool.map(lambda first: runs_of(*words, first), range(1, SEEDS + 1, PART))
    runs = [run for part in parts for run in part]
    check(len(runs) == SEEDS, "a run is missing")
    for lines, end in runs:
        check_run(lines, end, bounds, steps)
    return sum(end == "all done" for _, end in runs)


def refusal(program, domain, plan, options):
    """What `loosen` prints that makes no log."""
    with tempfile.TemporaryDirectory() as folder:
        words = [program, "loosen", Path(folder) / "none.log", "1", domain, plan, *options]
        return subprocess.run(words, capture_output=True, text=True, check=False).stdout.strip()


def try_plan(pool, program, name, early, late):
    """All runs of a plan with a tolerance, loosened and robust."""
    domain, plan = EXAMPLES / f"{name}.pddl", EXAMPLES / f"{name}.plan"
    bounds, planned = plans.lifted(domain.read_bytes(), plan.read_bytes())
    steps = len(planned) // 2
    loose = loosened(bounds, steps, plans.read_time(early), plans.read_time(late))
    options = [f"--early={early}", f"--late={late}"]
    count = complete_runs(pool, (program, domain, plan, options), loose, steps)
    print(f"{name} {' '.join(options)}: {count} of {SEEDS}", flush=True)
    options.append("--robust")
    promised = robust(loose, steps)
    if latest_times(promised, {}, 2 * steps) is None:
        check(refusal(program, domain, plan, options) == "refused 45", "a robust plan, and there is no promise")
        print(f"{name} {' '.join(options)}: refused", flush=True)
        return
    count = complete_runs(pool, (program, domain, plan, options), promised, steps)
    print(f"{name} {' '.join(options)}: {count} of {SEEDS}", flush=True)
    check(count == SEEDS, "a run of a robust plan stopped")


def main():
    program, *rest = sys.argv[1:] or sys.exit(__doc__)
    try:
        with ThreadPoolExecutor(int(rest[0]) if rest else os.cpu_count()) as pool:
            for name in PLANS:
                for tolerance in TOLERANCES:
                    try_plan(pool, program, name, *tolerance)
    except Wrong as wrong:
        sys.exit(str(wrong))
    print("passed")


if __name__ == "__main__":
    main()
