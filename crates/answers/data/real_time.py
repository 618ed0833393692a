#!/usr/bin/env python3
"""Runs a planner's plan in real time, with driver.py. Each step is a thread of its own, which stands for a machine.

usage: real_time.py PROGRAM DOMAIN PLAN [TOLERANCE]

Each step may end up to TOLERANCE seconds earlier or later than planned, half a second if it is not given. The status is
0 if the run came to `all done`.
"""
import queue
import sys
import tempfile
import threading
import time
from pathlib import Path

import driver


class ThreadMachine:
    """Does each step in a thread: it sleeps as long as the step takes, and then says that the step has ended."""

    def __init__(self, durations):
        self.durations = durations
        self.ended = queue.Queue()
        self.origin = time.monotonic()

    def now(self):
        return int((time.monotonic() - self.origin) * 1000)

    def start_step(self, step):
        threading.Thread(target=self.work, args=(step,), daemon=True).start()

    def work(self, step):
        time.sleep(self.durations[step] / 1000)
        self.ended.put((self.now(), step))

    def wait_until(self, moment):
        try:
            return self.ended.get(timeout=max(moment - self.now(), 0) / 1000)
        except queue.Empty:
            return None


def main():
    if len(sys.argv) not in (4, 5):
        sys.exit(__doc__)
    program, domain, plan, *rest = sys.argv[1:]
    tolerance = float(rest[0]) if rest else 0.5
    with tempfile.TemporaryDirectory() as name:
        folder = Path(name)
        durations = driver.planned_durations(program, domain, plan, folder)
        path = folder / "run.log"
        driver.make_log(program, "loosen", path, domain, plan, f"--early={tolerance:.3f}", f"--late={tolerance:.3f}")
        with driver.Shell(program, path, driver.SITE) as log:
            end = driver.run(log, ThreadMachine(durations), lambda line: print(line, flush=True))
    print(end)
    sys.exit(end != "all done")


if __name__ == "__main__":
    main()
