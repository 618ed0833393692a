"""Sites that act out of contact, with a guard and without: bench/simulate.py apart PROGRAM [SEEDS].

Each seed makes a plan of three to six steps, each of which belongs to one of two to four sites, with random durations,
deadlines, and bounds between events of different sites, all of which a hidden schedule meets. From then on each site acts
by itself: at random moments it executes one of its own events, at a time at which that may come next among its own, or it
adds a bound on one of them that a schedule meets; and all the while the links between the sites carry some of what they
hold, late, twice or never. In the end all merge with all.

Every plan is run twice, once with the bounds of its guard and once without. The guard, what may come next, and whether
there is a conflict are worked out here, from what docs/FORMATS.md says. The program has to find a conflict exactly where
there is one, at each site and after each delivery; with a guard there may be none. Its `guard` has to add the bounds that
are worked out here, and its `ready --steps` has to name the events and times.
"""
import random
import subprocess
import sys
import tempfile
from pathlib import Path

HORIZON = 31_536_000_000
# How long after the origin the steps of the hidden schedule begin, and by when all has to be done.
SPREAD = 100_000
DEADLINE = 150_000
MOST_PACKETS = 256


class Wrong(Exception):
    """The program does not answer as it should."""


def check(holds, what):
    if not holds:
        raise Wrong(what)


def text(millis):
    return f"{'-' if millis < 0 else ''}{abs(millis) // 1000}.{abs(millis) % 1000:03}"


def side(millis):
    return "*" if abs(millis) == HORIZON else text(millis)


def event_text(number):
    return "z" if number == 0 else f"{'s' if number % 2 else 'e'}{(number + 1) // 2}"


def bound_text(bound):
    first, second, low, high = bound
    return f"{event_text(first)} {event_text(second)} {side(low)} {side(high)}"


def bare_differences(events):
    """By two events, how long the second comes after the first at most, over all schedules: without a bound but the horizon."""
    return [[0 if second in (0, first) else HORIZON for second in range(events + 1)] for first in range(events + 1)]


def with_link(far, first, second, most):
    """The differences where the second event comes at most so long after the first, too; None if there is no schedule."""
    if far is None or most < -far[second][first]:
        return None
    if most >= far[first][second]:
        return far
    out = far[second]
    return [[min(old, row[first] + most + tail) for old, tail in zip(row, out)] for row in far]


def with_bounds(far, bounds):
    """The differences with these bounds, too; None if there is no schedule."""
    for first, second, low, high in bounds:
        far = with_link(with_link(far, first, second, high), second, first, -low)
    return far


def guard_of(events, bounds, owner):
    """The guard of bounds that have a schedule, where `owner` has the site of each event."""
    far = with_bounds(bare_differences(events), bounds)
    shared = [bound for bound in bounds if 0 not in bound[:2] and owner[bound[0]] != owner[bound[1]]]
    for first, second, low, high in shared:
        for start, end, most in ((first, second, high), (second, first, -low)):
            if far[start][0] + far[0][end] > most:
                least = max(-far[end][0], most - far[start][0])
                greatest = min(far[0][end], most + far[0][start])
                time = (least + greatest) // 2
                far = with_link(with_link(far, 0, end, time), start, 0, most - time)
    named = sorted({event for bound in shared for event in bound[:2]})
    windows = [(0, event, -far[event][0], far[0][event]) for event in named]
    return [window for window in windows if window[2:] != (0, HORIZON)]


def ready(far, left, now):
    """Which events may come first among those left from a moment on: the first such time, the event, and the last one."""
    found = []
    for event in left:
        first = with_bounds(far, [(0, event, now, HORIZON)] + [(event, other, 0, HORIZON) for other in left if other != event])
        if first is not None:
            found.append((-first[event][0], event, first[0][event]))
    return sorted(found)


class Plan:
    """A random plan: the owners of its events, and its bounds, which a hidden schedule meets."""

    def __init__(self, chance):
        self.sites = chance.randint(2, 4)
        self.steps = chance.randint(max(3, self.sites), 6)
        self.events = 2 * self.steps
        self.owner = [0] * (self.events + 1)
        owners = [*range(1, self.sites + 1), *(chance.randint(1, self.sites) for _ in range(self.steps - self.sites))]
        chance.shuffle(owners)
        self.bounds = []
        times = [0]
        for step, owner in enumerate(owners):
            self.owner[2 * step + 1] = self.owner[2 * step + 2] = owner
            start, duration = chance.randrange(SPREAD), chance.randrange(1_000, 20_000)
            slack = chance.randrange(duration)
            times += [start, start + duration]
            self.bounds.append((2 * step + 1, 2 * step + 2, duration - slack, duration + slack))
        self.bounds += [(0, event, -HORIZON, DEADLINE) for event in range(1, self.events + 1)]
        while len(self.bounds) < 2 * self.events + self.steps:
            first, second = chance.sample(range(1, self.events + 1), 2)
            if self.owner[first] != self.owner[second]:
                gap = times[second] - times[first]
                low, high = gap - chance.randrange(10_000), gap + chance.randrange(10_000)
                sides = chance.randrange(3)
                self.bounds.append((first, second, -HORIZON if sides == 0 else low, HORIZON if sides == 1 else high))

    def own(self, site):
        return [event for event in range(1, self.events + 1) if self.owner[event] == site]

    def own_words(self):
        """The words of `guard` for site 1."""
        return [f"--own={site}:{self.step_words(site)}" for site in range(2, self.sites + 1)]

    def step_words(self, site):
        return ",".join(str(event // 2) for event in self.own(site) if event % 2 == 0)


class Site:
    """A site's number, its clock, which of its own events are left, and which bounds it holds, by their places in the run."""

    def __init__(self, number, plan):
        self.number = number
        self.clock = 0
        self.left = plan.own(number)
        self.held = set()
        self.far = bare_differences(plan.events)


class Run:
    """A script of one run of a plan, and for each line that it prints what that has to be."""

    def __init__(self, chance, plan, guard):
        self.chance = chance
        self.plan = plan
        self.lines = [f"steps {plan.steps}", f"sites {plan.sites}"]
        self.expected = []
        self.bounds = []
        self.packets = []
        self.is_in_conflict = False
        self.sites = [Site(number, plan) for number in range(1, plan.sites + 1)]
        for bound in plan.bounds + guard:
            self.add(self.sites[0], bound)
        for site in self.sites[1:]:
            self.merge(site, self.sites[0])

    def say(self, line, answer):
        self.lines.append(line)
        self.expected.append(answer)

    def take(self, site, places):
        site.far = with_bounds(site.far, [self.bounds[place] for place in places - site.held])
        site.held |= places

    def hold(self, site, bound):
        self.bounds.append(bound)
        self.take(site, {len(self.bounds) - 1})

    def add(self, site, bound):
        self.hold(site, bound)
        self.say(f"{site.number} add {bound_text(bound)}", None)

    def choose(self, site):
        """One of a site's own events with a time at which it may come next among them; None where there is none."""
        found = ready(site.far, site.left, site.clock)
        if not found:
            return None
        first, event, last = self.chance.choice(found)
        # Mostly soon, sometimes at any moment.
        return event, min(last, first + self.chance.choice((0, self.chance.randrange(2_000), self.chance.randrange(last - first + 1))))

    def act(self, site):
        """Executes one of the site's own events; whether it could."""
        chosen = self.choose(site)
        if chosen is None:
            return False
        event, time = chosen
        site.clock = time
        site.left.remove(event)
        self.hold(site, (0, event, time, time))
        self.say(f"{site.number} done {event_text(event)} {text(time)}", None)
        self.ask(site)
        return True

    def narrow(self, site):
        """Adds a bound on one of the site's own events, beside which its own bounds have a schedule."""
        chosen = self.choose(site)
        if chosen is not None:
            event, time = chosen
            bound = (0, event, max(time - self.chance.randrange(5_000), 0), time + self.chance.randrange(5_000))
            self.add(site, bound)
            self.ask(site)

    def send(self, site):
        if len(self.packets) < MOST_PACKETS:
            self.packets.append(set(site.held))
            self.say(f"{site.number} send", None)

    def deliver(self, site):
        if self.packets:
            number = self.chance.randrange(len(self.packets))
            self.take(site, self.packets[number])
            self.say(f"{site.number} deliver {number + 1}", None)
            self.ask(site)

    def merge(self, site, other):
        self.take(site, other.held)
        self.say(f"{site.number} merge {other.number}", "merged")
        self.ask(site)

    def ask(self, site):
        """Asks the site what comes next; in a conflict, and only then, that is the answer."""
        self.is_in_conflict |= site.far is None
        self.say(f"{site.number} next {text(site.clock)}", "conflict" if site.far is None else "no conflict")

    def live(self):
        """The whole run; whether each site could execute all of its own events."""
        for _ in range(20 * len(self.sites)):
            site = self.chance.choice(self.sites)
            doing = self.chance.choices(("act", "narrow", "send", "deliver", "merge"), weights=(3, 1, 3, 3, 1))[0]
            if doing == "merge":
                self.merge(site, self.chance.choice(self.sites))
            elif doing not in ("act", "narrow") or site.left:
                getattr(self, doing)(site)
        for site in self.sites:
            while site.left and self.act(site):
                pass
        for site in self.sites[1:]:
            self.merge(self.sites[0], site)
        for site in self.sites[1:]:
            self.merge(site, self.sites[0])
        return not any(site.left for site in self.sites)

    def compare(self, program):
        """Runs the script, and compares what it prints."""
        script = "\n".join(self.lines) + "\n"
        printed = subprocess.run([program, "run"], input=script, capture_output=True, text=True, check=False).stdout.splitlines()
        check(len(printed) == len(self.expected), f"{len(printed)} lines of {len(self.expected)}: {printed[-1:]}\n{script}")
        for line, command, answer in zip(printed, self.lines[2:], self.expected):
            agrees = {None: not line.startswith("refused"), "no conflict": line.split()[0] in ("run", "overdue", "all")}
            check(agrees.get(answer, line == answer), f"{command}: {line}, and not {answer}\n{script}")


class Log:
    """A log of a plan's bounds, made by the program."""

    def __init__(self, program, path, plan):
        self.program = program
        self.path = path
        self.ask("bare", 1, plan.steps)
        for first, second, low, high in plan.bounds:
            sides = [f"--lo={text(low)}"] * (low > -HORIZON) + [f"--hi={text(high)}"] * (high < HORIZON)
            self.ask("add", 1, event_text(first), event_text(second), *sides)

    def ask(self, command, site, *words):
        asked = [self.program, command, str(self.path), str(site), *map(str, words)]
        return subprocess.run(asked, capture_output=True, text=True, check=False).stdout.splitlines()


def compare_guard(log, plan, guard):
    """Compares the program's guard with the one that was worked out, and what it says that may come next at each site."""
    names = [f"1.{len(plan.bounds) + place}" for place in range(1, len(guard) + 1)]
    check(log.ask("guard", 1, *plan.own_words()) == [f"added {name}" for name in names], "the ids of a guard")
    records = log.ask("records", 1)[len(plan.bounds):]
    check(records == [f"{name} {bound_text(bound)}" for name, bound in zip(names, guard)], f"a guard: {records}")
    for site in range(1, plan.sites + 1):
        told = log.ask("ready", site, text(0), f"--steps={plan.step_words(site)}")
        found = ready(with_bounds(bare_differences(plan.events), plan.bounds + guard), plan.own(site), 0)
        wanted = [f"{event_text(event)} {text(first)} {text(last)}" for first, event, last in found]
        check(told == wanted, f"what may come next of one's own: {told}, and not {wanted}")


def main(program, seeds="200"):
    met = 0
    try:
        with tempfile.TemporaryDirectory() as folder:
            for seed in range(1, int(seeds) + 1):
                plan = Plan(random.Random(seed))
                guard = guard_of(plan.events, plan.bounds, plan.owner)
                log = Log(program, Path(folder) / f"{seed}.log", plan)
                compare_guard(log, plan, guard)
                guarded = Run(random.Random(seed), plan, guard)
                check(guarded.live(), f"seed {seed}: an event of a site's own could not be executed")
                check(not guarded.is_in_conflict, f"seed {seed}: a conflict, in spite of the guard")
                guarded.compare(program)
                bare = Run(random.Random(seed), plan, [])
                bare.live()
                bare.compare(program)
                met += bare.is_in_conflict
    except Wrong as wrong:
        sys.exit(str(wrong))
    print(f"with a guard: no conflict in {seeds} of {seeds} runs")
    print(f"without: a conflict in {met} of {seeds} runs")
    print("passed")
