#!/usr/bin/env python3
"""Prints what the part `scripts` of `answers` is to print, by the formats alone (docs/FORMATS.md), with - for the numbers of requests and
of writes, which are the program's own.

usage: cd crates/answers; ../../bench/part.py scripts < stdin | ../../bench/scripts.py
       bench/scripts.py - < SCRIPT        the output of one script

The greatest differences of all pairs of events are kept as a table, which each bound shortens; a conflict is found bound by bound.
"""
import re
import sys
from dataclasses import dataclass, field
from pathlib import Path

sys.dont_write_bytecode = True

from plans import EVENTS, HORIZON, MOST_STEPS, Refused, event_text, horizon_bounds, is_digits, lifted, read_time, step_lines, time_text

MOST_SITES = 64
MOST_COUNTER = 65_535
MOST_IDS = 4096
MOST_PACKETS = 256
MOST_SWEPT = 4096
MOST_SCRIPT = 16_777_216


@dataclass(frozen=True)
class Bound:
    """A bound with its name; an upper link goes from `start` to `to`, a lower one back."""

    name: str
    start: int
    to: int
    low: int
    high: int

    def links(self):
        return Link(self, "upper", self.start, self.to, self.high), Link(self, "lower", self.to, self.start, -self.low)

    def is_met(self, times):
        return self.low <= times[self.to] - times[self.start] <= self.high


@dataclass(frozen=True)
class Link:
    bound: Bound
    side: str
    begins: int
    ends: int
    weight: int

    def text(self):
        bound, value = self.bound, self.weight if self.side == "upper" else -self.weight
        return f"{bound.name} {self.side} {event_text(bound.start)} {event_text(bound.to)} {time_text(value)}"


class Table:
    """The greatest difference of each event from each other over all schedules."""

    def __init__(self, events):
        self.rows = [[0] + [HORIZON] * events for _ in range(events + 1)]
        for event in range(events + 1):
            self.rows[event][event] = 0

    def copy(self):
        other = Table(0)
        other.rows = [row[:] for row in self.rows]
        return other

    def earliest(self, event):
        return -self.rows[event][0]

    def latest(self, event):
        return self.rows[0][event]

    def refused_link(self, bound):
        """The link of a bound that no schedule meets, the upper one first."""
        return next((link for link in bound.links() if self.rows[link.ends][link.begins] + link.weight < 0), None)

    def add(self, bound):
        for link in bound.links():
            if link.weight < self.rows[link.begins][link.ends]:
                onward = self.rows[link.ends]
                self.rows = [self.row_by(row, link, onward) for row in self.rows]

    @staticmethod
    def row_by(row, link, onward):
        way = row[link.begins] + link.weight
        return row if way >= row[link.ends] else [min(far, way + more) for far, more in zip(row, onward)]


def levels_of(start, tight):
    """How many tight links lead from an event to each other, at least."""
    levels, ring = {start: 0}, [start]
    for event in ring:
        for link in tight:
            if link.begins == event and link.ends not in levels:
                levels[link.ends] = levels[event] + 1
                ring.append(link.ends)
    return levels


def way_of(table, bounds, start, end):
    """The links of the first tight chain, by levels, from one event to another, over the table of the bounds."""
    far = table.rows[start]
    links = [link for bound in bounds for link in bound.links()]
    tight = [link for link in links if far[link.begins] + link.weight == far[link.ends]]
    levels = levels_of(start, tight)
    way, here = [], end
    while here != start:
        way.append(next(link for link in tight if link.ends == here and levels.get(link.begins) == levels[here] - 1))
        here = way[-1].begins
    return way[::-1]


def named_cycle(table, bounds, culprit):
    """The links of the cycle that a report names, over the table of the bounds before the culprit."""
    first = table.refused_link(culprit)
    return [first, *way_of(table, bounds[:bounds.index(culprit)], first.ends, first.begins)]


def kept_of(table, bounds, ends_at_first):
    """The table of the bounds with which those before have a schedule, taken one by one; and those with which they have none."""
    table, dropped = table.copy(), []
    for bound in bounds:
        if not table.refused_link(bound):
            table.add(bound)
            continue
        dropped.append(bound)
        if ends_at_first:
            break
    return table, dropped


def id_text(one):
    return f"{one[0]}.{one[1]}"


def read_part(text, most):
    right = is_digits(text) and len(text) <= 5 and text[0] != "0" and int(text) <= most
    return int(text) if right else None


def read_id(text):
    site, _, counter = text.partition(".")
    one = read_part(site, MOST_SITES), read_part(counter, MOST_COUNTER)
    return one if None not in one else None


class Plan:
    """What all sites share; of each step a line."""

    def __init__(self, lines, bounds):
        self.lines = lines
        self.steps = len(lines)
        self.events = 2 * self.steps
        self.bounds = [Bound(f"plan.{number}", *bound) for number, bound in enumerate(bounds, 1)]
        self.table = Table(self.events)
        for bound in self.bounds:
            self.table.add(bound)


def bare_plan(steps):
    if steps > MOST_STEPS:
        raise Refused(34)
    return Plan([str(step) for step in range(1, steps + 1)], horizon_bounds(2 * steps))


class Site:
    """A site: its records, by id a mark and a bound; the withdrawn ids; and the ids that records replace, by the id of the record."""

    def __init__(self, number, plan):
        self.number = number
        self.plan = plan
        self.added = {}
        self.withdrawn = set()
        self.replacing = {}

    def replaced(self):
        """The ids that no longer count."""
        return self.withdrawn | set(self.replacing.values())

    def known(self):
        return self.added.keys() | self.replaced()

    def put(self, *record):
        known = self.known()
        counter = 1 + max((counter for site, counter in known if site == self.number), default=0)
        if counter > MOST_COUNTER:
            raise Refused(43)
        if len(known) >= MOST_IDS:
            raise Refused(41)
        self.added[self.number, counter] = record
        return self.number, counter

    def check_bound(self, start, to, low, high):
        if max(start, to) > self.plan.events:
            raise Refused(4)
        if start == to:
            raise Refused(5)
        if low > high:
            raise Refused(6)

    def add(self, *bound):
        self.check_bound(*bound)
        return self.put("plain", *bound)

    def amend(self, old, *bound):
        self.check_bound(*bound)
        if old not in self.known():
            raise Refused(42)
        one = self.put("plain", *bound)
        self.replacing[one] = old
        return one

    def done(self, event, time):
        if not 1 <= event <= self.plan.events:
            raise Refused(4)
        return self.put("done", 0, event, time, time)

    def withdraw(self, one):
        if one not in self.known():
            raise Refused(42)
        self.withdrawn.add(one)
        return one

    def take(self, packet):
        """Takes a packet; on sites of one script no id has two records."""
        added, withdrawn, replacing = packet
        if len(self.known() | added.keys() | withdrawn | set(replacing.values())) > MOST_IDS:
            raise Refused(41)
        self.added.update(added)
        self.withdrawn.update(withdrawn)
        self.replacing.update(replacing)

    def packet(self, items):
        """What these items are, or all that the site holds; a record comes with the id that it replaces."""
        if not items:
            return dict(self.added), set(self.withdrawn), dict(self.replacing)
        if any(one not in (self.withdrawn if mark else self.added) for mark, one in items):
            raise Refused(42)
        added = {one: self.added[one] for mark, one in items if not mark}
        replacing = {one: old for one, old in self.replacing.items() if one in added}
        return added, {one for mark, one in items if mark}, replacing

    def live(self):
        replaced = self.replaced()
        return [(id_text(one), *record) for one, record in sorted(self.added.items()) if one not in replaced]

    def bounds(self):
        return self.plan.bounds + [Bound(name, *bound) for name, _, *bound in self.live()]

    def done_events(self):
        return {to for _, mark, _, to, *_ in self.live() if mark == "done"}

    def judged(self):
        """The table of all bounds, and None; or that of the bounds before the culprit, and the culprit."""
        table = self.plan.table.copy()
        for bound in self.bounds()[len(self.plan.bounds):]:
            if table.refused_link(bound):
                return table, bound
            table.add(bound)
        return table, None

    def report(self):
        table, culprit = self.judged()
        lines = [f"plan {self.plan.steps} steps {self.plan.events} events"]
        lines.append(f"records {len(self.live())} live {len(self.replaced())} withdrawn")
        if culprit:
            return lines + self.conflict(table, culprit)
        return lines + ["ok"] + [self.window(table, event) for event in range(1, self.plan.events + 1)]

    def conflict(self, table, culprit):
        cycle = named_cycle(table, self.bounds(), culprit)
        return [f"conflict {time_text(sum(link.weight for link in cycle))}"] + [link.text() for link in cycle]

    def window(self, table, event):
        mark = " done" if event in self.done_events() else ""
        return f"{event_text(event)} {time_text(table.earliest(event))} {time_text(table.latest(event))}{mark}"

    def record_line(self, one):
        words = [id_text(one)]
        if one in self.added:
            mark, *bound = self.added[one]
            words += [bound_text(*bound)] + ["done"] * (mark == "done")
        if one in self.replacing:
            words.append(f"amends {id_text(self.replacing[one])}")
        words += ["withdrawn"] * (one in self.withdrawn) + ["replaced"] * (one in self.replacing.values())
        return " ".join(words)

    def record_lines(self):
        return [self.record_line(one) for one in sorted(self.known())]

    def step_lines(self):
        return self.plan.lines

    def bound_lines(self):
        return [f"{bound.name} {bound_text(bound.start, bound.to, bound.low, bound.high)}" for bound in self.bounds()]

    def ready(self, now):
        """Each event that may run from now on before all others that are left, with the first and the last such time."""
        table, culprit = self.judged()
        if culprit:
            return ["conflict"]
        left = [event for event in range(1, self.plan.events + 1) if event not in self.done_events()]
        if not left:
            return ["all done"]
        last = min(table.latest(event) for event in left)
        leading = [event for event in left if all(table.rows[event][other] >= 0 for other in left)]
        times = sorted((max(now, table.earliest(event)), event) for event in leading)
        lines = [f"{event_text(event)} {time_text(first)} {time_text(last)}" for first, event in times if first <= last]
        return lines or self.next(now)

    def why(self, event):
        if event > self.plan.events:
            raise Refused(4)
        table, culprit = self.judged()
        if culprit:
            return self.conflict(table, culprit)
        earliest = way_of(table, self.bounds(), event, 0)
        latest = way_of(table, self.bounds(), 0, event)
        lines = [self.window(table, event), f"earliest {time_text(-sum(link.weight for link in earliest))}"]
        lines += [link.text() for link in earliest]
        lines.append(f"latest {time_text(sum(link.weight for link in latest))}")
        return lines + [link.text() for link in latest]

    def why_apart(self, start, to):
        """How long one event can come after another over all schedules, and the ways that hold both ends."""
        if max(start, to) > self.plan.events:
            raise Refused(4)
        if start == to:
            raise Refused(5)
        table, culprit = self.judged()
        if culprit:
            return self.conflict(table, culprit)
        back, onward = way_of(table, self.bounds(), to, start), way_of(table, self.bounds(), start, to)
        least, greatest = time_text(-table.rows[to][start]), time_text(table.rows[start][to])
        return [f"{event_text(start)} {event_text(to)} {least} {greatest}", f"least {least}", *(link.text() for link in back),
                f"greatest {greatest}", *(link.text() for link in onward)]

    def repairs(self):
        """The range that the others leave each record without which they have a schedule, and the records to drop, facts last."""
        if self.judged()[1] is None:
            return ["ok"]
        live = self.bounds()[len(self.plan.bounds):]
        lines = []
        for one in live:
            table, culprit = kept_of(self.plan.table, [bound for bound in live if bound is not one], True)
            if not culprit:
                ends = f"{event_text(one.start)} {event_text(one.to)}"
                lines.append(f"{one.name} {ends} {time_text(-table.rows[one.to][one.start])} {time_text(table.rows[one.start][one.to])}")
        facts = {id_text(one) for one, (mark, *_) in self.added.items() if mark == "done"}
        dropped = kept_of(self.plan.table, sorted(live, key=lambda bound: bound.name not in facts), False)[1]
        return lines + [" ".join(["drop"] + [bound.name for bound in live if bound in dropped])]

    def coming(self, now):
        """What is left from a time on, by time and event; or the word that says why not, and the overdue event."""
        table, culprit = self.judged()
        if culprit:
            return "conflict", None
        left = [event for event in range(1, self.plan.events + 1) if event not in self.done_events()]
        overdue = next((event for event in left if table.latest(event) < now), None)
        if overdue:
            return "overdue", event_text(overdue)
        times = {event: max([table.earliest(event)] + [now - table.rows[event][other] for other in left]) for event in left}
        return "run", sorted((time, event) for event, time in times.items())

    def next(self, now):
        word, found = self.coming(now)
        if word != "run":
            return [word if found is None else f"{word} {found}"]
        return run_lines(found[:1]) or ["all done"]

    def rehearse(self, now):
        word, found = self.coming(now)
        if word == "overdue":
            raise Refused(7, found)
        return run_lines(found) + ["all done"] if word == "run" else [word]

    def check(self, times):
        broken = next((bound for bound in self.bounds() if not bound.is_met([0, *times])), None)
        return [f"broken {broken.name}" if broken else "schedule"]


def bound_text(start, to, low, high):
    """A bound as `add` reads it: a side at the end of the horizon is open."""
    sides = "*" if low == -HORIZON else time_text(low), "*" if high == HORIZON else time_text(high)
    return " ".join([event_text(start), event_text(to), *sides])


def run_lines(runs):
    return [f"run {time_text(time)} {event_text(event)}" for time, event in runs]


def read_number(word):
    return int(word) if is_digits(word) and len(word) <= 5 else None


def read_item(word):
    return word.startswith("-"), read_id(word.removeprefix("-"))


def read_side(word, opened):
    return opened if word == "*" else read_time(word)


def words_of(line):
    return [word for word in re.split("[ \t\r]", line.decode("latin-1")) if word]


# How many words follow the name of a command; after `send`, `check` and `why` their readers count them.
WORDS = {
    "add": 4,
    "amend": 5,
    "withdraw": 1,
    "done": 2,
    "merge": 1,
    "send": None,
    "deliver": 1,
    "report": 0,
    "next": 1,
    "rehearse": 1,
    "check": None,
    "records": 0,
    "steps": 0,
    "bounds": 0,
    "ready": 1,
    "why": None,
    "repairs": 0,
}


@dataclass
class Script:
    """A run of a script: its lines, the place of the next, and what was printed."""

    text: bytes
    at: int = 0
    printed: list = field(default_factory=list)
    commands: int = 0
    refused: int = 0
    packets: list = field(default_factory=list)

    def __post_init__(self):
        self.lines = self.text.removesuffix(b"\n").split(b"\n") if self.text else []

    def next_words(self):
        """The words of the next line that is not skipped; none at the end."""
        while self.at < len(self.lines):
            words = words_of(self.lines[self.at])
            self.at += 1
            if words and not words[0].startswith("#"):
                return words
        return None

    def heading_words(self):
        words = self.next_words()
        if words is None:
            raise self.ended()
        return words

    def ended(self):
        return Refused(70, 1 + self.text.count(b"\n"))

    def block(self):
        """The lines up to `end`."""
        begins = self.at
        while self.at < len(self.lines):
            self.at += 1
            if words_of(self.lines[self.at - 1]) == ["end"]:
                return b"".join(line + b"\n" for line in self.lines[begins:self.at - 1])
        raise self.ended()

    def named_number(self, words, name):
        number = read_number(words[1]) if len(words) == 2 and words[0] == name else None
        if number is None:
            raise Refused(70, self.at)
        return number

    def plan(self):
        words = self.heading_words()
        if words != ["domain"]:
            return bare_plan(self.named_number(words, "steps"))
        domain = self.block()
        if self.heading_words() != ["plan"]:
            raise Refused(70, self.at)
        plan = self.block()
        return Plan(step_lines(domain, plan), lifted(domain, plan)[0])

    def heading(self):
        plan = self.plan()
        count = self.named_number(self.heading_words(), "sites")
        if not 1 <= count <= MOST_SITES:
            raise Refused(71)
        return [Site(number, plan) for number in range(1, count + 1)]

    def refuse(self, refused):
        self.printed.append(str(refused))
        self.refused += 1

    def run(self):
        try:
            self.sites = self.heading()
        except Refused as refused:
            self.refuse(refused)
            return
        self.run_commands()

    def run_commands(self):
        while (words := self.next_words()) is not None:
            self.commands += 1
            try:
                self.printed += self.command(words)
            except Refused as refused:
                self.refuse(refused)

    def command(self, words):
        number, name, rest = read_number(words[0]), "".join(words[1:2]), words[2:]
        known = number is not None and name in WORDS and WORDS[name] in (None, len(rest))
        do = getattr(self, f"read_{name}")(*rest) if known else None
        if do is None:
            raise Refused(70, self.at)
        return do(self.site(number))

    def site(self, number):
        if not 1 <= number <= len(self.sites):
            raise Refused(71)
        return self.sites[number - 1]

    # Each of these reads the words of a command; it gives what is done at the site, or none of words of another form.

    def read_add(self, start, to, low, high):
        start, to = EVENTS.get(start), EVENTS.get(to)
        if None in (start, to):
            return None
        return lambda site: [f"added {id_text(site.add(start, to, read_side(low, -HORIZON), read_side(high, HORIZON)))}"]

    def read_amend(self, old, start, to, low, high):
        old, start, to = read_id(old), EVENTS.get(start), EVENTS.get(to)
        if None in (old, start, to):
            return None
        return lambda site: [f"amended {id_text(site.amend(old, start, to, read_side(low, -HORIZON), read_side(high, HORIZON)))}"]

    def read_withdraw(self, one):
        one = read_id(one)
        return None if one is None else lambda site: [f"withdrawn {id_text(site.withdraw(one))}"]

    def read_done(self, event, time):
        event = EVENTS.get(event)
        return None if event is None else lambda site: [f"added {id_text(site.done(event, read_time(time)))}"]

    def read_merge(self, other):
        other = read_number(other)
        return None if other is None else lambda site: self.merge(site, other)

    def merge(self, site, other):
        site.take(self.site(other).packet([]))
        return ["merged"]

    def read_send(self, *items):
        items = [read_item(word) for word in items]
        return None if any(one is None for _, one in items) else lambda site: self.send(site, items)

    def send(self, site, items):
        if len(self.packets) == MOST_PACKETS:
            raise Refused(73)
        self.packets.append(site.packet(items))
        return [f"packet {len(self.packets)}"]

    def read_deliver(self, number):
        number = read_number(number)
        return None if number is None else lambda site: self.deliver(site, number)

    def deliver(self, site, number):
        if not 1 <= number <= len(self.packets):
            raise Refused(72)
        site.take(self.packets[number - 1])
        return ["delivered"]

    def read_report(self):
        return Site.report

    def read_next(self, time):
        return lambda site: site.next(read_time(time))

    def read_rehearse(self, time):
        return lambda site: site.rehearse(read_time(time))

    def read_records(self):
        return Site.record_lines

    def read_steps(self):
        return Site.step_lines

    def read_bounds(self):
        return Site.bound_lines

    def read_ready(self, time):
        return lambda site: site.ready(read_time(time))

    def read_why(self, *words):
        events = [EVENTS.get(word) for word in words]
        if None in events or len(events) not in (1, 2):
            return None
        return lambda site: site.why(*events) if len(events) == 1 else site.why_apart(*events)

    def read_repairs(self):
        return Site.repairs

    def read_check(self, *times):
        if len(times) != self.sites[0].plan.events:
            return None
        return lambda site: site.check([read_time(time) for time in times])


def print_run(text, is_swept):
    """Prints what a script prints and counts, and, of a short one, that each of its faults is answered."""
    script = Script(text)
    script.run()
    output = "".join(line + "\n" for line in script.printed)
    print(f"{output}ran {script.commands} refused {script.refused}")
    if is_swept and max(len(text), len(output)) <= MOST_SWEPT:
        # A read hands on 16 bytes, and the last one none.
        print(f"answers each of - requests, {-(-len(text) // 16) + 1} reads and - writes that were refused")


def as_taken(site):
    """A new site that has merged a site."""
    new = Site(MOST_SITES, site.plan)
    new.take(site.packet([]))
    return new


def print_same(name, text):
    """Prints how many reports of a script, of each site before and after each line, a new site that has merged the site prints too."""
    heading, sites, rest = re.split(rb"^(sites \d+)\n", text, maxsplit=1, flags=re.M)
    script = Script(heading + b"sites %d\n" % MOST_SITES)
    script.run()
    same = 0
    for line in [b"", *rest.removesuffix(b"\n").split(b"\n")]:
        repeated = re.fullmatch(rb"\* (\d+) (.*)", line)
        script.lines += int(repeated[1]) * [repeated[2]] if repeated else [line]
        script.run_commands()
        same += sum(site.report() == as_taken(site).report() for site in script.sites[:int(sites.split()[1])])
    print(f"{name} {same} same")


def merge_in_ring(sites):
    """Each site takes the one before it, the first one the last, until no report changes."""
    before = None
    while (reports := [site.report() for site in sites]) != before:
        before = reports
        for place, site in enumerate(sites):
            site.take(sites[place - 1].packet([]))


def print_ring():
    """Prints what the sites of a ring report in the end, and how many of them do."""
    plan = bare_plan(2)
    sites = [Site(number, plan) for number in range(1, MOST_SITES + 1)]
    for site in sites:
        site.add(0, 1, site.number, HORIZON)
    sites[-1].withdraw(sites[-1].add(0, 1, 70_000, 80_000))
    merge_in_ring(sites)
    print_alike(sites)
    sites[32].add(0, 1, -HORIZON, 1)
    merge_in_ring(sites)
    print_alike(sites)


def print_alike(sites):
    report = sites[0].report()
    print("\n".join(report))
    print(f"{sum(site.report() == report for site in sites)} sites alike")


def print_part(heading, text):
    """Prints what a heading of the input wants of the script after it."""
    if heading.startswith("~ "):
        print_same(heading.removeprefix("~ "), text)
        return
    print(heading)
    if heading.startswith("@ "):
        print_ring()
    elif heading.startswith("! "):
        print("the script is too long" if int(text) > MOST_SCRIPT else "ran 0 refused 0")
        print("answers each of - requests that were refused")
    else:
        print_run(text, True)


def main():
    if sys.argv[1:] == ["-"]:
        script = Script(sys.stdin.buffer.read())
        script.run()
        print("\n".join(script.printed))
        return
    for part in re.split(rb"\n(?=[=~@!%] )", sys.stdin.buffer.read().removesuffix(b"\n")):
        heading, _, text = part.partition(b"\n")
        if heading.startswith(b"% "):
            name = heading.decode().removeprefix("% ")
            print(f"= {name}")
            print_run(Path("data", name).read_bytes(), False)
        else:
            print_part(heading.decode(), text + b"\n")


if __name__ == "__main__":
    main()
