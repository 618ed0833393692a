#!/usr/bin/env python3
"""Prints a script in which sites of one plan work over links that lose, repeat and reorder what they carry, until all have heard all.

usage: simulate.py SEED [SITES [STEPS [WORK]]]    64 sites, 2 steps and 300 commands, unless told
       simulate.py apart PROGRAM [SEEDS]          200 seeds, unless told

First come random commands: bounds that a hidden schedule meets, amendments, withdrawals, packets of all or of some items, deliveries of any packet at any
age and any number of times, and merges; a packet that is never delivered is lost. Then each site sends all to the first, and the first to
each, in any order and some of them twice. At the end each site reports, and all should print the same bytes:

    bench/simulate.py 1 | ./stn run

With `apart` it runs PROGRAM, whose path ./stn build prints, on plans whose steps belong to two to four sites that act out of
contact: apart.py says how.
"""
import random
import sys

import apart

# Over how many milliseconds the events of the hidden schedule are spread.
SPREAD = 1_000_000_000
MOST_PACKETS = 256


def text(millis):
    return f"{'-' if millis < 0 else ''}{abs(millis) // 1000}.{abs(millis) % 1000:03}"


def event(number):
    return "z" if number == 0 else f"{'s' if number % 2 else 'e'}{(number + 1) // 2}"


class Held:
    """What a site or a packet holds, as ids alone: records, withdrawn ids, and by the id of a record the id that it replaces."""

    def __init__(self, records=(), withdrawn=(), replacing=()):
        self.records = set(records)
        self.withdrawn = set(withdrawn)
        self.replacing = dict(replacing)

    def known(self):
        return self.records | self.withdrawn | set(self.replacing.values())

    def take(self, other):
        self.records |= other.records
        self.withdrawn |= other.withdrawn
        self.replacing |= other.replacing

    def part(self, records, withdrawn):
        return Held(records, withdrawn, {one: old for one, old in self.replacing.items() if one in records})

    def copy(self):
        return self.part(self.records, self.withdrawn)


class Simulation:
    """What the sites and the packets hold."""

    def __init__(self, seed, sites, steps):
        self.rng = random.Random(seed)
        self.schedule = [0] + [self.rng.randrange(SPREAD) for _ in range(2 * steps)]
        self.sites = [Held() for _ in range(sites)]
        self.packets = []
        self.lines = [f"steps {steps}", f"sites {sites}"]

    def say(self, site, words):
        self.lines.append(f"{site + 1} {words}")

    def any_site(self):
        return self.rng.randrange(len(self.sites))

    def new_record(self, site):
        """The id of a new record of a site, and the words of its bound."""
        first, second = self.rng.sample(range(len(self.schedule)), 2)
        gap = self.schedule[second] - self.schedule[first]
        low = max(-SPREAD, gap - self.rng.randrange(100_000_000))
        high = min(SPREAD, gap + self.rng.randrange(100_000_000))
        held = self.sites[site]
        counter = 1 + max((own for maker, own in held.known() if maker == site), default=0)
        held.records.add((site, counter))
        return (site, counter), f"{event(first)} {event(second)} {text(low)} {text(high)}"

    def add(self):
        site = self.any_site()
        self.say(site, f"add {self.new_record(site)[1]}")

    def amend(self):
        site = self.any_site()
        held = self.sites[site]
        if held.records:
            maker, counter = old = self.rng.choice(sorted(held.records))
            one, bound = self.new_record(site)
            held.replacing[one] = old
            self.say(site, f"amend {maker + 1}.{counter} {bound}")

    def withdraw(self):
        site = self.any_site()
        held = self.sites[site]
        if held.records:
            maker, counter = self.rng.choice(sorted(held.records))
            held.withdrawn.add((maker, counter))
            self.say(site, f"withdraw {maker + 1}.{counter}")

    def send_all(self, site):
        self.packets.append(self.sites[site].copy())
        self.say(site, "send")
        return len(self.packets)

    def send(self):
        site = self.any_site()
        held = self.sites[site]
        items = [("", one) for one in sorted(held.records)] + [("-", one) for one in sorted(held.withdrawn)]
        # Room is left for the packets of the end.
        if len(self.packets) + len(self.sites) + 1 >= MOST_PACKETS:
            return
        if self.rng.random() < 0.5 or not items:
            self.send_all(site)
            return
        chosen = self.rng.sample(items, self.rng.randrange(1, min(len(items), 8) + 1))
        self.packets.append(held.part({one for mark, one in chosen if not mark}, {one for mark, one in chosen if mark}))
        self.say(site, "send " + " ".join(f"{mark}{maker + 1}.{counter}" for mark, (maker, counter) in chosen))

    def deliver(self, site=None, number=None):
        if not self.packets:
            return
        site = self.any_site() if site is None else site
        number = self.rng.randrange(len(self.packets)) + 1 if number is None else number
        self.sites[site].take(self.packets[number - 1])
        self.say(site, f"deliver {number}")

    def merge(self):
        site, other = self.any_site(), self.any_site()
        self.sites[site].take(self.sites[other])
        self.say(site, f"merge {other + 1}")

    def work(self, count):
        steps = [self.add, self.amend, self.withdraw, self.send, self.deliver, self.merge]
        for _ in range(count):
            self.rng.choices(steps, weights=[4, 2, 1, 4, 6, 1])[0]()

    def deliver_all(self, ways):
        ways = ways + [way for way in ways if self.rng.random() < 0.25]
        self.rng.shuffle(ways)
        for site, number in ways:
            self.deliver(site, number)

    def settle(self):
        self.deliver_all([(0, self.send_all(site)) for site in range(1, len(self.sites))])
        last = self.send_all(0)
        self.deliver_all([(site, last) for site in range(1, len(self.sites))])
        for site in range(len(self.sites)):
            self.say(site, "report")


def main():
    if sys.argv[1:2] == ["apart"]:
        apart.main(*sys.argv[2:])
        return
    seed, *sizes = [int(word) for word in sys.argv[1:]] or sys.exit(__doc__)
    sites, steps, work = sizes + [64, 2, 300][len(sizes):]
    simulation = Simulation(seed, sites, steps)
    simulation.work(work)
    simulation.settle()
    print("\n".join(simulation.lines))


if __name__ == "__main__":
    main()
