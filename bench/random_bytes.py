#!/usr/bin/env python3
"""Prints what the program answers is to print of the part `random COUNT`, by the formats alone (docs/FORMATS.md).

usage: bench/part.py random < crates/answers/stdin | bench/random_bytes.py 1000

bench/part.py random < crates/answers/stdout prints the same.

A session is a fold of its table over the frames. The random cases are those of the generator that the program uses, with the same draws
in the same order.
"""
import hashlib
import sys

sys.dont_write_bytecode = True

from changed import AMENDED, HELLO, HORIZON, OLD, RECORDS, Fault, Replica, frame_of, load, log_case

ASK = 3


def ids_bytes(ids):
    return b"".join(number.to_bytes(2, "big") for one in ids for number in one)


def log_of(replica):
    """The log of a replica: all that it holds."""
    body = bytes([AMENDED if replica.entries else RECORDS]) + len(replica.added).to_bytes(2, "big")
    for one, (mark, start, to, low, high) in sorted(replica.added.items()):
        numbers = (*one, mark, start, to, low + HORIZON, high + HORIZON)
        body += b"".join(number.to_bytes(count, "big") for number, count in zip(numbers, (2, 2, 1, 2, 2, 8, 8)))
    body += len(replica.withdrawn).to_bytes(2, "big")
    body += ids_bytes(sorted(replica.withdrawn))
    if replica.entries:
        body += len(replica.entries).to_bytes(2, "big")
        body += b"".join(map(ids_bytes, sorted(replica.entries.items())))
    hello = bytes([HELLO, 0]) + replica.steps.to_bytes(2, "big")
    return b"".join(len(part).to_bytes(4, "big") + part for part in (hello, body))


def serve(data):
    """How a session of an empty replica over a bare plan of one step ends, how many frames it answers, and the replica."""
    replica, greeted, frames = Replica(1), False, 0
    while data:
        try:
            frame = frame_of(data)
        except Fault as fault:
            return str(fault.code), frames, replica
        if frame is None:
            return "unfinished", frames, replica
        kind, content, length = frame
        frames += 1
        if kind in OLD:
            return "65", frames, replica
        if kind == HELLO and content != 1:
            return "60", frames, replica
        if kind == HELLO:
            greeted = True
        elif not greeted or kind not in (RECORDS, AMENDED, ASK):
            return "61", frames, replica
        elif kind in (RECORDS, AMENDED):
            try:
                replica.take(*content)
            except Fault:
                pass
        data = data[length:]
    return "read", frames, replica


class Pcg32:
    """The generator of O'Neill (2014)."""

    def __init__(self, state, stream):
        self.increment = stream << 1 | 1
        self.state = state + self.increment
        self.step()

    def step(self):
        self.state = (self.state * 6364136223846793005 + self.increment) % 2**64

    def word(self):
        old = self.state
        self.step()
        mixed = ((old >> 18 ^ old) >> 27) % 2**32
        turn = old >> 59
        return (mixed >> turn | mixed << (32 - turn)) % 2**32

    def below(self, limit):
        word = self.word()
        return word % limit if limit else 0

    def byte(self):
        return self.word() % 256


def changed(random, data):
    kind = random.below(4)
    place = random.below(len(data))
    value = bytes([random.byte()])
    front = data[:place]
    return (front + value + data[place + 1 :], front + data[place + 1 :], front + value + data[place:], front)[kind]


def hostile(random, frames):
    if random.below(16) == 0:
        return bytes(random.byte() for _ in range(random.below(40)))
    data = frames[0] if random.below(8) else b""
    for _ in range(random.below(6)):
        data += frames[random.below(len(frames))]
    for _ in range(random.below(4)):
        data = changed(random, data)
    return data


def tally_text(cases):
    text = ", ".join(f"{cases.count(case)} {case}" for case in ("read", "unfinished", "broken"))
    codes = sorted(int(case) for case in set(cases) if case.isdigit())
    return text + "".join(f", {cases.count(str(code))} refused {code}" for code in codes)


def print_random_sessions(count, frames):
    random, cases, answered, left = Pcg32(42, 54), [], 0, hashlib.md5()
    for _ in range(count):
        case, frames_answered, replica = serve(hostile(random, frames))
        cases.append(case)
        answered += frames_answered
        left.update(log_of(replica))
    print(f"{count} random sessions: {tally_text(cases)}, {answered} frames, left {left.hexdigest()}")


def print_random_logs(count, name, frames):
    random, cases, left = Pcg32(43, 54), [], hashlib.md5()
    for _ in range(count):
        data = hostile(random, frames)
        cases.append(log_case(data))
        if cases[-1] == "read":
            left.update(log_of(load(data)))
    print(f"{count} {name}: {tally_text(cases)}, left {left.hexdigest()}")


def main():
    assert Pcg32(42, 54).word() == 0xA15C02B7
    count = int(sys.argv[1])
    frames = [bytes.fromhex(line.split()[1]) for line in sys.stdin]
    print_random_sessions(count, frames)
    print_random_logs(count, "random logs", [frame for frame in frames if frame[4] in (HELLO, RECORDS, AMENDED, *OLD)])
    print_random_logs(count, "random old logs", [frame for frame in frames if frame[4] in OLD])


main()
