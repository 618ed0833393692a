#!/usr/bin/env python3
"""Prints what the program answers is to print of the part `changed`, by the formats alone (docs/FORMATS.md).

usage: bench/part.py changed < crates/answers/stdin | bench/changed.py

bench/part.py changed < crates/answers/stdout prints the same.

A frame is read, is old, is less than a frame, or has a fault: 50, 51 or 52. A log of either version is read or refused.
"""
import hashlib
import sys
from collections import Counter

HORIZON, OLD_HORIZON = 31_536_000_000, 1_000_000_000
MOST_BODY = 262_144
MOST_IDS = 4096
OLD_HELLO, OLD_RECORDS, TEXT, REFUSED, HELLO, RECORDS, AMENDED = 1, 2, 4, 5, 7, 8, 16
KINDS = (*range(1, 9), AMENDED)
OLD = (OLD_HELLO, OLD_RECORDS)


class Fault(Exception):
    """A refusal, with its code."""

    def __init__(self, code):
        super().__init__(code)
        self.code = code


class Reader:
    """The numbers of a body, one after the other."""

    def __init__(self, data):
        self.data = data
        self.at = 0

    def take(self, count):
        if len(self.data) - self.at < count:
            raise Fault(52)
        taken = self.data[self.at : self.at + count]
        self.at += count
        return taken

    def number(self, count):
        return int.from_bytes(self.take(count), "big")

    def end(self):
        if self.at != len(self.data):
            raise Fault(52)


def rule(holds):
    if not holds:
        raise Fault(52)


def an_id(reader):
    site, counter = reader.number(2), reader.number(2)
    rule(1 <= site <= 64 and counter >= 1)
    return site, counter


def a_record(reader):
    mark, start, to, low, high = (reader.number(count) for count in (1, 2, 2, 8, 8))
    rule(mark <= 1 and start <= 512 and to <= 512 and start != to)
    rule(low <= high <= 2 * HORIZON)
    rule(mark == 0 or (start == 0 and low == high))
    return mark, start, to, low - HORIZON, high - HORIZON


def an_old_record(reader):
    """The record of the old layout; a plain one's side that is open within the old horizon is open within the new."""
    mark, start, to, low, high = (reader.number(count) for count in (1, 2, 2, 4, 4))
    rule(mark <= 1 and start <= 512 and to <= 512 and start != to)
    rule(low <= high <= 2 * OLD_HORIZON)
    rule(mark == 0 or (start == 0 and low == high))
    low, high = low - OLD_HORIZON, high - OLD_HORIZON
    if mark == 0 and low == -OLD_HORIZON:
        low = -HORIZON
    if mark == 0 and high == OLD_HORIZON:
        high = HORIZON
    return mark, start, to, low, high


def entries_of(reader, added):
    """The entries of amendments: the ids of new records, and the ids that these replace."""
    entries, last = {}, (0, 0)
    count = reader.number(2)
    rule(count >= 1)
    for _ in range(count):
        new, old = an_id(reader), an_id(reader)
        rule(last < new and new != old and new in added and added[new][0] == 0)
        entries[new] = old
        last = new
    return entries


def records_of(reader, record_of, amended=False):
    added, last = {}, (0, 0)
    for _ in range(reader.number(2)):
        one = an_id(reader)
        rule(last < one)
        added[one] = record_of(reader)
        last = one
    withdrawn, last = set(), (0, 0)
    for _ in range(reader.number(2)):
        one = an_id(reader)
        rule(last < one)
        withdrawn.add(one)
        last = one
    entries = entries_of(reader, added) if amended else {}
    rule(len(withdrawn | added.keys() | set(entries.values())) <= MOST_IDS)
    return added, withdrawn, entries


def source_of(reader):
    form = reader.number(1)
    rule(form <= 1)
    if form == 0:
        return reader.number(2)
    domain = reader.take(reader.number(4))
    return domain, reader.take(reader.number(4))


def content_of(body):
    reader = Reader(body)
    kind = reader.number(1)
    if kind in (HELLO, OLD_HELLO):
        content = source_of(reader)
    elif kind in (RECORDS, AMENDED):
        content = records_of(reader, a_record, kind == AMENDED)
    elif kind == OLD_RECORDS:
        content = records_of(reader, an_old_record)
    elif kind == TEXT:
        content = reader.take(len(body) - 1)
    elif kind == REFUSED:
        content = reader.number(1)
    else:
        content = None
    reader.end()
    return kind, content


def frame_of(data):
    """The kind, the content and the length of the frame in front; None where the bytes are less than a frame."""
    if len(data) < 4:
        return None
    length = int.from_bytes(data[:4], "big")
    if not 1 <= length <= MOST_BODY:
        raise Fault(50)
    if len(data) < 5:
        return None
    if data[4] not in KINDS:
        raise Fault(51)
    if len(data) < 4 + length:
        return None
    return content_of(data[4 : 4 + length]) + (4 + length,)


class Replica:
    """What a site holds over a bare plan, made from its source."""

    def __init__(self, source):
        if isinstance(source, tuple):  # two texts, here always too short for a domain
            raise Fault(11)
        if source > 256:
            raise Fault(34)
        self.steps = source
        self.added = {}
        self.withdrawn = set()
        self.entries = {}

    def known(self):
        return self.added.keys() | self.withdrawn | set(self.entries.values())

    def take(self, added, withdrawn, entries):
        if any(max(record[1], record[2]) > 2 * self.steps for record in added.values()):
            raise Fault(4)
        if any(self.added.get(one, record) != record for one, record in added.items()):
            raise Fault(40)
        if any(self.entries.get(new, old) != old for new, old in entries.items()):
            raise Fault(40)
        if len(self.known() | added.keys() | withdrawn | set(entries.values())) > MOST_IDS:
            raise Fault(41)
        self.added.update(added)
        self.withdrawn |= withdrawn
        self.entries.update(entries)


def frame_case(data):
    try:
        frame = frame_of(data)
        if frame is None:
            return "unfinished"
        return "old" if frame[0] in OLD else "read"
    except Fault as fault:
        return str(fault.code)


def load(data):
    """The replica of a log, whose frames are all of one version."""
    replica, wanted = None, {HELLO: (RECORDS, AMENDED), OLD_HELLO: (OLD_RECORDS,)}
    while data or replica is None:
        frame = frame_of(data)
        if frame is None:
            raise Fault(62)
        kind, content, length = frame
        if kind not in wanted:
            raise Fault(62)
        if replica is None:
            replica, wanted = Replica(content), wanted[kind]
        else:
            replica.take(*content)
        data = data[length:]
    return replica


def log_case(data):
    try:
        load(data)
        return "read"
    except Fault as fault:
        return str(fault.code)


def print_row(name, data, case_of):
    """How often each case came, and the digest of their lines."""
    cases = [case_of(data[:length]) for length in range(len(data) + 1)]
    for place in range(len(data)):
        cases += [case_of(data[:place] + bytes([value]) + data[place + 1 :]) for value in range(256)]
    counted = Counter(cases)
    words = [f"{counted.pop('read', 0)} read", f"{counted.pop('unfinished', 0)} unfinished", "0 broken"]
    if "old" in counted:
        words.append(f"{counted.pop('old')} old")
    words += [f"{counted[code]} refused {code}" for code in sorted(counted, key=int)]
    digest = hashlib.md5("".join(f"{case}\n" for case in cases).encode()).hexdigest()
    print(f"{name}: {', '.join(words)}, digest {digest}")


def main():
    for line in sys.stdin:
        name, kind, data = line.split()
        print_row(name, bytes.fromhex(data), frame_case if kind == "frame" else log_case)


if __name__ == "__main__":
    main()
