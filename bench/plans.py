#!/usr/bin/env python3
"""Prints what the program answers is to print of the part `texts`, by the formats alone (docs/FORMATS.md).

usage: bench/part.py texts < crates/answers/stdin | bench/plans.py

bench/part.py texts < crates/answers/stdout prints the same.

It has times, events, domains, plan texts, and the bounds of a plan; bench/scripts.py has the rest of a script.
"""
import sys
from dataclasses import dataclass, field

HORIZON = 31_536_000_000
MOST_STEPS = 256
MOST_TEXT = 65_536
MOST_OPEN = 32
SPACES = (*range(9, 14), 32)
LOGIC = {"or", "imply", "forall", "exists", "when", "preference", "<", ">", "<=", ">=", "increase", "decrease", "assign", "scale-up", "scale-down"}
SKIPPED = (":requirements", ":types", ":constants", ":predicates")
KEYS = (":parameters", ":duration", ":condition", ":effect")


class Refused(Exception):
    """A refusal: its code, and its argument if it has one."""

    def __init__(self, code, argument=None):
        super().__init__(code)
        self.code = code
        self.argument = argument

    def __str__(self):
        return f"refused {self.code}" if self.argument is None else f"refused {self.code} {self.argument}"


def is_digits(text):
    return text.isascii() and text.isdigit()


def read_time(text):
    body = text.removeprefix("-")
    whole, point, part = body.partition(".")
    if not is_digits(whole) or (point and not is_digits(part)):
        raise Refused(1)
    if part[3:].strip("0"):
        raise Refused(2)
    millis = int(whole) * 1000 + int(part[:3].ljust(3, "0"))
    if millis > HORIZON:
        raise Refused(3)
    return -millis if text.startswith("-") else millis


def time_text(millis):
    return f"{'-' if millis < 0 else ''}{abs(millis) // 1000}.{abs(millis) % 1000:03}"


def event_text(number):
    return "z" if number == 0 else f"{'s' if number % 2 else 'e'}{(number + 1) // 2}"


EVENTS = {event_text(number): number for number in range(2 * MOST_STEPS + 1)}


@dataclass
class Tree:
    """A word or a list of trees, with the line that it begins on."""

    line: int
    word: str = ""
    trees: list = field(default_factory=list)

    def is_word(self, *words):
        return self.word.lower() in words if words else bool(self.word)

    def is_name(self):
        return self.word != "" and self.word[0] not in "?:"

    def head(self):
        """The first child, if it is a word."""
        return self.trees[0].word.lower() if self.trees else ""


def word_end(data, at):
    while at < len(data) and 33 <= data[at] <= 126 and data[at] not in b"();":
        at += 1
    return at


def comment_end(data, at):
    found = data.find(b"\n", at)
    return len(data) if found < 0 else found


def tree_of(data):
    if len(data) > MOST_TEXT:
        raise Refused(10)
    at, line, opened, root = 0, 1, [], None
    while at < len(data):
        byte, end = data[at], at + 1
        if byte == ord(";"):
            end = comment_end(data, at)
        elif byte == ord("("):
            if root:
                raise Refused(11, line)
            if len(opened) == MOST_OPEN:
                raise Refused(12, line)
            opened.append(Tree(line))
        elif byte == ord(")"):
            if not opened:
                raise Refused(11, line)
            closed = opened.pop()
            if opened:
                opened[-1].trees.append(closed)
            else:
                root = closed
        elif 33 <= byte <= 126 and opened:
            end = word_end(data, at)
            opened[-1].trees.append(Tree(line, data[at:end].decode()))
        elif byte not in SPACES:
            raise Refused(11, line)
        line += byte == ord("\n")
        at = end
    if opened or root is None:
        raise Refused(11, line)
    return root


@dataclass
class Action:
    """What an action of a domain says; an atom has the places of parameters as numbers."""

    name: str
    parameters: list = field(default_factory=list)
    duration: int = 0
    needed: dict = field(default_factory=lambda: {"start": [], "all": [], "end": []})
    added: dict = field(default_factory=lambda: {"start": [], "end": []})
    deleted: dict = field(default_factory=lambda: {"start": [], "end": []})


def domain_of(data):
    """The actions of a domain, by name."""
    root = tree_of(data)
    first, title = (root.trees + [Tree(0), Tree(0)])[:2]
    if not (first.is_word("define") and len(title.trees) == 2 and title.trees[0].is_word("domain") and title.trees[1].is_name()):
        raise Refused(11, root.line)
    actions = {}
    for part in root.trees[2:]:
        if part.head() == ":durative-action":
            action = action_of(part, actions)
            actions[action.name] = action
        elif part.head() not in SKIPPED:
            raise Refused(13 if part.head().startswith(":") else 11, part.line)
    return actions


def action_of(part, actions):
    if len(part.trees) < 2 or not part.trees[1].is_name():
        raise Refused(11, part.line)
    name = part.trees[1]
    if name.word.lower() in actions:
        raise Refused(15, name.line)
    values = values_of(part.trees[2:])
    if ":parameters" not in values or ":duration" not in values:
        raise Refused(11, part.line)
    action = Action(name.word.lower())
    action.parameters = parameters_of(values[":parameters"])
    action.duration = duration_of(values[":duration"])
    for key in (":condition", ":effect"):
        if key in values:
            Literals(action, key == ":effect").timed(values[key])
    return action


def values_of(trees):
    """The values of an action, by their keys."""
    values = {}
    for place in range(0, len(trees), 2):
        key = trees[place]
        if not key.word.startswith(":"):
            raise Refused(11, key.line)
        if not key.is_word(*KEYS):
            raise Refused(13, key.line)
        if key.word.lower() in values:
            raise Refused(15, key.line)
        if place + 1 == len(trees) or trees[place + 1].is_word():
            raise Refused(11, key.line)
        values[key.word.lower()] = trees[place + 1]
    return values


def parameters_of(value):
    names, trees = [], iter(value.trees)
    for tree in trees:
        if tree.is_word("-"):
            if next(trees, None) is None:
                raise Refused(11, tree.line)
        elif tree.word.startswith("?") and len(tree.word) > 1:
            if tree.word.lower() in names:
                raise Refused(15, tree.line)
            names.append(tree.word.lower())
        else:
            raise Refused(11, tree.line)
    return names


def duration_of(value):
    words = value.trees
    if len(words) != 3 or not words[0].is_word("=") or not words[1].is_word("?duration") or not words[2].is_word():
        raise Refused(13, value.line)
    try:
        duration = read_time(words[2].word)
    except Refused:
        raise Refused(14, words[2].line) from None
    if duration < 0:
        raise Refused(14, words[2].line)
    return duration


class Literals:
    """The literals of an action's condition or effect."""

    def __init__(self, action, effect):
        self.action = action
        self.effect = effect
        self.logic = LOGIC | {"="} if effect else LOGIC

    def timed(self, tree):
        if tree.is_word() or (tree.trees and not tree.head()):
            raise Refused(11, tree.line)
        if tree.head() in ("", "and"):
            for child in tree.trees[1:]:
                self.timed(child)
        elif self.label_of(tree):
            self.plain(tree.trees[2], self.label_of(tree))
        else:
            raise Refused(13 if tree.head() in self.logic else 11, tree.line)

    def label_of(self, tree):
        if len(tree.trees) != 3:
            return None
        label = tree.trees[1].word.lower()
        if tree.head() == "at" and label in ("start", "end"):
            return label
        return label if tree.head() == "over" and label == "all" and not self.effect else None

    def plain(self, tree, label):
        if tree.is_word() or (tree.trees and not tree.head()):
            raise Refused(11, tree.line)
        if tree.head() in ("", "and"):
            for child in tree.trees[1:]:
                self.plain(child, label)
        elif tree.head() == "not":
            self.negated(tree, label)
        elif tree.head() in self.logic:
            raise Refused(13, tree.line)
        else:
            self.literal(tree, label, False)

    def negated(self, tree, label):
        if len(tree.trees) != 2:
            raise Refused(11, tree.line)
        child = tree.trees[1]
        if child.is_word() or not child.head():
            raise Refused(11, child.line)
        if child.head() in self.logic | {"and", "not"}:
            raise Refused(13, child.line)
        self.literal(child, label, True)

    def literal(self, tree, label, negated):
        if tree.head() == "=" and not self.effect:
            if len(tree.trees) != 3:
                raise Refused(11, tree.line)
            for term in tree.trees[1:]:
                self.term(term)
            return
        if not tree.trees[0].is_name():
            raise Refused(11, tree.line)
        atom = (tree.head(), *(self.term(term) for term in tree.trees[1:]))
        if self.effect:
            (self.action.deleted if negated else self.action.added)[label].append(atom)
        else:
            self.action.needed[label].append(atom)

    def term(self, tree):
        """The place of a parameter, or a constant."""
        word = tree.word.lower()
        if not word:
            raise Refused(13, tree.line)
        if word.startswith(":"):
            raise Refused(11, tree.line)
        if not word.startswith("?"):
            return word
        if word not in self.action.parameters:
            raise Refused(16, tree.line)
        return self.action.parameters.index(word)


@dataclass
class Step:
    """A line of a plan: its words as they are spelled, and in small letters; the duration may be none."""

    time: int
    words: list
    action: str
    arguments: list
    duration: int


def tokens_of(line, number):
    """The tokens of a line of a plan: `:`, `(`, `)`, `[`, `]` and words."""
    tokens, in_word = [], False
    for byte in line.split(b";")[0]:
        if byte not in SPACES and not 33 <= byte <= 126:
            raise Refused(21, number)
        if byte in SPACES or byte in b":()[]":
            in_word = False
            if byte not in SPACES:
                tokens.append(chr(byte))
        elif in_word:
            tokens[-1] += chr(byte)
        else:
            in_word = True
            tokens.append(chr(byte))
    return tokens


def words_of_step(tokens, number):
    """The time, the words in round brackets, and the word in square brackets or none."""
    marks = [token if token in ":()[]" else "w" for token in tokens]
    bracket = tokens[-2] if marks[-3:] == ["[", "w", "]"] else None
    if bracket is not None:
        tokens, marks = tokens[:-3], marks[:-3]
    if marks[:4] != ["w", ":", "(", "w"] or marks[-1] != ")" or set(marks[4:-1]) - {"w"}:
        raise Refused(21, number)
    return tokens[0], tokens[3:-1], bracket


def step_of(tokens, number):
    time, words, bracket = words_of_step(tokens, number)
    try:
        time, duration = read_time(time), None if bracket is None else read_time(bracket)
    except Refused:
        raise Refused(22, number) from None
    if time < 0 or (duration or 0) < 0:
        raise Refused(23, number)
    action, *arguments = (word.lower() for word in words)
    return Step(time, words, action, arguments, duration)


def plan_of(data):
    if len(data) > MOST_TEXT:
        raise Refused(20)
    lines = enumerate(data.split(b"\n"), 1)
    tokens = ((tokens_of(line, number), number) for number, line in lines)
    steps = [step_of(line, number) for line, number in tokens if line]
    if len(steps) > MOST_STEPS:
        raise Refused(24)
    return steps


@dataclass
class Event:
    """What an event needs, adds and deletes, and when it is planned."""

    planned: int
    needed: set
    added: set
    deleted: set

    def interferes(self, other):
        ours, theirs = self.added | self.deleted, other.added | other.deleted
        return bool(self.needed & theirs or other.needed & ours or self.added & other.deleted or other.added & self.deleted)


def events_of(step, action):
    """The start and the end of a step."""

    def ground(atoms):
        return {tuple(step.arguments[term] if isinstance(term, int) else term for term in atom) for atom in atoms}

    for label, time in (("start", step.time), ("end", step.time + action.duration)):
        needed = action.needed[label] + action.needed["all"]
        yield Event(time, ground(needed), ground(action.added[label]), ground(action.deleted[label]))


def check_step(number, step, actions):
    if step.action not in actions:
        raise Refused(30, number)
    action = actions[step.action]
    if len(step.arguments) != len(action.parameters):
        raise Refused(31, number)
    if step.duration not in (None, action.duration):
        raise Refused(32, number)
    if step.time + action.duration > HORIZON:
        raise Refused(33, number)


def order_of(events, first, second):
    """The bound that keeps the order of two events."""
    gap = events[second].planned - events[first].planned
    if gap == 0:
        return first, second, 0, 0
    return (first, second, 1, HORIZON) if gap > 0 else (second, first, 1, HORIZON)


def horizon_bounds(events):
    return [(0, event, 0, HORIZON) for event in range(1, events + 1)]


def checked_steps(domain, plan):
    """The steps of a plan in a domain, and the actions of the domain."""
    actions, steps = domain_of(domain), plan_of(plan)
    for number, step in enumerate(steps, 1):
        check_step(number, step, actions)
    return steps, actions


def step_lines(domain, plan):
    """Each step: its number, its words as the plan spells them, its planned start and its duration."""
    steps, actions = checked_steps(domain, plan)
    times = [(time_text(step.time), time_text(actions[step.action].duration)) for step in steps]
    return [" ".join([str(number), *step.words, *pair]) for number, (step, pair) in enumerate(zip(steps, times), 1)]


def lifted(domain, plan):
    """The bounds of a plan in a domain, and the planned times of its events."""
    steps, actions = checked_steps(domain, plan)
    events = [Event(0, set(), set(), set())]
    for step in steps:
        events += events_of(step, actions[step.action])
    bounds = horizon_bounds(2 * len(steps))
    bounds += [(2 * place + 1, 2 * place + 2, *2 * (actions[step.action].duration,)) for place, step in enumerate(steps)]
    for first in range(1, len(events)):
        for second in range(first + 1 + first % 2, len(events)):
            if events[first].interferes(events[second]):
                bounds.append(order_of(events, first, second))
    return bounds, [event.planned for event in events]


def text_answer(row):
    """What is printed of a row: of a time 0, its milliseconds and its printed form; of a domain two zeros; of a plan 0 and the
    number of its steps; of a fault its code and its line, or 0. A heading stays as it is."""
    if row.startswith(b"="):
        return row.decode()
    if row.startswith(b"millis "):
        return time_text(int(row.removeprefix(b"millis ")))
    spaces = 0
    if row.startswith(b"padded "):
        _, count, row = row.split(b" ", 2)
        spaces = int(count)
    kind, text = row.removeprefix(b"hex ").split(b" ", 1)
    if row.startswith(b"hex "):
        text = bytes.fromhex(text.decode())
    else:
        text = text.replace(b"~", b"\n") + b" " * spaces
    try:
        if kind == b"time":
            millis = read_time(text.decode())
            return f"0 {millis} {time_text(millis)}"
        if kind == b"plan":
            return f"0 {len(plan_of(text))}"
        domain_of(text)
        return "0 0"
    except Refused as refused:
        return f"{refused.code} {refused.argument or 0}"


def lifted_answer(domain, plan):
    try:
        bounds, planned = lifted(domain, plan)
    except Refused as refused:
        code = refused.code if refused.code >= 30 else refused.code // 10 * 10
        return [f"refused {code} {refused.argument if code >= 30 else 0}"]
    lines = [f"{event_text(start)} {event_text(to)} {time_text(low)} {time_text(high)}" for start, to, low, high in bounds]
    return lines + [f"{event_text(event)} {time_text(time)}" for event, time in enumerate(planned)]


def main():
    if len(sys.argv) > 1:
        sys.exit(__doc__)
    domain = b""
    for row in sys.stdin.buffer.read().removesuffix(b"\n").split(b"\n"):
        kind, _, text = row.partition(b" ")
        if kind == b"with":
            domain = text.replace(b"~", b"\n")
        elif kind == b"lift":
            print("\n".join(lifted_answer(domain, text.replace(b"~", b"\n"))))
        else:
            print(text_answer(row))


if __name__ == "__main__":
    main()
