#!/usr/bin/env python3
"""Draws the crates, from crates.txt: each above those that it stands on, with a line down to each of these that no other of
them stands on. `docs/house.py` writes docs/house.svg; `docs/house.py check` says whether that file is what it would write."""
import os
import re
import sys

TOP = os.path.dirname(os.path.dirname(os.path.realpath(__file__)))
TESTS = {"answers", "command_lines", "stn_examples", "stn_refusing"}
WIDTH, ROW, BOX, HIGH, GAP = 960, 76, 104, 30, 14
STYLE = """<style>
text { font: 13px sans-serif; text-anchor: middle; fill: #1b1f24 }
rect { fill: #e8f0fa; stroke: #2f6db5 }
path { fill: none; stroke: #8a949e }
@media (prefers-color-scheme: dark) { text { fill: #e6edf3 } rect { fill: #16263a; stroke: #79b0f2 } path { stroke: #6e7781 } }
</style>"""


def crates():
    """Returns the crates of the program, each with those of the repository that crates.txt names for it."""
    with open(f"{TOP}/crates.txt", encoding="utf-8") as it:
        named = {name: words.split() for name, words in re.findall(r"(?m)^(\w+):(.*)$", it.read())}
    return {name: [it for it in below if it in named] for name, below in named.items() if name not in TESTS}


def all_below(below, name):
    """Returns all crates that a crate stands on."""
    return {deep for it in below[name] for deep in {it, *all_below(below, it)}}


def nearest(below, name):
    """Returns the crates that a crate stands on, without those that another of them stands on."""
    deep = {it for near in below[name] for it in all_below(below, near)}
    return [it for it in below[name] if it not in deep]


def level(below, name):
    return max((1 + level(below, it) for it in below[name]), default=0)


def lines_of(below):
    """Returns each line, from a crate down to one that it stands on: a place in each row between, by the two crates and the level."""
    for name in below:
        for under in nearest(below, name):
            between = [(name, under, at) for at in range(level(below, name) - 1, level(below, under), -1)]
            yield [(name,), *between, (under,)]


def rows(below):
    """Returns what lies on each level, crates and places of lines, the lowest first. In each row the order is that of the middle
    of what lies next to it: first in the row below, then in the row above, and so on."""
    layers = [[(it,) for it in below if level(below, it) == at] for at in range(1 + max(level(below, it) for it in below))]
    down, up = {}, {}
    for line in lines_of(below):
        for place in line[1:-1]:
            layers[place[2]].append(place)
        for high, low in zip(line, line[1:]):
            down.setdefault(high, []).append(low)
            up.setdefault(low, []).append(high)
    for turn in range(24):
        beside = up if turn % 2 else down
        for at in range(len(layers)) if beside is down else reversed(range(len(layers))):
            x = {it: middle for row in layers for it, middle in middles(row).items()}
            wish = {it: sum(x[near] for near in beside[it]) / len(beside[it]) if it in beside else x[it] for it in layers[at]}
            layers[at].sort(key=lambda it: (wish[it], it))
    return layers, down


def middles(row):
    """Returns where the middle of each part of a row lies; a line takes less room than a crate."""
    wide = [BOX + 3 * GAP if len(it) == 1 else 2 * GAP for it in row]
    left, found = (WIDTH - sum(wide)) / 2, {}
    for it, width in zip(row, wide):
        found[it], left = left + width / 2, left + width
    return found


def picture(below):
    layers, down = rows(below)
    height = ROW * len(layers)
    x = {it: round(middle) for row in layers for it, middle in middles(row).items()}
    y = {it: ROW * at + ROW // 2 for at, row in enumerate(reversed(layers)) for it in row}
    drawn = [f'<svg xmlns="http://www.w3.org/2000/svg" viewBox="0 0 {WIDTH} {height}">', STYLE]
    for high, lows in down.items():
        for low in lows:
            (a, b), (c, d) = (x[high], y[high]), (x[low], y[low])
            drawn.append(f'<path d="M{a} {b}C{a} {b + ROW // 2} {c} {d - ROW // 2} {c} {d}"/>')
    for it in (it for row in layers for it in row if len(it) == 1):
        at = f'x="{x[it] - BOX // 2}" y="{y[it] - HIGH // 2}" width="{BOX}" height="{HIGH}" rx="4"'
        drawn.append(f'<rect {at}/><text x="{x[it]}" y="{y[it] + 4}">{it[0]}</text>')
    return "\n".join([*drawn, "</svg>", ""])


def main():
    drawn, path = picture(crates()), f"{TOP}/docs/house.svg"
    if sys.argv[1:] == ["check"]:
        with open(path, encoding="utf-8") as it:
            return 0 if it.read() == drawn else "docs/house.svg is not what docs/house.py draws"
    with open(path, "w", encoding="utf-8") as it:
        it.write(drawn)
    return 0


if __name__ == "__main__":
    sys.exit(main())
