#!/usr/bin/env python3
"""Compares the questions about a plan with its reports and with `next`, after each line of the worked scripts.

usage: bench/questions.py PROGRAM

After each command of the scripts in `examples/`, every site is asked for its report, for `why` of every event, and for
`next` and `ready` at some times. The links of `why` have to form a chain from the event to the origin, or back, whose sum
is the end of the window. After the last command each site is also asked for `why` of each pair of events: the range of their
difference has to be that of the second one's window on a copy that fixes the first one at its earliest time and then at its
latest, both taken together; and the links have to form chains from each to the other whose sums are its ends. The first line of `ready` has to say what `next` says. Where the report names a conflict, `repairs`
has to list the records whose withdrawal alone leads to `ok`, each with the least and the greatest time that can then be added
between its events, and to drop records whose withdrawal does, but not if one of them stays. The last line printed is `passed`,
with the number of comparisons; if something differs, it is printed, and the status is 1.
"""
import re
import subprocess
import sys
from pathlib import Path

TOP = Path(__file__).resolve().parent.parent

HORIZON = 31_536_000_000


def run(program, script):
    return subprocess.run([program, "run"], input=script.encode(), capture_output=True, check=False).stdout.decode().splitlines()


def ms(word):
    whole, part = word.lstrip("-").split(".")
    size = int(whole) * 1000 + int(part)
    return -size if word.startswith("-") else size


def prefixes(text):
    """The heading of a script with the first so many of its commands, for each such number, and how many sites there are."""
    lines = text.splitlines()
    place = next(number for number, line in enumerate(lines) if line.startswith("sites "))
    sites = int(lines[place].split()[1])
    for end in range(place + 1, len(lines) + 1):
        yield "\n".join(lines[:end]) + "\n", sites


def chain_sum(links, begin, end):
    """The sum of a chain of links from one event to another, or None where they are no chain."""
    at, total = begin, 0
    for name, side, start, to, bound in links:
        first, last = (start, to) if side == "upper" else (to, start)
        if first != at:
            return None
        at, total = last, total + (ms(bound) if side == "upper" else -ms(bound))
    return total if at == end else None


def why_agrees(lines, window):
    """Whether an answer to `why` begins with the line of the report, and its chains give the window's ends."""
    if lines[0] != window:
        return False
    event, least, most = window.split()[:3]
    middle = next((number for number, line in enumerate(lines) if line.startswith("latest ")), 0)
    back, there = ([line.split() for line in part] for part in (lines[2:middle], lines[middle + 1:]))
    return (lines[1], lines[middle]) == (f"earliest {least}", f"latest {most}") and \
        chain_sum(back, event, "z") == -ms(least) and chain_sum(there, "z", event) == ms(most)


def apart_agrees(lines, start, to, least, most):
    """Whether an answer to `why` of two events has this range of their difference, and its chains give the ends."""
    middle = next((number for number, line in enumerate(lines) if line.startswith("greatest ")), 0)
    back, there = ([line.split() for line in part] for part in (lines[2:middle], lines[middle + 1:]))
    return lines[0] == f"{start} {to} {text(least)} {text(most)}" and \
        (lines[1], lines[middle]) == (f"least {text(least)}", f"greatest {text(most)}") and \
        chain_sum(back, to, start) == -least and chain_sum(there, start, to) == most


def windows_in(report):
    """The window of each event and of the origin, in a report of a site whose bounds have a schedule."""
    return {"z": (0, 0)} | {words[0]: (ms(words[1]), ms(words[2])) for words in map(str.split, report) if re.fullmatch(r"[se]\d+", words[0])}


def ranges_after(program, script, site, start, times):
    """The least and the greatest difference of each event to one, on copies that fix this one at some times."""
    found = {}
    for time in times:
        fixed = "" if start == "z" else f"{site} add z {start} {text(time)} {text(time)}\n"
        (report,) = answers(program, script + fixed, [f"{site} report"])
        for event, (least, most) in windows_in(report).items():
            low, high = found.get(event, (least - time, most - time))
            found[event] = (min(low, least - time), max(high, most - time))
    return found


def ready_agrees(ready, following):
    """Whether the first line of `ready` says what `next` says."""
    words = following.split()
    return ready[0].split()[:2] == [words[2], words[1]] if words[0] == "run" else ready == [following]


def answers(program, script, questions):
    """The answer of each question, the last lines of a script, each between two lines that are refused."""
    text = script + "".join(f"?\n{question}\n" for question in questions) + "?\n"
    printed = run(program, text)[len(run(program, script)):]
    marks = [place for place, line in enumerate(printed) if re.fullmatch(r"refused 70 \d+", line)]
    return [printed[place + 1:end] for place, end in zip(marks, marks[1:])]


def is_ok(program, script, site, *commands):
    """Whether the site's bounds have a schedule after further commands."""
    text = script + "".join(f"{site} {command}\n" for command in commands)
    return "ok" in answers(program, text, [f"{site} report"])[0]


def is_range(program, script, site, words):
    """Whether the two times of a line of `repairs` are the least and the greatest that its events can be apart without the record."""
    name, start, to, least, greatest = words
    gone = f"withdraw {name}"
    inner = [f"add {start} {to} {time} {time}" for time in (least, greatest)]
    outer = [f"add {start} {to} * {text(ms(least) - 1)}", f"add {start} {to} {text(ms(greatest) + 1)} *"]
    return all(is_ok(program, script, site, gone, line) for line in inner) and \
        not any(is_ok(program, script, site, gone, line) for line, end in zip(outer, (least, greatest)) if abs(ms(end)) < HORIZON)


def text(time):
    return f"{'-' if time < 0 else ''}{abs(time) // 1000}.{abs(time) % 1000:03}"


def repairs_agree(program, script, site, lines):
    """Whether the answer to `repairs` in a conflict is what trying each withdrawal on a copy gives."""
    listed, dropped = [line.split() for line in lines[:-1]], lines[-1].split()[1:]
    (records,) = answers(program, script, [f"{site} records"])
    live = [words[0] for words in map(str.split, records) if len(words) > 4 and not {"withdrawn", "replaced"} & set(words)]
    gone = [f"withdraw {name}" for name in dropped]
    return [words[0] for words in listed] == [name for name in live if is_ok(program, script, site, f"withdraw {name}")] and \
        all(is_range(program, script, site, words) for words in listed) and is_ok(program, script, site, *gone) and \
        not any(is_ok(program, script, site, *gone[:place], *gone[place + 1:]) for place in range(len(gone)))


def compare(program, script, site):
    """How many questions were compared with the report of a site, and those that differ."""
    report, repairs = answers(program, script, [f"{site} report", f"{site} repairs"])
    windows = [line for line in report if re.match(r"[se]\d+ ", line)] if "ok" in report else []
    times = ["0.000", *(time for line in windows[:12] for time in line.split()[1:3])]
    asked = [f"{site} why {line.split()[0]}" for line in windows] + [f"{site} {word} {time}" for time in times for word in ("next", "ready")]
    given = answers(program, script, asked)
    wrong = [asked[place] for place, line in enumerate(windows) if not why_agrees(given[place], line)]
    pairs = range(len(windows), len(asked), 2)
    wrong += [asked[place + 1] for place in pairs if not ready_agrees(given[place + 1], given[place][0])]
    if not (repairs == ["ok"] if "ok" in report else repairs_agree(program, script, site, repairs)):
        wrong.append(f"{site} repairs")
    return len(windows) + len(pairs) + 1, wrong


def compare_pairs(program, script, site):
    """How many answers to `why` of two events were compared with the windows after fixing the first, and those that differ."""
    (report,) = answers(program, script, [f"{site} report"])
    windows = windows_in(report) if "ok" in report else {}
    count, wrong = 0, []
    for start, ends in windows.items():
        ranges = ranges_after(program, script, site, start, ends)
        others = [event for event in windows if event != start]
        given = answers(program, script, [f"{site} why {start} {event}" for event in others])
        wrong += [f"{site} why {start} {event}" for event, lines in zip(others, given) if not apart_agrees(lines, start, event, *ranges[event])]
        count += len(others)
    return count, wrong


def compare_all(program, text):
    """For each site after each command of a script: the number of lines so far, how many were compared, and those that differ."""
    for script, sites in prefixes(text):
        for site in range(1, sites + 1):
            yield len(script.splitlines()), *compare(program, script, site)
    for site in range(1, sites + 1):
        yield len(script.splitlines()), *compare_pairs(program, script, site)


def main():
    if len(sys.argv) != 2:
        sys.exit(__doc__)
    program = Path(sys.argv[1]).resolve()
    count, failed = 0, False
    for path in sorted((TOP / "examples").glob("*.stn")):
        for lines, more, wrong in compare_all(program, path.read_bytes().decode()):
            count += more
            for question in wrong:
                failed = True
                print(f"{path.name}, after {lines} lines: {question}")
    print(f"{count} comparisons")
    print("failed" if failed else "passed")
    return 1 if failed else 0


if __name__ == "__main__":
    sys.exit(main())
