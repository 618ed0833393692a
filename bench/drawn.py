#!/usr/bin/env python3
"""Works out the pictures that the stored run of command_lines shows, from its rows and docs/FORMATS.md alone, and compares them.

usage: bench/drawn.py [ROWS OUTPUT]    those of crates/command_lines, if none are given

A picture's style sheets are left out: the lines that begin with `<style` and `<defs`. What is drawn, where it stands and what it
says has to be the same byte for byte. Windows are found by walks over all bounds, again and again, until nothing changes. For each
picture that differs its row and the first line that does are printed, and for each that has more than 2,500 bytes and 600 for each
step, its style sheets too but not the names of steps, its row and its size. The last line is `passed`, with the number of pictures.
"""
import re
import sys
from pathlib import Path

sys.dont_write_bytecode = True

from plans import EVENTS, HORIZON, event_text, lifted, plan_of, read_time, step_lines, time_text
from scripts import Plan, Site, bare_plan, named_cycle, read_id

COMMANDS = Path(__file__).resolve().parent.parent / "crates" / "command_lines"
HALF_YEAR = HORIZON // 2
SECOND, MINUTE, HOUR, DAY = 1000, 60_000, 3_600_000, 86_400_000
GAPS = [number * SECOND for number in (1, 2, 5, 10, 15, 30)] + [number * MINUTE for number in (1, 2, 5, 10, 15, 30)] + \
    [number * HOUR for number in (1, 2, 5, 10, 15)] + [number * DAY for number in (1, 2, 5, 10, 15, 30, 60, 150, 300)]
LEFT, WIDTH, ROW, TOP, LINK = 344, 540, 24, 54, 34
MOST_BYTES, MOST_BYTES_A_STEP = 2500, 600
NAMED = {"&": "&amp;", "<": "&lt;", ">": "&gt;", '"': "&quot;"}


def shown(text):
    return "".join(NAMED.get(char, char) for char in re.sub(r"[^ -~]", "?", text.decode("latin-1") if isinstance(text, bytes) else text))


def cut(text, most):
    return shown(text) if len(text) <= most else shown(text[:most - 1]) + "&#8230;"


def gap_of(before, after):
    return next(gap for gap in GAPS if -(-before // gap) + -(-after // gap) <= 10)


def unit_of(gap):
    return next((size, name) for size, name in ((DAY, "d"), (HOUR, "h"), (MINUTE, "min"), (SECOND, "s")) if gap >= size)


def farthest(links, events):
    """The greatest time of each event after the origin over all schedules; none, if there is none."""
    far = [0] + [HORIZON] * events
    for _ in range(events + 2):
        before = far[:]
        for start, to, most in links:
            far[to] = min(far[to], far[start] + most)
        if far == before:
            return far
    return None


def windows(bounds, events):
    """The earliest and the latest time of each event; none, if there is no schedule."""
    ahead = [link for start, to, low, high in bounds for link in ((start, to, high), (to, start, -low))]
    latest, earliest = farthest(ahead, events), farthest([(to, start, most) for start, to, most in ahead], events)
    return latest and [(-early, late) for early, late in zip(earliest, latest)]


class Chart:
    """The steps of a plan on an axis of time."""

    def __init__(self, site, title, names, now, arrows, owners):
        self.title, self.names, self.now, self.arrows, self.owners = title, names, now, arrows, owners
        self.steps, self.events = site.plan.steps, site.plan.events
        self.done = site.done_events()
        self.bounds = [(bound.start, bound.to, bound.low, bound.high) for bound in site.bounds()]
        left = [event for event in range(1, self.events + 1) if event not in self.done]
        floors = [(0, event, now, HORIZON) for event in left] if now is not None else []
        self.windows, self.overdue = windows(self.bounds + floors, self.events), None
        if self.windows is None:
            self.windows = windows(self.bounds, self.events)
            self.overdue = next((event for event in left if self.windows[event][1] < now), None)
        self.moment = max(now or 0, 0)
        reach = [self.windows[event][0 if self.is_open(event) else 1] for event in range(1, self.events + 1)]
        far = max(reach + [self.moment]) + 1
        self.gap = gap_of(0, far)
        self.end = self.gap * -(-far // self.gap)
        order = sorted(range(1, self.steps + 1), key=lambda step: (self.windows[2 * step - 1][0], step))
        self.rows = {step: row for row, step in enumerate(order)}

    def place(self, time):
        return LEFT + WIDTH * time // self.end

    def top(self, row):
        return TOP + ROW * row

    def is_open(self, event):
        """Whether an event counts as one without a latest time."""
        early, late = self.windows[event]
        return early < late and late > HALF_YEAR

    def window_text(self, event):
        early, late = self.windows[event]
        return time_text(early) + (" or later" if self.is_open(event) else f" to {time_text(late)}")

    def is_near(self, event):
        return not self.is_open(event) and 20 * (self.windows[event][1] - self.moment) < self.end

    def is_due(self, step):
        start, end = 2 * step - 1, 2 * step
        if self.now is None or {start, end} <= self.done:
            return False
        return self.is_near(end if start in self.done else start)

    def holder(self, step):
        """The event of another step that holds the start of a step: that of the first bound with one."""
        start, end = 2 * step - 1, 2 * step
        soonest = [early for early, _ in self.windows]
        for first, second, low, high in self.bounds:
            if first == start and second != end and second and soonest[second] - high == soonest[start]:
                return second
            if second == start and first != end and first and soonest[first] + low == soonest[start]:
                return first
        return 0

    def parts(self, step):
        """What the legend says of a step."""
        start, end = 2 * step - 1, 2 * step
        (soonest, latest), (ends, last) = self.windows[start], self.windows[end]
        begun, is_open = start in self.done, self.is_open(end)
        fixed = soonest == latest and ends == last
        found = {"cannot move" if fixed else "soonest"} if not begun else {"done" if end in self.done else "running"}
        if not is_open and ends < last and not self.is_due(step):
            found.add("may last until")
        if not begun and not self.is_open(start) and soonest < latest:
            found.add("latest start")
        return found | ({"due soon"} if self.is_due(step) else set()) | ({"no latest time"} if is_open else set())

    def row(self, step):
        start, end = 2 * step - 1, 2 * step
        parts, top, site = self.parts(step), self.top(self.rows[step]), self.owners.get(step, 0)
        middle, base = top + 12, top + 16
        named = step <= len(self.names)
        name = self.names[step - 1] if named else f"step {step}"
        text = f"<g><title>{step} {shown(name)}: starts {self.window_text(start)}, ends {self.window_text(end)}</title>" \
            f"<text class='s e' x='24' y='{base}'>{step}</text><text class='n' x='32' y='{base}'>{cut(name, 46)}</text>\n"
        own = f"a o{site % 6}" if site else "a"
        kind = next((kind for part, kind in (("done", "d"), ("running", "r"), ("cannot move", "f")) if part in parts), own)
        left, right = self.place(self.windows[start][0]), self.place(self.windows[end][0])
        last = self.windows[end][1]
        text += f"<path class='{kind}' d='M{left} {middle}h{max(2, right - left)}'/>"
        if self.is_open(end):
            text += f"<rect fill='url(#j)' x='{right}' y='{middle - 3}' width='{LEFT + WIDTH - right}' height='6'/>"
        else:
            due = self.is_due(step)
            if self.windows[end][0] < last:
                text += f"<path class='{'l' if due else 'p'}' d='M{right} {middle}h{self.place(last) - right}'/>"
            text += f"<text class='{'s w' if due else 's'}' x='{max(self.place(last), left + 2) + 5}' y='{base}'>{time_text(last)}</text>"
        if "latest start" in parts:
            text += f"<path class='{'c' if self.is_due(step) else 'k'}' d='M{self.place(self.windows[start][1])} {top + 4}v16'/>"
        if site:
            text += f"<text class='s e' x='992' y='{base}'>{site}</text>"
        return text + self.arrow(step, left, top) + "</g>\n"

    def arrow(self, step, left, top):
        holder = 0 if 2 * step - 1 in self.done or not self.arrows else self.holder(step)
        if not holder:
            return ""
        begins, other = self.place(self.windows[holder][0]), self.top(self.rows[(holder + 1) // 2])
        line = (other + 18, top, "v6") if other < top else (other + 6, top + ROW, "v-6")
        return f"<path class='v' d='M{begins} {line[0]}V{line[1]}H{left}{line[2]}'/>"

    def legend(self):
        base, left, text = self.top(self.steps) + 44, 32, ""
        occur = set().union(*(self.parts(step) for step in range(1, self.steps + 1)))
        bars = {"soonest": "a", "may last until": "p", "cannot move": "f", "done": "d", "running": "r", "due soon": "l"}
        for part in ("soonest", "may last until", "latest start", "cannot move", "done", "running", "due soon", "no latest time"):
            if part not in occur:
                continue
            if part == "latest start":
                text += f"<path class='k' d='M{left + 9} {base - 12}v16'/>"
            elif part in bars:
                text += f"<path class='{bars[part]}' d='M{left} {base - 4}h18'/>"
            else:
                text += f"<rect fill='url(#j)' x='{left}' y='{base - 7}' width='18' height='6'/>"
            text += f"<text class='s' x='{left + 24}' y='{base}'>{part}</text>\n"
            left += 120
        return text

    def text(self):
        ticks, end, height = range(self.end // self.gap + 1), self.top(self.steps), self.top(self.steps) + 64
        size, unit = unit_of(self.gap)
        count = [sum(part in self.parts(step) for step in range(1, self.steps + 1)) for part in ("done", "running")]
        late = f", <tspan class='w'>overdue {event_text(self.overdue)}</tspan>" if self.overdue else ""
        now = f", now {time_text(self.now)}" if self.now is not None else ""
        text = opening(self.title, height, self.top(1), end)
        text += f"<text class='s e' x='992' y='20'>{count[0]} of {self.steps} steps done, {count[1]} running{late}{now}</text>\n"
        text += "<path class='g' d='" + "".join(f"M{self.place(self.gap * tick)} 50V{end}" for tick in ticks) + "'/>\n<text class='s m' y='44'>"
        text += "".join(f"<tspan x='{self.place(self.gap * tick)}'>{self.gap * tick // size}{'' if tick else ' ' + unit}</tspan>" for tick in ticks)
        text += "</text>\n" + "".join(self.row(step) for step in range(1, self.steps + 1))
        if self.now is not None:
            left = self.place(self.moment)
            text += f"<path class='c' d='M{left} 48V{end + 4}'/><text class='m w' x='{left}' y='{end + 16}'>now</text>\n"
        return text + self.legend() + "</svg>\n"


def opening(title, height, second, end):
    """What stands before the rows, but for the style sheets."""
    return f"<svg xmlns='http://www.w3.org/2000/svg' viewBox='0 0 1000 {height}' role='img'>\n<title>{shown(title)}</title>\n" \
        f"<rect class='z' width='1000' height='{height}'/>\n<path class='y' d='M500 {second}V{max(second, end)}'/>\n" \
        f"<text class='t' x='8' y='20'>{cut(title, 60)}</text>\n"


class Walk:
    """The links of a conflict, one after the other."""

    def __init__(self, site, title, names):
        self.title, self.names, self.steps = title, names, site.plan.steps
        table, culprit = site.judged()
        self.links = named_cycle(table, site.bounds(), culprit)
        self.repairs = {words[0]: (words[3], words[4]) for words in map(str.split, site.repairs()) if words[0] != "drop"}
        self.sums = [sum(link.weight for link in self.links[:count]) for count in range(len(self.links) + 1)]
        before, after = max(0, -min(self.sums)), max(0, *self.sums)
        self.gap = gap_of(before, after)
        self.before, self.after = -(-before // self.gap), -(-after // self.gap)

    def place(self, time):
        return 500 + 440 * (time + self.gap * self.before) // max(self.gap * (self.before + self.after), 1)

    def step_text(self, step, most):
        return f"{step} {cut(self.names[step - 1], most)}" if step <= len(self.names) else f"step {step}"

    def asked(self, link, most):
        bound = link.bound
        limit = f" at most {time_text(bound.high)}" if link.side == "upper" else f" at least {time_text(bound.low)}"
        if bound.to == bound.start + 1 and bound.to % 2 == 0:
            return self.step_text(bound.to // 2, most) + limit
        return f"{event_text(bound.to)}{limit} after {event_text(bound.start)}"

    def row(self, number, link):
        top, bound = TOP + LINK * number, link.bound
        left, right = self.place(self.sums[number]), self.place(self.sums[number + 1])
        names = "".join(f"{event_text(event)}: {self.step_text((event + 1) // 2, 200)}\n" for event in (bound.start, bound.to) if event)
        text = "<g>" + (f"<title>{names}</title>" if self.names else "") + \
            f"<text class='h' x='8' y='{top + 15}'>{bound.name} {link.side}</text>" \
            f"<text class='n' x='124' y='{top + 15}'>{self.asked(link, 24)}</text>\n"
        if bound.name in self.repairs:
            least, greatest = self.repairs[bound.name]
            leaves = f"{least} or more" if link.side == "upper" else f"{greatest} or less"
            text += f"<text class='j' x='124' y='{top + 29}'>alone mends it: {leaves}</text>\n"
        text += f"<text x='{left + 8}' y='{top + 21}'>" if right < left else f"<text class='e' x='{left - 8}' y='{top + 21}'>"
        arrow = f"path d='M{left} {top + 17}H{right}'" if abs(right - left) >= 9 else f"circle class='x' cx='{left}' cy='{top + 17}' r='3'"
        return text + f"{event_text(link.begins)}</text><{arrow}/></g>\n"

    def text(self):
        count, gap = len(self.links), self.gap
        top, end, first = TOP + LINK * count, TOP + LINK * (count + 1), event_text(self.links[0].begins)
        size, unit = unit_of(gap)
        ticks = range(-self.before, self.after + 1)
        text = opening(self.title, end + 36, TOP + LINK, end)
        text += f"<text class='s e' x='992' y='20'>{count} bounds contradict each other by {time_text(-self.sums[-1])} s</text>\n"
        text += "<path class='g' d='" + "".join(f"M{self.place(gap * tick)} 50V{end}" for tick in ticks) + "'/>\n<text class='s m' y='44'>"
        text += "".join(f"<tspan x='{self.place(gap * tick)}'>{'-' if tick < 0 else ''}{gap * abs(tick) // size}{'' if tick else ' ' + unit}</tspan>" for tick in ticks)
        drops = "".join(f"M{self.place(self.sums[number + 1])} {TOP + LINK * number + 21}v26" for number in range(count))
        text += f"</text>\n<path class='o' d='{drops}'/>\n" + "".join(self.row(number, link) for number, link in enumerate(self.links))
        left, right = self.place(self.sums[-1]), self.place(0)
        text += f"<text class='h w' x='8' y='{top + 15}'>{first} would be {time_text(-self.sums[-1])} before itself</text>"
        text += f"<path class='c' d='M{left} {top + 10}v14M{right} {top + 10}v14M{left} {top + 17}H{right}'/>"
        text += f"<text class='e' x='{left - 8}' y='{top + 21}'>{first}</text>\n"
        text += f"<text class='s' x='8' y='{end + 24}'>From row to row: the latest time of the next event, where {first} is at 0.</text>\n"
        return text + "</svg>\n"


class Rows:
    """What the rows before have made: the texts, and the logs, but for those that another row than a change has touched, with the names of their steps."""

    def __init__(self):
        self.texts, self.logs = {}, {}
        for path in (COMMANDS / "data").iterdir():
            self.texts[path.name] = path.read_bytes()

    def option(self, words, name):
        joined = [word.split("=", 1)[1] for word in words if word.startswith(f"--{name}=")]
        return joined + [after for word, after in zip(words, words[1:]) if word == f"--{name}"]

    def do(self, words, status):
        """Makes what a row makes that was done, as far as a picture may need it."""
        name = words[0]
        if name == ":text":
            self.texts[words[1]] = self.texts.get(words[1], b"") + "".join(line + "\n" for line in " ".join(words[2:]).split("|")).encode()
        elif name.startswith(":"):
            for word in words:
                self.logs.pop(word, None)
        elif status != 0 or len(words) < 3:
            return
        elif name == "bare":
            self.logs[words[1]] = Site(int(words[2]), bare_plan(int(words[3]))), []
        elif name == "init" and {words[3], words[4]} <= self.texts.keys():
            texts = self.texts[words[3]], self.texts[words[4]]
            site = Site(int(words[2]), Plan(step_lines(*texts), lifted(*texts)[0]))
            self.logs[words[1]] = site, names_of(texts[1])
        elif words[1] in self.logs:
            self.change(words[1], name, words)

    def change(self, log, name, words):
        site = self.logs[log][0]
        site.number = int(words[2])
        low, high = (self.option(words, side) for side in ("lo", "hi"))
        sides = read_time(low[0]) if low else -HORIZON, read_time(high[0]) if high else HORIZON
        if name == "add":
            site.add(EVENTS[words[3]], EVENTS[words[4]], *sides)
        elif name == "amend":
            site.amend(read_id(words[3]), EVENTS[words[4]], EVENTS[words[5]], *sides)
        elif name == "done":
            site.done(EVENTS[words[3]], read_time(words[4]))
        elif name == "withdraw" and read_id(words[3]) in site.known():
            site.withdraw(read_id(words[3]))
        elif name in ("withdraw", "merge", "guard", "send"):
            del self.logs[log]

    def picture(self, words):
        """What a row asks for; none of a log whose rows are not followed here."""
        if words[1] not in self.logs:
            return None
        site, names = self.logs[words[1]]
        plan, now, arrows, owned = (self.option(words, name) for name in ("plan", "now", "arrows", "own"))
        if plan:
            names = names_of(self.texts[plan[0]])
        if site.judged()[1]:
            return Walk(site, words[1], names)
        owners = {}
        for one in owned:
            number, steps = one.split(":")
            for part in steps.split(","):
                first, _, last = part.partition("-")
                owners.update({step: int(number) for step in range(int(first), int(last or first) + 1)})
        return Chart(site, words[1], names, read_time(now[0]) if now else None, arrows != ["no"], owners)


def names_of(plan):
    return [" ".join(step.words) for step in plan_of(plan)]


def bytes_of_names(picture):
    """How many bytes of a picture are names of steps."""
    whole, picture.names = len(picture.text()), [""] * len(picture.names)
    return whole - len(picture.text())


def without_styles(text):
    return "".join(line for line in text.splitlines(True) if not line.startswith(("<style", "<defs")))


def main():
    names = sys.argv[1:] or [COMMANDS / "stdin", COMMANDS / "stdout"]
    lines = Path(names[0]).read_text().splitlines()
    answers = re.split(r"^> .*\n", Path(names[1]).read_text(), flags=re.M)[1:]
    rows, wrong, compared, skipped = Rows(), 0, 0, []
    for line, answer in zip(lines, answers, strict=True):
        words, status = line.split(), re.search(r"^status ([0-9]+)\n\Z", answer, re.M)
        if words and words[0] == "draw" and answer.startswith("<svg"):
            picture, given = rows.picture(words), answer[:status.start()]
            if picture:
                compared += 1
                wrong += not is_drawn(line, picture, given)
            else:
                skipped.append(line)
        elif words:
            rows.do(words, int(status[1]) if status else 0)
    for line in skipped:
        print("not followed:", line)
    print(f"{wrong} differ or are too large" if wrong else f"passed: {compared} pictures")
    return 1 if wrong else 0


def is_drawn(line, picture, given):
    """Whether a row has this picture, and it isn't too large."""
    expected, drawn = picture.text(), without_styles(given)
    if expected != drawn:
        pairs = zip(expected.splitlines() + [None], drawn.splitlines() + [None])
        print(line, *next(pair for pair in pairs if pair[0] != pair[1]), sep="\n  ")
    size, most = len(given) - bytes_of_names(picture), MOST_BYTES + MOST_BYTES_A_STEP * picture.steps
    if size > most:
        print(line, f"{size} bytes beside names, of {most}", sep="\n  ")
    return expected == drawn and size <= most


if __name__ == "__main__":
    sys.exit(main())
