"""A log of a timed plan, in a program of yours: one `stn shell` that is asked line by line.

    with Shell("out/stn", "t.log", 1) as plan:
        plan.ask("done", "s1", time_text(2000))
        print(plan.ask("next", time_text(2500)))

A refusal is raised as `Refused`, and changes nothing. When a device or memory failed, `Failed` is raised and the shell has
ended: whether its last change is in the log, `records` in a new shell says. An answer may be waited for without end, as
while another program holds the log; a limit of your own is yours to set, by a thread or `kill`.
"""
import re
import subprocess


class Refused(Exception):
    """A command was refused, by this code; `place` is what the refusal names, if anything."""

    def __init__(self, code, place=""):
        super().__init__(f"refused {code} {place}".strip())
        self.code = code
        self.place = place


class Failed(Exception):
    """A device or memory failed, and the shell has ended."""


def time_text(millis):
    """A time in milliseconds, as the commands read it."""
    return f"{'-' if millis < 0 else ''}{abs(millis) // 1000}.{abs(millis) % 1000:03}"


def millis_of(text):
    """A time that was printed, in milliseconds; None for an open side, `*`."""
    if text == "*":
        return None
    millis = int(text.lstrip("-").replace(".", ""))
    return -millis if text.startswith("-") else millis


def refusal(lines):
    """The refusal that an answer is, or None. What `explain` prints of a refusal is none."""
    match = re.fullmatch(r"refused (\d+)(?: (.*))?", lines[0]) if lines else None
    return match and Refused(int(match[1]), match[2] or "")


class Shell:
    """One shell on the log of a site."""

    def __init__(self, program, log, site):
        words = [program, "shell", "--", str(log), str(site)]
        self.process = subprocess.Popen(words, stdin=subprocess.PIPE, stdout=subprocess.PIPE, text=True)

    def ask(self, *words):
        """The lines that a command prints. A negative time as a word of its own comes after the word `--`."""
        if any("\n" in str(word) for word in words):
            raise ValueError("a command is one line")
        if re.match(r"\s*(#|$)", " ".join(map(str, words))):
            raise ValueError("an empty line and a comment have no answer")
        lines = []
        try:
            print(*words, file=self.process.stdin, flush=True)
        except OSError:
            pass  # It has ended: what it printed last says why.
        for line in iter(self.process.stdout.readline, "\n"):
            if not line:
                raise refusal(lines) or Failed(" ".join(map(str, words)))
            lines.append(line.rstrip("\n"))
        refused = refusal(lines)
        if refused:
            raise refused
        return lines

    def end(self):
        """Ends the shell: its status, 0 where nothing was refused and nothing failed."""
        try:
            self.process.stdin.close()
        except OSError:
            pass  # It had ended before it read the last line.
        self.process.stdout.close()
        return self.process.wait()

    def __enter__(self):
        return self

    def __exit__(self, *_):
        self.end()
