#!/usr/bin/env python3
"""Writes the manual page docs/stn.1 from what the program's help says, as it is stored with the tests, and from tables of
docs/FORMATS.md. `docs/manual.py check` says whether that file is what it would write. `man -l docs/stn.1` shows it."""
import re
import sys
from pathlib import Path

TOP = Path(__file__).resolve().parent.parent
PAGE = TOP / "docs" / "stn.1"
FORMATS = (TOP / "docs" / "FORMATS.md").read_text(encoding="utf-8")
STORED = (TOP / "crates" / "command_lines" / "stdout").read_text(encoding="utf-8", errors="replace")


def helped(*words):
    """Returns the lines of the stored help, as parts between empty lines."""
    text = STORED.partition(f"> :told {' '.join(words)}\n")[2]
    lines = [it[4:] for it in re.match(r"(out\|.*\n)*", text)[0].splitlines()]
    return [it.split("\n") for it in "\n".join(lines).split("\n\n")]


def section(name):
    """Returns the text of a section of FORMATS."""
    return re.search(rf"(?ms)^## {name}\n(.*?)(?=^## |\Z)", FORMATS)[1]


def table(text, head):
    """Returns the rows of the table with these words at its head."""
    rows = re.search(rf"(?m)^\| {head} .*\n\|[-|]+\|\n((?:\|.*\n?)*)", text)[1]
    return [[cell.strip() for cell in row.strip().strip("|").split("|")] for row in rows.strip().split("\n")]


def plain(text):
    """Returns a text without the marks of Markdown."""
    return re.sub(r"\[([^]]*)\]\([^)]*\)", r"\1", text).replace("`", "").replace("**", "")


def roff(text):
    """Returns a text as man takes it: a line that begins with a point or a quote is none of its requests."""
    safe = plain(text).replace("\\", "\\e").replace("-", "\\-")
    return re.sub(r"(?m)^([.'])", r"\\&\1", safe)


def entries(rows):
    """Returns a list of words, each with what it means."""
    return "".join(f".TP\n.B {roff(name)}\n{roff(meaning)}\n" for name, meaning in rows)


def words_of(part):
    """Returns the rows of a part of the help: words, and after spaces what they mean."""
    return [re.match(r" *(\w+|.*?(?=  )) +(.*)", it).groups() for it in part[1:]]


def command(name, does):
    """Returns the section of a command. That of help itself is what the list of commands says of it."""
    if name == "help":
        return f".SS stn help [COMMAND]\n{roff(does)}.\n"
    about, usage, *parts = helped(name, "--help")
    rows = [it for part in parts if part[0] in ("Arguments:", "Options:") for it in words_of(part) if "--help" not in it[0]]
    notes = [it for part in parts if part[0] not in ("Arguments:", "Options:") for it in part]
    noted = f".PP\n.nf\n{chr(10).join(map(roff, notes))}\n.fi\n" if notes else ""
    return f".SS {roff(usage[0].removeprefix('Usage: '))}\n{roff(' '.join(about))}.\n{entries(rows)}{noted}"


def page():
    about, usage, commands, _, words, example, codes, *_ = helped("--help")
    version = helped("--version")[0][0]
    on_logs = section("Commands")
    drawn = [
        f'.TH STN 1 "" "{version}"',
        f".SH NAME\nstn \\- {roff(about[0][0].lower() + about[0][1:])}",
        f".SH SYNOPSIS\n.B stn\n.I COMMAND\n.RI [ WORDS .. ]\n.br\n.B stn\n.I COMMAND\n.B \\-\\-help",
        ".SH DESCRIPTION\n" + roff("Bounds say how much later one event of a plan comes than another. stn keeps them for each site in a file, the log; says "
              "when each event may happen, or which bounds contradict each other; and exchanges what the sites hold."),
        ".SH WORDS\n" + entries(words_of(words)).rstrip("\n"),
        ".SH COMMANDS\n" + "".join(command(*it) for it in words_of(commands)).rstrip("\n"),
        ".SH OUTPUT\n" + roff("A refusal is printed on the standard output, as refused and a number, and changes nothing. These are the numbers:")
        + "\n.PP\n.nf\n" + "\n".join(map(roff, codes[1:])) + "\n.fi\n.PP\nA fault is printed on the standard error:\n"
        + entries(table(on_logs, "Line \\| Cause")).rstrip("\n"),
        ".SH EXIT STATUS\n" + entries(table(on_logs, "Status")).rstrip("\n"),
        ".SH LIMITS\n" + roff(" ".join(section("Limits").split())),
        ".SH EXAMPLES\n.nf\n" + "\n".join(roff(it.strip()) for it in example[1:]) + "\n.fi",
        ".SH SEE ALSO\n" + roff("docs/GUIDE.md, on using it, and docs/FORMATS.md, on each form and each refusal. stn explain says what a refusal or a fault "
              "means, and what to do about it."),
    ]
    return "\n".join(drawn) + "\n"


def main():
    if sys.argv[1:] == ["check"]:
        return 0 if PAGE.read_text(encoding="utf-8") == page() else "docs/stn.1 is not what docs/manual.py writes"
    PAGE.write_text(page(), encoding="utf-8")
    return 0


if __name__ == "__main__":
    sys.exit(main())
