#!/usr/bin/env python3
"""Looks up what the documents show and name: each listing in what the gate runs, each link, each path of the repository, each
name of PROMISES.md in the crates, and the numbers of refusals in their table.

usage: docs/listings.py

A listing is a fenced block of README.md or of the guide. Its lines have to stand one after the other in a script that the
gate runs, or in what such a script prints, as both are stored with the programs of tests; lines `$ stn ..` and what they
print, in what the program of command lines prints. A listing with a line `..` leaves out lines there. Passed over are
listings for a shell (`sh`), and those of two terminals (`console`), whose two ends a program of tests runs. Clauses and
definitions (`antt`) have to stand in a source, but their lines may be broken elsewhere.

A link has to lead to a file, and where it names an anchor, to a heading of it. A path begins at the top, at a crate or at a
folder of a crate, and a file of `specs/` and `proofs/` is also named without its ending; a name alone is that of some file.

A name is a word in backticks, perhaps after its crate, its module or its type, as in `Type::name`. PROMISES.md, and what
README.md says of proofs, name functions, types, traits, constants, what a trait says of its types, definitions,
crates, and clauses of the functions that the same item names before; the parentheses after a function list clauses. In
PROMISES.md the section of a crate has to name each function with a clause that another crate can call: `pub`, and handed on
by `lib.rt`, or of a type or trait that is.

The table of crates in READING.md has a row for each.

The help of the program and FORMATS.md list the numbers of all refusals: just those of the table that the proofs cite.
"""
import os
import re
import sys
from collections import namedtuple
from pathlib import Path

TOP = Path(__file__).resolve().parent.parent
CRATES = TOP / "crates"
README = TOP / "README.md"
READING = TOP / "docs" / "READING.md"
LISTED = [README, TOP / "docs" / "GUIDE.md", READING]
HELP = CRATES / "stn_line" / "src" / "help.rt"
FORMATS = TOP / "docs" / "FORMATS.md"
DOCUMENTS = [README, TOP / "CHANGELOG.md", *sorted((TOP / "docs").glob("*.md")), TOP / "bench" / "README.md"]
PROMISES = TOP / "docs" / "PROMISES.md"
CRATE_NAMES = {crate.name for crate in CRATES.iterdir()}
OF_TESTS = {"answers", "command_lines", "stn_examples", "stn_refusing"}
HEAD = re.compile(r"^(?P<end>\}|\});?$|^(?:pub )?(?:unsafe )?(?P<kind>impl|trait)\b(?P<owner>[^{]*)\{"
                  r"|^ *(?P<pub>pub )?(?:pub\(crate\) )?(?:unsafe )?fn (?P<name>\w+)", re.M)
END_OF_HEAD = re.compile(r"(?:\b(?P<what>ensures|requires|decreases)(?: (?P<clause>\w+))? )?\{|;\n")
SPAN = re.compile(r"(?<=` )\((?P<clauses>`\w+`(?:,\s+`\w+`)*)\)|`(?P<name>[A-Za-z_]\w*(?:::\w+)*)`")
CRATE_ROW = re.compile(r"^\| `(\w+)` \|.*\|$", re.M)
LINK = re.compile(r"\]\(([^()\s]+)\)")
PATH = re.compile(r"(?<![\w./~-])(?:\./)?[\w.-]+(?:/[\w.-]*)+|(?<![\w./-])[\w-]+\.(?:md|py|antt|rt)\b")


def lines_of(path):
    return path.read_text(encoding="utf-8", errors="replace").splitlines()


def listings(path, kinds=("```",)):
    """The fenced blocks of these kinds of a document, with the numbers of their first lines."""
    block, begins, kind = None, 0, ""
    for number, line in enumerate(lines_of(path), 1):
        if line.startswith("```"):
            if block is None:
                block, begins, kind = [], number + 1, line
            else:
                if kind in kinds:
                    yield begins, block
                block = None
        elif block is not None:
            block.append(line)


def parts(block):
    """The runs of lines between the lines `..`, and the command lines, each with what it prints."""
    part = []
    for line in block + [".."]:
        if line == ".." or line.startswith("$ stn "):
            if part:
                yield part
            part = []
        if line.startswith("$ stn "):
            part = ["> " + line.removeprefix("$ stn ")]
        elif line != "..":
            part.append(line)


def stands_in(part, text):
    return any(text[place:place + len(part)] == part for place in range(len(text) - len(part) + 1))


def not_run():
    """The listings that the gate doesn't run."""
    stored = [lines_of(path) for crate in CRATES.iterdir() for name in ("stdin", "stdout") for path in [crate / name] if path.exists()]
    stored += [lines_of(path) for path in sorted((CRATES / "answers" / "data").iterdir()) if path.is_file()]
    for document in LISTED:
        for begins, block in listings(document):
            for part in parts(block):
                if not any(stands_in(part, text) for text in stored):
                    yield document, begins, f"not run by the gate: {part[0]}"


def on_one_line(text):
    """A text of a source without the breaks of its lines, and without the `--` of its comments."""
    return " ".join(word for word in text.split() if word != "--")


def shown_parts(block):
    """The clauses and definitions of a listing: each clause begins with `ensures`, each definition with its comment."""
    part = []
    for line in block:
        if line.startswith("ensures ") or line.startswith("-- ") and part and not part[-1].startswith("-- "):
            yield part
            part = []
        part.append(line)
    yield part


def not_in_sources():
    """The clauses and definitions that stand in no source."""
    sources = [on_one_line(path.read_text(encoding="utf-8")) for path in [*CRATES.glob("*/src/**/*.rt"), *CRATES.glob("*/specs/**/*.antt")]]
    for document in LISTED:
        for begins, block in listings(document, ("```antt",)):
            for part in filter(None, shown_parts(block)):
                if not any(on_one_line("\n".join(part)) in source for source in sources):
                    yield document, begins, f"in no source: {part[0]}"


def found(pattern, document):
    """What a pattern finds in a document, with the number of its line."""
    text = document.read_text(encoding="utf-8")
    for match in pattern.finditer(text):
        yield text.count("\n", 0, match.start()) + 1, match


def anchors(document):
    """The anchors of the headings of a document: their words in lower case, with a `-` for each space."""
    headings = (line.lstrip("#").strip() for line in lines_of(document) if re.match("#+ ", line))
    return {re.sub(r"[^\w -]", "", heading.lower()).replace(" ", "-") for heading in headings}


def dead_links():
    """The links that lead nowhere in the repository. A link of the web is not looked up."""
    for document in DOCUMENTS:
        for number, match in found(LINK, document):
            name, _, anchor = match[1].partition("#")
            target = document.parent / name if name else document
            if not re.match("https?:", name) and not (target.exists() and (not anchor or anchor in anchors(target))):
                yield document, number, f"a link that leads nowhere: {match[1]}"


def exists_in(folders, path):
    return any((folder / f"{path}{ending}").exists() for folder in folders for ending in ("", ".antt"))


def is_missing(path, files, crates):
    """Whether a path is one of the repository, by how it begins, and nothing is there. `NAME` stands for any name, and a
    crate's `out` is made by `rt`."""
    path = path.removeprefix("./").removeprefix("../")
    first, *rest = path.split("/")
    if "NAME" in rest or "out" in rest:
        return False
    if not rest and first == path:
        return path not in files
    if (TOP / first).exists():
        return not exists_in([TOP], path)
    if first in crates:
        return not exists_in([CRATES], path)
    return first in ("src", "specs", "proofs", "must-fail") and not exists_in([CRATES / crate for crate in crates], path)


def missing_paths():
    """The paths that documents name, and that are not there."""
    files = {name for folder, _, names in os.walk(TOP) if "/.git" not in folder for name in names}
    crates = [crate.name for crate in CRATES.iterdir()]
    for document in DOCUMENTS:
        for number, match in found(PATH, document):
            if is_missing(match[0].rstrip("."), files, crates):
                yield document, number, f"no such file: {match[0]}"


def section(path, first, last):
    """The lines of a file between the first that begins so and the next that begins so."""
    lines = lines_of(path)
    begins = next(place for place, line in enumerate(lines) if line.startswith(first))
    ends = next(place for place, line in enumerate(lines) if place > begins and line.startswith(last))
    return lines[begins + 1:ends]


def table_numbers(path):
    """The numbers of the definition: its lines `number_of <name> = <number>`."""
    found = (re.fullmatch(r"number_of \w+ = (\d+)", line) for line in lines_of(path))
    return [int(match[1]) for match in found if match]


def help_numbers(path):
    """The numbers of the help, each before two spaces and what it means."""
    lines = section(path, "A refusal is printed as", "Status:")
    return [int(number) for line in lines for number in re.findall(r"(?:^|  ) *(\d+)  (?=\S)", line)]


def format_numbers(path):
    """The numbers of the table of codes: those of the first cell of each row, `1, 2, 3` or `11 to 16`."""
    for line in section(path, "## Codes", "## "):
        cell = re.match(r"\| (\d[^|]*) \|", line)
        for part in cell[1].split(", ") if cell else []:
            ends = [int(number) for number in part.split(" to ")]
            yield from range(ends[0], ends[-1] + 1)


def differences():
    """Where a list of refusals differs from the table that the proofs cite, or has a number twice."""
    table = table_numbers(CRATES / "stn_refusal" / "specs" / "Codes.antt")
    lists = {HELP: list(help_numbers(HELP)), FORMATS: list(format_numbers(FORMATS))}
    for path, numbers in lists.items():
        for number in sorted(set(table) | set(numbers)):
            if number not in numbers:
                yield path, 1, f"the list of refusals lacks {number}"
            elif number not in table:
                yield path, 1, f"{number} is no refusal"
            elif numbers.count(number) > 1:
                yield path, 1, f"the list of refusals has {number} twice"


def clause_end(text, place):
    """The place after a clause, whose brace stands at this place."""
    depth = 0
    for place in range(place, len(text)):
        depth += {"{": 1, "}": -1}.get(text[place], 0)
        if depth == 0:
            return place + 1
    return len(text)


def clauses_after(text, place):
    """The names of the clauses of the function whose name ends at a place of a file; one without a name is ``."""
    found = []
    while mark := END_OF_HEAD.search(text, place):
        if not mark["what"]:
            break
        if mark["what"] == "ensures":
            found.append(mark["clause"] or "")
        place = clause_end(text, mark.end() - 1)
    return found


# A function of a crate: the module of `lib.rt` that it stands in, the type or the trait that it belongs to, if any, and the
# clauses that say what it gives.
Function = namedtuple("Function", "crate module owner name clauses is_public")


def handed_on(crate):
    """The names that a crate's `lib.rt` makes public."""
    text = (crate / "src" / "lib.rt").read_text(encoding="utf-8")
    return {name for use in re.findall(r"^pub use ([^;]*);", text, re.M) for name in re.findall(r"\w+", use)}


def owner_of(head):
    """The type or the trait of a head `impl ..` or `trait ..`, and whether it is a trait for a type."""
    depth, plain = 0, ""
    for place, letter in enumerate(head):
        depth += {"<": 1, ">": -(head[place - 1] != "-")}.get(letter, 0)
        plain += letter if depth == 0 and letter != ">" else ""
    trait, _, owner = plain.partition(" for ")
    return next(iter(re.findall(r"[A-Z]\w*", owner or trait)), ""), bool(owner)


def functions_of(crate):
    """The functions of a crate. Public are those that another crate can call: not those of a trait that stands elsewhere."""
    public = handed_on(crate) if (crate / "src" / "lib.rt").exists() else set()
    for path in sorted((crate / "src").rglob("*.rt")):
        text = path.read_text(encoding="utf-8")
        module = path.relative_to(crate / "src").parts[0].removesuffix(".rt")
        owner, of_trait, is_trait = "", False, False
        for match in HEAD.finditer(text):
            if match["end"]:
                owner, of_trait, is_trait = "", False, False
            elif match["owner"]:
                owner, of_trait = owner_of(match["owner"])
                is_trait = match["kind"] == "trait"
            else:
                shown = bool(match["pub"] or is_trait) and not of_trait
                yield Function(crate.name, module, owner, match["name"], clauses_after(text, match.end()),
                               shown and (path.name == "lib.rt" or (owner or match["name"]) in public))


def other_names():
    """What else counts as a name: a crate, a type, a trait, a constant, what a trait says of its types, a definition, and a command."""
    names = {word for line in lines_of(TOP / "crates.txt") if not line.startswith("#") for word in line.replace(":", "").split()}
    for path in CRATES.glob("*/src/**/*.rt"):
        text = path.read_text(encoding="utf-8")
        names.update(re.findall(r"^pub (?:struct|enum|trait|type|const) (\w+)|^ +ghost (\w+):", text, re.M))
    for path in CRATES.glob("*/specs/**/*.antt"):
        names.update(re.findall(r"^(?:abbrev |unfoldable )?pub (?:record |data )?(\w+)", path.read_text(encoding="utf-8"), re.M))
    names.update(re.findall(r'^        name: "(\w+)",', (CRATES / "stn_line/src/commands.rt").read_text(encoding="utf-8"), re.M))
    return {word for name in names for word in ([name] if isinstance(name, str) else name) if word}


def crate_rows():
    """The crates that the table of crates lacks."""
    rows = {match[1] for _, match in found(CRATE_ROW, READING)}
    for name in [line.partition(":")[0] for line in lines_of(TOP / "crates.txt") if not line.startswith("#")]:
        if name not in OF_TESTS | {"stn", *rows}:
            yield READING, 1, f"the table of crates lacks {name}"


def without_listings(document):
    """The text of a document, with empty lines for its listings."""
    inside, kept = False, []
    for line in lines_of(document):
        inside ^= line.startswith("```")
        kept.append("" if inside or line.startswith("```") else line)
    return "\n".join(kept)


def items(text):
    """The sections and items of a document: of each item the section, the place and the text."""
    section, place = "", 0
    for part in re.split(r"(\n(?=\n|#|\||\s*- ))", text):
        if part.strip().startswith("## "):
            section = part.strip().removeprefix("## ")
        yield section, place, part
        place += len(part)


def missing_names(document, functions, others, named):
    """The names of a document that don't exist. A word after `Type::name` belongs to the same type, if that has such a function.
    The functions that the sections of their crates name are added to `named`."""
    text = without_listings(document)
    for section, begins, item in items(text):
        if document == README and section != "What is proved":
            continue
        owner, clauses = "", set()
        for match in SPAN.finditer(item):
            number = text.count("\n", 0, begins + match.start()) + 1
            if match["clauses"]:
                for clause in re.findall(r"\w+", match["clauses"]):
                    if clause not in clauses:
                        yield document, number, f"no function named before has this clause: {clause}"
                continue
            before, _, name = match["name"].rpartition("::")
            if before and before not in CRATE_NAMES:
                owner = before if before[0].isupper() else ""
            meant = [one for one in functions if one.name == name and (before in ("", one.owner, one.crate, one.module))]
            near = [one for one in meant if one.owner == owner and one.owner] or [one for one in meant if not one.owner] or meant
            near = [one for one in near if one.crate == section] or near
            named.update((one.crate, one.owner, one.name) for one in near if one.crate == section and one.owner in ("", owner))
            is_clause = name in clauses
            clauses.update(clause for one in near for clause in one.clauses)
            if not meant and not is_clause and (before and before not in CRATE_NAMES or name not in others):
                yield document, number, f"nothing has this name: {match['name']}"


def names():
    """Names that don't exist, and public functions with a clause that PROMISES.md doesn't name."""
    functions = [function for crate in sorted(CRATES.iterdir()) for function in functions_of(crate)]
    others, named = other_names(), set()
    yield from missing_names(README, functions, others, set())
    yield from missing_names(PROMISES, functions, others, named)
    for one in functions:
        name = f"{one.owner}::{one.name}" if one.owner else one.name
        if one.is_public and one.clauses and one.crate not in OF_TESTS and (one.crate, one.owner, one.name) not in named:
            yield PROMISES, 1, f"no item of {one.crate} names {name} ({', '.join(one.clauses)})"


def main():
    wrong = [*not_run(), *dead_links(), *missing_paths(), *differences(), *not_in_sources(), *names(), *crate_rows()]
    for document, number, what in wrong:
        print(f"{document.relative_to(TOP)}:{number}: {what}")
    sys.exit(1 if wrong else 0)


if __name__ == "__main__":
    main()
