#!/usr/bin/env python3
"""Looks for shorter proofs of a crate's lemmas and answers, and writes those that the checker accepts into its proofs/.

usage: bench/shorter.py CRATE

Each proof that is long, and each of several equations, gets copies beside it, whose body is one call of a tactic with the lemmas that
it cites: one check says which of them hold. In a list of lemmas, those that are not needed go; then lemmas that nothing cites any
more, and imports. The answers of a function that a must-fail edit touches keep their form, or get `cc` or `omega`: a search that fails
would make the edit slow. Commit first: while it runs, it changes the crate's proofs, and an interrupted run leaves copies.
"""
import glob
import os
import re
import subprocess
import sys
from collections import Counter

TOP = os.path.dirname(os.path.dirname(os.path.realpath(__file__)))
SIGNATURE = re.compile(r"^(pub )?([^\s(){}\[\],:=|]+) (?=(?:\{[^}]*\} ?)*: )")
OTHER = re.compile(r"^(pub )?(abbrev|unfoldable|opaque|data|record|mod|use|ruleset|module)\b|^--")
USE = re.compile(r"(?m)^use ([^\n]*(?:\n[ \t}][^\n]*)*)\n")
FUNCTION = re.compile(r"\s*(?:pub(?:\([^)]*\))? )?(?:const )?fn ([a-z_0-9]+)")
COMMON = "append_assoc add-one one-add add-suc length-append length-drop drop-cons take-append-drop".split()
OPEN, CLOSE = "([{", ")]}"
# The longest line that a short body may make.
WIDTH = 150
# How long a proof of one line has to be to be tried.
LONG = 40
# What a tactic costs the checker, as if it were so many characters more.
COST = {"cc": 0, "omega": 10, "search": 30, "grind": 60}


def files_of(crate):
    """Returns the files of a crate's proofs in which proofs are tried."""
    found = glob.glob(f"{TOP}/crates/{crate}/proofs/**/*.antt", recursive=True)
    return sorted(it for it in found if os.path.basename(it) not in ("Lib.antt", "Invariants.antt"))


def read(path):
    with open(path) as it:
        return it.read()


def write(path, text):
    with open(path, "w") as it:
        it.write(text)


def check(crate):
    """Checks the crate, and returns what was said, and whether it is proved."""
    ran = subprocess.run(["rt", "check", "--jobs", "1"], cwd=f"{TOP}/crates/{crate}", stdin=subprocess.DEVNULL,
                         stdout=subprocess.PIPE, stderr=subprocess.STDOUT, errors="replace")
    return ran.stdout, ran.returncode == 0 and "logic=not-proved" not in ran.stdout


def errors_in(crate, said):
    """Returns the places of the errors that were said, as a path and a line, and whether it is one of the declaration itself."""
    found = re.findall(r"(?m)^\./(proofs/\S+?\.antt):(\d+):\d+: error(.*)$", said)
    return [(f"{TOP}/crates/{crate}/{path}", int(line), "not checked" not in what) for path, line, what in found]


class Item:
    """A lemma or an answer: its lines, and those of each of its equations."""

    def __init__(self, lines, start, indent, name):
        deeper = " " * (indent + 1)
        at = start + 1
        while at < len(lines) and lines[at].strip() and (lines[at].startswith(deeper) or lines[at][indent:].startswith("unfolding ")):
            at += 1
        self.name, self.start, self.signature_end, self.equations = name, start, at, []
        while at < len(lines) and lines[at].startswith(" " * indent + name + " ") and not SIGNATURE.match(lines[at][indent:]):
            begin, at = at, at + 1
            while at < len(lines) and lines[at].strip() and (lines[at].startswith(deeper) or lines[at][indent:indent + 1] in CLOSE):
                at += 1
            self.equations.append((begin, at))
        self.end = at
        self.is_answer = ": goal." in lines[start]
        self.has_helpers = any(re.match(r"\s+where\b", it) for it in lines[start:at])
        # Helpers may have empty lines between them.
        while self.has_helpers and at < len(lines):
            after = next((place for place in range(at, len(lines)) if lines[place].strip()), len(lines))
            if after == len(lines) or not lines[after].startswith(deeper):
                break
            self.end = at = after + 1


def items(lines):
    """Returns the lemmas and answers of a file, also those of its module blocks."""
    found, at, indent = [], 0, 0
    while at < len(lines):
        line = lines[at]
        if line and not line[0].isspace():
            indent = 0
        if line.startswith("module "):
            while not lines[at].rstrip().endswith("where"):
                at += 1
            indent, at = 2, at + 1
            continue
        match = SIGNATURE.match(line[indent:])
        if match and not OTHER.match(line[indent:]) and line.startswith(" " * indent):
            item = Item(lines, at, indent, match[2])
            if item.equations:
                found.append(item)
                at = item.end
                continue
        at += 1
    return found


def parts(text, separator):
    """Returns what stands between separators that no bracket encloses."""
    found, depth, last, at = [], 0, 0, 0
    while at < len(text):
        depth += (text[at] in OPEN) - (text[at] in CLOSE)
        if depth == 0 and text.startswith(separator, at):
            found.append(text[last:at].strip())
            at = last = at + len(separator)
        else:
            at += 1
    return [*found, text[last:].strip()]


def head_and_body(text):
    """Returns both sides of an equation."""
    depth = 0
    for at, letter in enumerate(text):
        depth += (letter in OPEN) - (letter in CLOSE)
        if letter == "=" and depth == 0 and text[at - 1] == " " and text[at + 1:at + 2].isspace():
            return text[:at].rstrip(), text[at + 1:].strip()
    return None, None


def bare(term):
    """Returns a term without brackets around all of it."""
    while term.startswith("(") and term.endswith(")") and len(parts(term[1:-1] + ",", ",")) == 2:
        depth = 0
        for at, letter in enumerate(term):
            depth += (letter in OPEN) - (letter in CLOSE)
            if depth == 0 and at < len(term) - 1:
                return term
        term = term[1:-1].strip()
    return term


def equations_in(term):
    """Returns the equations that a chain is made of, or None if the term is none."""
    term = bare(term)
    if re.match(r"(let|λ|rw|elim|record|subst|simp)\b|λ", term):
        return None
    links = parts(term, "∙")
    if len(links) > 1:
        found = [equations_in(it) for it in links]
        return None if None in found else [it for link in found for it in link]
    words = parts(" ".join(term.split()), " ")
    if words[0] == "ap" and len(words) == 3:
        return equations_in(words[2])
    if words[0] == "sym" and len(words) == 2:
        return equations_in(words[1])
    return [] if words == ["refl"] else [" ".join(words)]


def imports(text):
    """Returns the names that a file imports, with their paths."""
    found = {}

    def walk(path, tree):
        name, below = tree
        for it in below or []:
            walk(f"{path}{name}.", it)
        if below is None:
            found[name.split(" as ")[-1].split(".")[-1].strip()] = path + name

    for match in USE.finditer(text):
        walk("", parse_use(match[1]))
    return found


def parse_use(text):
    text = text.strip()
    at = text.find("{")
    if at < 0:
        return text, None
    return text[:at].rstrip("."), [parse_use(it) for it in parts(text[at + 1:text.rindex("}")], ",") if it]


def show_use(tree, is_top=True):
    path, below = tree
    if below is None:
        return path
    if len(below) == 1 and not (is_top and below[0][1] is None) and " as " not in below[0][0]:
        return f"{path}.{show_use(below[0], is_top)}"
    return f"{path}.{{{', '.join(show_use(it, False) for it in below)}}}"


def nested(tree):
    """Returns a parsed import with one name at each level."""
    path, below = tree
    first, *rest = path.split(".")
    return (first, [nested((".".join(rest), below))]) if rest else (first, below and [nested(it) for it in below])


def joined(trees):
    """Returns such imports with each name once."""
    found = {}
    for name, below in trees:
        found.setdefault((name, below is None), []).extend(below or [])
    return [(name, None if is_item else joined(below)) for (name, is_item), below in found.items()]


def one_use(text):
    """Returns a file with one `use` for all items of a crate. The path of a module has a line of its own."""
    found = {}
    for match in USE.finditer(text):
        crate = re.match(r"Rattle\.\w+\.", match[1])
        if crate and "{" in match[1]:
            found.setdefault(crate[0], []).append(match)
    edits = []
    for first, *others in (it for it in found.values() if len(it) > 1):
        [tree] = joined(nested(parse_use(" ".join(it[1].split()))) for it in (first, *others))
        edits += [(first.span(), f"use {show_use(tree)}\n"), *((it.span(), "") for it in others)]
    for (start, end), new in sorted(edits, reverse=True):
        text = text[:start] + new + text[end:]
    return text


def without_imports(text):
    return USE.sub("", text)


def words_in(text):
    return re.findall(r"[^\s(){}\[\],;.:∷↦λ]+", text)


def pruned(text):
    """Returns a file without the imports that it does not need."""
    body = without_imports(text)
    words = set(words_in(body))

    def is_used(name):
        name = name.split(" as ")[-1].strip().split(".")[-1]
        if "◌" in name:
            return all(it in body for it in name.split("◌") if it)
        return name in words or not re.fullmatch(r"[\w-]+", name) and name in body

    def cut(tree):
        path, below = tree
        if below is None:
            return tree if is_used(path) else None
        left = [it for it in map(cut, below) if it]
        return (path, left) if left else None

    def shown(match):
        tree = cut(parse_use(match[1]))
        return match[0] if tree == parse_use(match[1]) else f"use {show_use(tree)}\n" if tree else ""

    return USE.sub(shown, text)


def with_imports(text, body):
    """Returns a file that imports the sets of lemmas that a body names."""
    for name, path in (("rules", "Common"), ("arith", "Common"), ("common_steps", "lemmas.Grind"), ("elements", "lemmas.Grind")):
        if re.search(rf"\b{name}\b", body) and name not in imports(text):
            group = re.search(r"(?m)^use Rattle\.std\.[^\n]*?Common\.\{", text) if path == "Common" else None
            if group:
                text = f"{text[:group.end()]}{name}, {text[group.end():]}"
            else:
                first = re.search(r"(?m)^use ", text)
                at = first.start() if first else 0
                text = f"{text[:at]}use Rattle.std.proofs.{path}.{{{name}}}\n{text[at:]}"
    return text


def lemmas_in(text, own):
    """Returns the names in a file that may be lemmas: its own, and those that it imports from proofs."""
    from_proofs = {name for name, path in imports(text).items() if re.search(r"lemmas|\.proofs\.", path) and "Common." not in path}
    return {it for it in from_proofs | set(COMMON) | own if re.match(r"[A-Za-z_]", it)}


def shorter_bodies(body, lemmas, is_touched):
    """Returns bodies to try in place of this one."""
    flat = " ".join(body.split())
    cited = ", ".join(dict.fromkeys(it for it in re.findall(r"[^\s(){}\[\],;∷↦λ.]+", body) if it in lemmas))
    links = [it for it in equations_in(body) or [] if " " in it or it in lemmas]
    found = ["cc"] + [f"cc ({', '.join(dict.fromkeys(links))})"] * bool(links)
    if "omega" in body:
        found += ["omega arith"] + [f"omega (arith, {cited})"] * bool(cited)
    if not is_touched:
        found += ["search rules"] + [f"search (rules, {cited})"] * bool(cited)
        found += [f"grind (arith, common_steps{', ' * bool(cited)}{cited})"]
    return [it for it in found if len(it) + 4 < len(flat)]


def shorter_lists(body):
    """Returns a call of a tactic without one of the lemmas that it names."""
    match = re.fullmatch(r"(search|grind|omega|cc) \((.*)\)", " ".join(body.split()))
    names = parts(match[2], ",") if match else []
    return [f"{match[1]} ({', '.join(names[:at] + names[at + 1:])})" for at in range(len(names)) if len(names) > 1 and names[at] not in ("rules", "arith")]


def parameters(lines, item):
    """Returns a name for each argument that the equations of an item give, or None if they give patterns of several lengths."""
    signature = " ".join(it.strip() for it in lines[item.start:item.signature_end])
    given = []
    for begin, end in item.equations:
        head, _ = head_and_body("\n".join(lines[begin:end]))
        given.append([it for it in parts(" ".join((head or "").split()), " ")[1:] if it and not it.startswith("{")])
    if len({len(it) for it in given}) != 1:
        return None
    bound = [it for names in re.findall(r"\(([^():]*) : ", signature) for it in names.split()]
    found = []
    for place, patterns in enumerate(zip(*given)):
        plain = [it for it in patterns if re.fullmatch(r"[a-z_][\w'-]*", it) and it not in ("_", "true", "false", "zero", "tt", "refl")]
        one = next(iter(plain), bound[place] if place < len(bound) else f"h{place}")
        found.append(one if one not in found else f"h{place}")
    return found


def as_one(lines, item, lemmas):
    """Returns the head of one equation in place of several, and bodies to try for it."""
    names = parameters(lines, item)
    if item.is_answer or names is None or len(item.equations) < 2 and not item.has_helpers:
        return None, []
    body = "\n".join(lines[item.signature_end:item.end])
    cited = ", ".join(dict.fromkeys(it for it in re.findall(r"[^\s(){}\[\],;∷↦λ.]+", body) if it in lemmas))
    found = ["cc", "omega arith", "search rules", "grind (arith, common_steps)"]
    found += [f"search (rules, {cited})", f"grind (arith, common_steps, {cited})"] * bool(cited)
    indent = re.match(r"\s*", lines[item.start])[0]
    return f"{indent}{' '.join([item.name, *names])}", found


def touched(crate):
    """Returns the functions that a must-fail edit changes, or whose constants it changes."""
    names, constants, source = set(), set(), f"{TOP}/crates/{crate}"
    for edit in glob.glob(f"{source}/must-fail/*.edit") + glob.glob(f"{TOP}/bench/edits/{crate}/*.edit"):
        text = ""
        for line in read(edit).split("\n"):
            if line.startswith("file: "):
                text = read(f"{source}/{line[6:].strip()}")
            elif line.startswith("old: ") and line[5:] in text:
                constant = re.match(r"\s*(?:pub(?:\([^)]*\))? )?const ([A-Z_0-9]+)", line[5:])
                before = text[:text.index(line[5:]) + len(line) - 5].split("\n")
                last = next((it[1] for it in map(FUNCTION.match, reversed(before)) if it), None)
                constants.update([constant[1]] if constant else [])
                names.update([last] if last and not constant else [])
    for path in glob.glob(f"{source}/src/**/*.rt", recursive=True):
        last = None
        for line in read(path).split("\n"):
            match = FUNCTION.match(line)
            last = match[1] if match else last
            if last and any(re.search(rf"\b{it}\b", line) for it in constants):
                names.add(last)
    return names


class Try:
    """A body to try for an equation of an item: where it stands, and the name of the copy in which it is tried."""

    def __init__(self, path, span, head, body, name):
        self.path, self.span, self.head, self.body, self.name, self.lines = path, span, head, body, name, None

    def cost(self):
        return 200 * len(self.shown()) + COST[self.body.split()[0]] + len(self.body)

    def shown(self):
        line = f"{self.head} = {self.body}"
        indent = self.head[:len(self.head) - len(self.head.lstrip())]
        return [line] if len(line) <= WIDTH else [f"{self.head} =", f"{indent}    {self.body}"]


def copied(lines, item, number, one):
    """Returns a copy of an item in which this equation has the body that is tried, or where there is no number, all of them."""
    made = [re.sub(r"^(\s*)pub ", r"\1", lines[item.start]).replace(item.name, one.name, 1), *lines[item.start + 1:item.signature_end]]
    texts = [one.shown() if place == number else lines[begin:end] for place, (begin, end) in enumerate(item.equations)]
    for text in map("\n".join, texts if number is not None else [one.shown()]):
        made += re.sub(rf"(?<![^\s(\[{{,]){re.escape(item.name)}(?![^\s)\]}},])", one.name, text).split("\n")
    return made


def tried(crate, bodies, whole=lambda lines, item, lemmas: (None, [])):
    """Writes copies of the crate's proofs with other bodies beside them, and returns those tries that the checker accepts."""
    tries, before = [], {}
    for path in files_of(crate):
        text = read(path)
        lines = text.split("\n")
        after, uses = {}, ""
        found = items(lines)
        lemmas = lemmas_in(text, {it.name for it in found})
        for item in found:
            head, others = whole(lines, item, lemmas - {item.name})
            for count, other in enumerate(others):
                one = Try(path, (item.signature_end, item.end), head, other, f"{item.name}-try9x{count}")
                after.setdefault(item.end, []).append((one, copied(lines, item, None, one)))
                uses += other + " "
        for item in (it for it in found if not it.has_helpers):
            for number, (begin, end) in enumerate(item.equations):
                head, body = head_and_body("\n".join(lines[begin:end]))
                for count, other in enumerate(bodies(path, end - begin, body, lemmas - {item.name}) if head else []):
                    one = Try(path, (begin, end), head, other, f"{item.name}-try{number}x{count}")
                    after.setdefault(item.end, []).append((one, copied(lines, item, number, one)))
                    uses += other + " "
        if not after:
            continue
        before[path], made = text, []
        for at in range(len(lines) + 1):
            for one, copy in after.get(at, []):
                one.lines = range(len(made) + 2, len(made) + 2 + len(copy))
                made += ["", *copy, ""]
                tries.append(one)
            made += lines[at:at + 1]
        shift = with_imports("\n".join(made), uses)
        moved = shift.count("\n") - "\n".join(made).count("\n")
        for copies in after.values():
            for one, _ in copies:
                one.lines = range(one.lines.start + moved, one.lines.stop + moved)
        write(path, shift)
    try:
        said, _ = check(crate) if tries else ("", True)
    finally:
        for path, text in before.items():
            write(path, text)
    named = set(re.findall(r"([^\s,`()]*-try\d+x\d+)", said))
    wrong = Counter((path, line) for path, line, _ in errors_in(crate, said))
    return [it for it in tries if it.name not in named and not any((it.path, line) in wrong for line in it.lines)]


def places(one):
    """Returns the lines of a file at which this body stands now."""
    shown, lines = one.shown(), read(one.path).split("\n")
    return {at + place + 1 for at, line in enumerate(lines) if line == shown[0] for place in range(len(shown))}


def settled(crate, chosen):
    """Writes the chosen bodies, takes back those with which the crate is not proved, and returns how many stay."""
    before = {path: read(path) for path in {it.path for it in chosen}}
    while chosen:
        for path, text in before.items():
            lines, mine = text.split("\n"), [it for it in chosen if it.path == path]
            for one in sorted(mine, key=lambda it: it.span, reverse=True):
                lines[slice(*one.span)] = one.shown()
            write(path, with_imports("\n".join(lines), " ".join(it.body for it in mine)))
        said, is_proved = check(crate)
        if is_proved:
            return len(chosen)
        errors = [(path, line) for path, line, is_own in errors_in(crate, said) if is_own]
        left = [it for it in chosen if not any(path == it.path and line in places(it) for path, line in errors)]
        if len(left) == len(chosen):
            left = [it for it in chosen if it.path not in {path for path, _ in errors}]
        chosen = left if len(left) < len(chosen) else []
    for path, text in before.items():
        write(path, text)
    return 0


def best(tries):
    """Returns the best try of each equation."""
    found = {}
    for one in tries:
        key = one.path, one.span
        if key not in found or one.cost() < found[key].cost():
            found[key] = one
    return list(found.values())


def drop_unused(crate):
    """Removes lemmas that nothing cites, and imports that nothing needs, if the crate is proved without them."""
    before = {path: read(path) for path in files_of(crate)}
    gone = True
    while gone:
        gone, uses = False, Counter()
        for kind in ("antt", "rt"):
            for path in glob.glob(f"{TOP}/crates/*/s*/**/*.{kind}", recursive=True) + glob.glob(f"{TOP}/crates/*/proofs/**/*.{kind}", recursive=True):
                uses.update(words_in(without_imports(read(path))))
        for path in files_of(crate):
            lines = read(path).split("\n")
            for item in reversed(items(lines)):
                own = words_in("\n".join(lines[item.start:item.end])).count(item.name)
                if not item.is_answer and uses[item.name] <= own:
                    begin = item.start
                    while begin and lines[begin - 1].strip().startswith("--"):
                        begin -= 1
                    lines[begin:item.end], gone = [], True
            write(path, re.sub(r"\n{3,}", "\n\n", one_use(pruned("\n".join(lines)))))
    subprocess.run(["rt", "fmt"], cwd=f"{TOP}/crates/{crate}", stdout=subprocess.DEVNULL, stderr=subprocess.DEVNULL)
    if not check(crate)[1]:
        for path, text in before.items():
            write(path, text)


def lines_of(crate):
    return sum(read(path).count("\n") for path in files_of(crate))


def main(crate):
    before, names = lines_of(crate), touched(crate)
    if not check(crate)[1]:
        sys.exit(f"{crate} is not proved as it stands")

    def bodies(path, rows, body, lemmas):
        is_touched = os.path.basename(path) == "Answers.antt" and os.path.basename(os.path.dirname(path)) in names
        return shorter_bodies(body, lemmas, is_touched) if rows > 1 or len(body) > LONG else []

    for what, count in (("proofs by cases", settled(crate, best(tried(crate, lambda *_: [], as_one)))),
                        ("bodies", settled(crate, best(tried(crate, bodies)))),
                        ("lists", settled(crate, best(tried(crate, lambda _path, _rows, body, _lemmas: shorter_lists(body)))))):
        print(f"{crate}: {count} shorter {what}", flush=True)
    drop_unused(crate)
    print(f"{crate}: {before} lines of proofs, now {lines_of(crate)}")


if __name__ == "__main__":
    if len(sys.argv) != 2:
        sys.exit(__doc__)
    main(sys.argv[1])
