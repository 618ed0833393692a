#!/usr/bin/env python3
"""Makes arguments of a crate's lemmas implicit where a later argument or the result decides them, and leaves them out at each call.

usage: bench/implicit.py CRATE

All that might do are tried at once; the checker says where one is not decided. There it is given by name, or stays explicit. Lemmas that
another crate cites stay as they are. Commit first: while it runs, it changes the crate's proofs.
"""
import bisect
import collections
import glob
import os
import re
import subprocess
import sys

from shorter import OTHER, SIGNATURE, TOP, USE, Item, check, head_and_body, imports, read, words_in, write

# Words that end the arguments of a call.
ENDS = {"in", "=", "∙", "≡", "→", "λ", "where", "×", "++", "∷", "with", "let", "record", "⊎", "↔", "elim", "at", "depth", "fits"}
BINDER = re.compile(r"[({]\s*([A-Za-z_][\w\-']*(?:\s+[A-Za-z_][\w\-']*)*)\s+:\s")
CONSTANTS = ("true", "false", "zero", "tt", "refl")
MOST_ROUNDS = 40
# The longest line that an equation and its body may share.
WIDTH = 150


def skip(text, at):
    while at < len(text) and text[at].isspace():
        at += 1
    return at


def group_end(text, at):
    """Returns the place after the bracket that closes the one at this place."""
    depth = 0
    for place in range(at, len(text)):
        depth += (text[place] in "([{") - (text[place] in ")]}")
        if depth == 0:
            return place + 1
    return len(text)


def atom_end(text, at):
    """Returns where the argument that begins at this place ends, or None if none begins there."""
    if at >= len(text) or text[at] == "{":
        return None
    if text[at] in "([":
        end = group_end(text, at)
        fields = re.match(r"(\.[A-Za-z_0-9\-◌]+)+", text[end:])
        return end + (fields.end() if fields else 0)
    word = re.match(r"[^\s(){}\[\],;]+", text[at:])
    return at + word.end() if word and word[0] not in ENDS and word[0] != "." else None


def names_in(text):
    return re.findall(r"[A-Za-z_][\w\-']*", text)


class Signature:
    """The explicit parameters of a signature, each with its name or None and the number of its group; the groups, each with where it
    stands, its names, and whether it is explicit."""

    def __init__(self, text, at):
        self.parameters, self.groups = [], []
        while True:
            at = skip(text, at)
            begin, run = at, []
            while at < len(text) and text[at] in "({" and BINDER.match(text, at):
                run.append((at, group_end(text, at)))
                at = skip(text, run[-1][1])
            if run and text.startswith("→", at):
                for start, end in run:
                    names, is_explicit = BINDER.match(text, start)[1].split(), text[start] == "("
                    self.groups.append((start, end, names, is_explicit))
                    self.parameters += [(name, len(self.groups) - 1) for name in names if is_explicit]
                at += 1
                continue
            arrow = self.arrow(text, begin)
            if arrow is None:
                return
            self.parameters.append((None, None))
            at = arrow + 1

    @staticmethod
    def arrow(text, at):
        """Returns the place of the first arrow that no bracket encloses."""
        depth = 0
        for place in range(at, len(text)):
            depth += (text[place] in "([{") - (text[place] in ")]}")
            if depth == 0 and text[place] == "→":
                return place
        return None


class Block:
    """A `module` with parameters, which calls from outside give first."""

    def __init__(self, indent, start, head):
        self.indent, self.start, self.count = indent, start, 0
        at = skip(head, skip(head, head.index("module") + 6) + 1)
        while at < len(head) and head[at] in "({":
            binder = BINDER.match(head, at)
            self.count += len(binder[1].split()) if binder and head[at] == "(" else 0
            at = skip(head, group_end(head, at))


class File:
    """A file of proofs: its lines, its lemmas and answers, and the blocks around each line."""

    def __init__(self, path, text):
        self.path, self.text, self.lines = path, text, text.split("\n")
        self.module = "Rattle." + os.path.relpath(path, f"{TOP}/crates")[:-5].replace("/", ".")
        self.items, self.around = [], [()] * len(self.lines)
        self.starts = [0]
        for line in self.lines:
            self.starts.append(self.starts[-1] + len(line) + 1)
        self.read_items()
        self.item_at = {place: it for it in self.items for place in range(it.start, it.end)}

    def read_items(self):
        at, stack = 0, []
        while at < len(self.lines):
            line = self.lines[at]
            indent = len(line) - len(line.lstrip())
            while line.strip() and stack and indent <= stack[-1].indent:
                stack.pop()
            self.around[at] = tuple(stack)
            if line[indent:].startswith("module "):
                begin = at
                while not self.lines[at].rstrip().endswith("where"):
                    at += 1
                stack.append(Block(indent, begin, " ".join(self.lines[begin:at + 1])))
            match = SIGNATURE.match(line[indent:])
            if match and not OTHER.match(line[indent:]):
                item = Item(self.lines, at, indent, match[2])
                if item.equations:
                    item.indent, item.blocks = indent, tuple(stack)
                    self.around[at:item.end] = [tuple(stack)] * (item.end - at)
                    self.items.append(item)
                    at = item.end
                    continue
            at += 1

    def line_of(self, place):
        return bisect.bisect_right(self.starts, place) - 1


class Lemma:
    """A lemma, its signature, and those of its parameters that are made implicit."""

    def __init__(self, file, item):
        self.file, self.item, self.name = file, item, f"{file.module}.{item.name}"
        self.raw = "\n".join(file.lines[item.start:item.signature_end])
        at = self.raw.index(item.name) + len(item.name)
        colon = re.match(r" (?:\{[^}]*\} ?)*: ", self.raw[at:])
        self.signature = Signature(self.raw, at + colon.end()) if colon else None
        self.implicit = set()

    def choose(self, explicit):
        """Makes each parameter implicit that a later type names, that no equation matches, and that is not known to be needed."""
        if self.signature is None or "unfolding" in self.raw:
            return
        for name, group in self.signature.parameters:
            later = name and self.raw[self.signature.groups[group][1]:]
            if name and (self.name, name) not in explicit and re.search(rf"(?<![\w\-.']){re.escape(name)}(?![\w\-'])", later):
                self.implicit.add(name)
        for begin, end in self.item.equations:
            head, _ = head_and_body("\n".join(self.file.lines[begin:end]))
            patterns = patterns_of(head, self.item.name) if head else []
            for (name, _), pattern in zip(self.signature.parameters, patterns):
                if not re.fullmatch(r"[a-z_][\w\-']*", pattern) or pattern in CONSTANTS:
                    self.implicit.discard(name)
            self.implicit -= {name for name, _ in self.signature.parameters[len(patterns):]}


def patterns_of(head, name):
    """Returns the explicit patterns of an equation."""
    at, found = head.index(name) + len(name), []
    while True:
        at = skip(head, at)
        if at < len(head) and head[at] == "{":
            at = group_end(head, at)
            continue
        end = atom_end(head, at)
        if end is None:
            return found
        found.append(head[at:end])
        at = end


def cited_elsewhere(crate):
    """Returns the lemmas of the crate that other crates import."""
    found = set()
    for path in glob.glob(f"{TOP}/crates/*/proofs/**/*.antt", recursive=True) + glob.glob(f"{TOP}/crates/*/specs/**/*.antt", recursive=True):
        text = read(path) if f"/crates/{crate}/" not in path else ""
        if f"Rattle.{crate}." in text:
            found.update(it for it in imports(text).values() if it.startswith(f"Rattle.{crate}.proofs."))
    for path in glob.glob(f"{TOP}/crates/*/src/**/*.rt", recursive=True):
        text = read(path) if f"/crates/{crate}/" not in path else ""
        found.update(f"Rattle.{it.replace('::', '.')}" for it in re.findall(rf"\b{crate}::proofs::[\w:]+", text))
    return found


def bound_in(file, item):
    """Returns the names that an item binds, which hide lemmas."""
    text, found = "\n".join(file.lines[item.signature_end:item.end]), set()
    for match in re.finditer(r"λ ([^.]*)\.", text):
        found.update(names_in(re.sub(r":[^)]*", "", match[1])))
    for match in re.finditer(r"\blet ([^=]*?)(?: :|=)", text):
        found.update(names_in(match[1]))
    for begin, end in item.equations:
        head, _ = head_and_body("\n".join(file.lines[begin:end]))
        found.update(names_in(head[head.index(item.name) + len(item.name):]) if head else ())
    return found


class Rewriting:
    """One try: the texts with the chosen parameters implicit. `named` has the calls that give one by name."""

    def __init__(self, files, lemmas, named):
        self.lemmas, self.named, self.calls, self.texts = lemmas, named, collections.Counter(), {}
        for file in files:
            self.texts[file.path] = self.rewritten(file)

    def rewritten(self, file):
        here = {it.name: self.lemmas[f"{file.module}.{it.name}"] for it in file.items if f"{file.module}.{it.name}" in self.lemmas}
        known = {name: self.lemmas[path] for name, path in imports(file.text).items() if path in self.lemmas} | here
        if not known:
            return file.text
        edits = self.at_calls(file, known, here)
        for lemma in here.values():
            edits += self.in_signature(file, lemma)
        made, last = [], 0
        for start, end, new in sorted(edits):
            # An argument that goes takes the calls in it along.
            if start >= last:
                made += [file.text[last:start], new]
                last = end
        return joined("".join([*made, file.text[last:]]))

    def in_signature(self, file, lemma):
        base, edits = file.starts[lemma.item.start], []
        for start, end, names, is_explicit in lemma.signature.groups:
            if is_explicit and lemma.implicit & set(names):
                kind, runs = re.match(r"\(\s*[^:]*?\s+:\s+(.*)\)\s*$", lemma.raw[start:end], re.S)[1], []
                for name in names:
                    if not runs or runs[-1][0] != (name in lemma.implicit):
                        runs.append((name in lemma.implicit, []))
                    runs[-1][1].append(name)
                shown = (f"{{{' '.join(it)} : {kind}}}" if is_implicit else f"({' '.join(it)} : {kind})" for is_implicit, it in runs)
                edits.append((base + start, base + end, " ".join(shown)))
        return edits

    def at_calls(self, file, known, here):
        text = USE.sub(lambda match: "\0" * len(match[0]), file.text)
        heads = {file.starts[begin] + it.indent: (it, begin, end) for it in file.items for begin, end in it.equations}
        bound, edits = {}, []
        call = re.compile(r"(?<![^\s(){}\[\],;])(" + "|".join(sorted(map(re.escape, known), key=len, reverse=True)) + r")(?![^\s(){}\[\],;])")
        for match in call.finditer(text):
            lemma, line = known[match[1]], file.line_of(match.start())
            item, is_own = file.item_at.get(line), here.get(match[1]) is lemma
            if is_own and item is lemma.item and line == item.start and match.start() not in heads:
                continue
            is_head = is_own and match.start() in heads and heads[match.start()][0] is lemma.item
            if not is_head and re.match(r" [:=] ", text[match.end():]):
                continue
            if item and not is_head:
                bound.setdefault(item.start, bound_in(file, item))
                if match[1] in bound[item.start]:
                    continue
            around = file.around[line] if is_own else ()
            first = 0 if is_head else sum(it.count for it in lemma.item.blocks if not any(it.start == other.start for other in around))
            words = set()
            if is_head:
                _, begin, end = heads[match.start()]
                _, body = head_and_body("\n".join(file.lines[begin:end]))
                words = set(words_in(body)) | {it.split(".")[0] for it in re.findall(r"[^\s(){}\[\],;]+", body)}
            else:
                self.calls[lemma.name] += 1
            edits += self.arguments(file, text, match.end(), lemma, first, is_head, words, item)
        return edits

    def arguments(self, file, text, at, lemma, first, is_head, words, item):
        """Returns the edits of one call's or equation's arguments, where so many of a block come first."""
        place, edits = 0, []
        while place < first + len(lemma.signature.parameters):
            start = skip(text, at)
            if start < len(text) and text[start] == "{":
                at = group_end(text, start)
                continue
            end = atom_end(text, start)
            if end is None:
                break
            name, given = lemma.signature.parameters[place - first][0] if place >= first else None, file.text[start:end]
            if name in lemma.implicit:
                if is_head and given != "_" and given in words:
                    edits.append((start, end, "{" + (given if given == name else f"{name} = {given}") + "}"))
                elif not is_head and given != "_" and (file.path, item.name if item else "", lemma.name, name) in self.named:
                    edits.append((start, end, f"{{{name} = {given}}}"))
                else:
                    edits.append((at, end, ""))
            at, place = end, place + 1
        return edits


def joined(text):
    """Puts a body of one line beside the head of its equation, where both fit."""
    lines, made, at = text.split("\n"), [], 0
    while at < len(lines):
        line, body = lines[at], lines[at + 1] if at + 1 < len(lines) else ""
        after, indent = lines[at + 2] if at + 2 < len(lines) else "", len(body) - len(body.lstrip())
        is_last = not after.strip() or len(after) - len(after.lstrip()) < indent and not after.strip().startswith((")", "}", "]", "where"))
        is_whole = body.strip() and not re.match(r"\s*(let|elim)\b|\s*λ .*$", body) and not body.rstrip().endswith(("(", "{", "[", " in"))
        if line.endswith(" =") and is_whole and is_last and len(line) + 1 + len(body.strip()) <= WIDTH:
            made.append(f"{line} {body.strip()}")
            at += 2
        else:
            made.append(line)
            at += 1
    return "\n".join(made)


class Search:
    """What the checker has told: parameters that stay explicit, and calls that give one by name."""

    def __init__(self, crate):
        self.crate, self.explicit, self.named, self.failed = crate, set(), set(), collections.Counter()
        paths = sorted(glob.glob(f"{TOP}/crates/{crate}/proofs/**/*.antt", recursive=True))
        self.before = {path: read(path) for path in paths}
        self.files = [File(path, text) for path, text in self.before.items()]
        self.elsewhere = cited_elsewhere(crate)

    def lemmas(self):
        found = {}
        for file in self.files:
            count = collections.Counter(it.name for it in file.items)
            for item in file.items:
                if not item.is_answer and count[item.name] == 1 and f"{file.module}.{item.name}" not in self.elsewhere:
                    lemma = Lemma(file, item)
                    lemma.choose(self.explicit)
                    if lemma.implicit:
                        found[lemma.name] = lemma
        return found

    def refuse(self, lemma, name, path, item, calls):
        """Gives a parameter by name at one place, if few places need that; otherwise it stays explicit. Returns whether that is new."""
        key = path, item.name, lemma.name, name
        if (lemma.name, name) in self.explicit:
            return False
        if key not in self.named and item.name != lemma.item.name and self.failed[lemma.name, name] < max(1, calls[lemma.name] // 4):
            self.named.add(key)
            self.failed[lemma.name, name] += 1
        else:
            self.explicit.add((lemma.name, name))
        return True

    def learn(self, said, tried):
        """Takes from what the checker said what stays explicit, and returns whether that is anything new."""
        by_name = collections.defaultdict(list)
        for lemma in tried.lemmas.values():
            by_name[lemma.item.name].append(lemma)
        undecided = re.findall(r"implicit argument `?\{([\w\-']+)\}`? of `([^`]+)` is not determined by the signature", said)
        new = {(lemma.name, name) for name, of in undecided for lemma in by_name[of.split(".")[-1]]} - self.explicit
        self.explicit |= new
        if new:
            return True
        is_new = False
        for path, line, what in re.findall(r"(?m)^\./(proofs/\S+?\.antt):(\d+):\d+: error(.*)$", said):
            if not re.search(r"(was|were) not checked|is not admitted", what):
                is_new |= self.learn_of(f"{TOP}/crates/{self.crate}/{path}", int(line), what, by_name, tried.calls)
        return is_new or self.keep_of_attributes(tried)

    def keep_of_attributes(self, tried):
        """Keeps the parameters of lemmas that the crate's own attributes name: where a search fails over one, no place in a proof is told."""
        named = set()
        for path in glob.glob(f"{TOP}/crates/{self.crate}/src/**/*.rt", recursive=True):
            named.update(f"Rattle.{self.crate}.{it.replace('::', '.')}" for it in re.findall(r"\bcrate::(proofs::[\w:]+)", read(path)))
        new = {(it.name, name) for it in tried.lemmas.values() if it.name in named for name in it.implicit} - self.explicit
        self.explicit |= new
        return bool(new)

    def learn_of(self, path, line, what, by_name, calls):
        file = File(path, read(path))
        item = file.item_at.get(line - 1)
        if item is None:
            return False
        told = re.search(r"implicit argument `?\{([\w\-']+)\}`? of `([^`]+)`", what)
        wanted = re.search(r"give that argument as `(\S+) \{([\w\-']+) = ", what)
        name, of = (told[1], told[2]) if told else (wanted[2], wanted[1]) if wanted else (None, "")
        cited = [it for it in by_name[of.split(".")[-1]] if name in it.implicit]
        if cited:
            return any([self.refuse(it, name, path, item, calls) for it in cited])
        for text in (" ".join(file.lines[line - 1:line + 1]), "\n".join(file.lines[item.start:item.end])):
            cited = [it for word in set(words_in(text)) for it in by_name.get(word, [])]
            if cited:
                break
        return any([self.refuse(it, name, path, item, calls) for it in cited for name in it.implicit])

    def run(self):
        for number in range(MOST_ROUNDS):
            tried = Rewriting(self.files, self.lemmas(), self.named)
            for path, text in tried.texts.items():
                write(path, text)
            said, is_proved = check(self.crate)
            print(f"{self.crate}: {sum(len(it.implicit) for it in tried.lemmas.values())} parameters, proved: {is_proved}", flush=True)
            if is_proved:
                return True
            if not self.learn(said, tried):
                break
        for path, text in self.before.items():
            write(path, text)
        return False


def main(crate):
    search = Search(crate)
    if search.run():
        subprocess.run(["rt", "fmt"], cwd=f"{TOP}/crates/{crate}", stdout=subprocess.DEVNULL, stderr=subprocess.DEVNULL)
        before = sum(len(it.encode()) for it in search.before.values())
        print(f"{crate}: {before} bytes of proofs, now {sum(len(read(it).encode()) for it in search.before)}")


if __name__ == "__main__":
    if len(sys.argv) != 2:
        sys.exit(__doc__)
    main(sys.argv[1])
