"""Renames definitions of specs/, and each use of them: in definitions and proofs, in the ghost lines and contracts of
sources, and in the edits that must fail. Fields, labels, variables, functions of Rust, and what other crates define under
the same name stay as they are (lib/antt_scopes.py tells them apart).

A table has lines CRATE MODULE OLD NEW. changes() gives the new texts, or says what is in the way: then nothing changes.
"""

import bisect
import collections
import os
import re
import subprocess

import antt_scopes
import law_definitions

ROOT = os.path.dirname(os.path.dirname(os.path.abspath(__file__)))
DEFINED, SOURCE, EDIT = (".antt", ".antt.txt"), (".rt", ".rs"), (".edit",)
IMPORT = re.compile(r"\buse Rattle\.(\w+)\.specs\.([\w.]+?)\.\{(.*?)\}", re.S)
WHOLE = re.compile(r"\buse Rattle\.(\w+)\.specs\.([\w.]+) as (\w+)")
PATH = re.compile(r"\bRattle\.(\w+)\.specs\.([\w.]+)")
# What a tactic unfolds, as `crate::specs::Bytes::walk_step`.
UNFOLDED = re.compile(r"\b(\w+)::specs::(\w+(?:::\w+)+)")
USE_LINE = re.compile(r"(?m)^[ \t]*(?:pub )?(?:ghost )?use Rattle\.[\w.]+(?:\.\{.*?\}| as \w+|);?$", re.S)
# Where a term stands in a source: behind this, up to the bracket that closes, or to the end of a ghost field.
CLAUSE = re.compile(r"\b(?:(?:requires|ensures)\*?(?: \w+)?|ghost (?!use)\w+(?: \w+)?(?: =|:)?) (?=\{)")
FIELD = re.compile(r"(?m)^\s*(?:pub(?:\(\w+\))? )?ghost (?!use)\w+: (.*),$")
HEAD = re.compile(r"\bfn \w+")
PARAMETER = re.compile(r"\b(\w+): ")

Rename = collections.namedtuple("Rename", "crate module old new")


def text_of(path):
    with open(f"{ROOT}/{path}", encoding="utf-8") as it:
        return it.read()


def read_table(path):
    """The renamings of a table, and what is wrong with it."""
    rows, wrong = [], []
    for number, line in enumerate(text_of(path).splitlines(), 1):
        words = line.split("#")[0].split()
        if len(words) == 4:
            rows.append(Rename(*words))
        elif words:
            wrong.append(f"{path}:{number}: a line is CRATE MODULE OLD NEW")
    for it, count in collections.Counter((row.crate, row.module, row.old) for row in rows).items():
        wrong += [f"{path}: {' '.join(it)} stands there {count} times"] * (count > 1)
    return rows, wrong + list(not_there(rows))


def not_there(rows):
    """What of a table no module defines, and which of the new names some module has already."""
    taken = collections.defaultdict(set)
    for path in files_of(DEFINED):
        found = re.fullmatch(r"crates/(\w+)/specs/(.+)\.antt", path)
        if found:
            module = found[2].replace("/", ".")
            for name in law_definitions.module_of(found[1], module)[1]:
                taken[name].add((found[1], module))
    for row in rows:
        if (row.crate, row.module) not in taken[row.old]:
            yield f"{row.crate} {row.module} has no {row.old}"
        yield from (f"{row.new}, for {row.crate} {row.module} {row.old}: {crate} {module} has one" for crate, module in sorted(taken[row.new]))
        taken[row.new].add((row.crate, row.module))


def files_of(endings):
    """The repository's files of these endings, in crates and in those of the tests."""
    said = subprocess.run(["git", "ls-files", "-co", "--exclude-standard", "crates", "tests/crates", "examples"], cwd=ROOT, capture_output=True, text=True, check=True)
    return [it for it in said.stdout.split("\n") if it.endswith(endings) and os.path.isfile(f"{ROOT}/{it}")]


class File:
    """What the table changes in one file: the words of it that are renamed, and those behind an alias."""

    def __init__(self, path, text, rows):
        self.path, self.text, self.edits, self.wrong = path, text, [], []
        self.words, self.aliases, self.entering = {}, {}, set()
        self.by = {(row.crate, row.module, row.old): row.new for row in rows}
        own = re.fullmatch(r"crates/(\w+)/specs/(.+)\.antt", path)
        self.own = {row.old: row.new for row in rows if own and (row.crate, row.module) == (own[1], own[2].replace("/", "."))}
        self.words.update(self.own)

    def renamed(self):
        self.imports()
        for start, end, path in self.uses() if self.words or self.aliases else ():
            new = self.new_of(path)
            if new:
                self.edits.append((start, end, new))
        self.entering |= set(self.own.values())
        self.look_at_new_names()
        return self.edits

    def imports(self):
        """The `use` lines: what they bring in, and their own changes."""
        for line in IMPORT.finditer(self.text):
            for item in re.finditer(r"[^\s,{}][^,{}]*", line[3]):
                self.imported(line[1], line[2], item[0].rstrip(), line.start(3) + item.start())
        modules = {key[:2] for key in self.by}
        self.aliases = {line[3]: (line[1], line[2]) for line in WHOLE.finditer(self.text) if (line[1], line[2]) in modules}
        for line in PATH.finditer(self.text):
            parts = line[2].split(".")
            for count in range(1, len(parts)):
                new = self.by.get((line[1], ".".join(parts[:count]), parts[count]))
                start = line.start(2) + len(".".join(parts[:count])) + 1
                self.edits += [(start, start + len(parts[count]), new)] if new else []
        for found in UNFOLDED.finditer(self.text):
            crate = self.path.split("/")[1] if found[1] == "crate" else found[1]
            module, _, name = found[2].replace("::", ".").rpartition(".")
            new = self.by.get((crate, module, name))
            self.edits += [(found.end() - len(name), found.end(), new)] if new else []

    def imported(self, crate, module, item, start):
        name, _, other = item.partition(" as ")
        path, _, own = name.rpartition(".")
        new = self.by.get((crate, f"{module}.{path}".strip("."), own))
        if not new:
            # what is brought in from elsewhere under this word is none of the table's
            self.wrong += [f"{self.path}: two definitions come in as {other or own}"] * ((other or own) in self.own)
            return
        word = other or own
        if self.words.get(word, new) != new:
            self.wrong.append(f"{self.path}: two definitions come in as {word}")
        self.words[word] = new
        self.entering.add(new)
        self.edits.append((start + len(path) + bool(path), start + len(item), new))

    def new_of(self, path):
        front, _, name = path.rpartition(".")
        if not front:
            return self.words.get(name)
        return self.by.get((*self.aliases.get(front, ("", "")), name))

    def uses(self):
        """The uses in terms, `use` lines apart."""
        blank = USE_LINE.sub(lambda it: re.sub(r"[^\n]", " ", it[0]), self.text)
        if self.path.endswith(DEFINED):
            return [(start, end, path) for start, end, path in antt_scopes.uses_in(blank)]
        return [use for start, end, bound in terms_of(blank) for use in antt_scopes.uses_in_term(blank[start:end], start, bound)]

    def look_at_new_names(self):
        """A new name is nothing in this file yet but a field."""
        if not any(name in self.text for name in self.entering):
            return
        texts = [self.text] if self.path.endswith(DEFINED) else [self.text[start:end] for start, end, _ in terms_of(self.text)]
        texts += [] if self.path.endswith(DEFINED) else [it[3] for it in IMPORT.finditer(self.text)]
        for text in texts:
            tokens = antt_scopes.tokens_of(text)
            for at, token in enumerate(tokens):
                if token.text in self.entering and not antt_scopes.is_member(tokens, at):
                    self.wrong.append(f"{self.path}: has a {token.text} already")


def terms_of(text):
    """The terms of a source, each with the parameters that it may name."""
    heads = [(it.start(), parameters_behind(text, it.end())) for it in HEAD.finditer(text)]
    starts = [start for start, _ in heads]
    for found in CLAUSE.finditer(text):
        if text[text.rfind("\n", 0, found.start()) + 1 : found.start()].lstrip().startswith("//"):
            continue
        at = bisect.bisect(starts, found.start())
        is_clause = found[0].startswith(("requires", "ensures"))
        yield found.end() + 1, closed_at(text, found.end()), heads[at - 1][1] if at and is_clause else set()
    for found in FIELD.finditer(text):
        yield found.start(1), found.end(1), set()


def closed_at(text, at):
    """Where the bracket that stands here is closed."""
    depth = 0
    for place in range(at, len(text)):
        depth += (text[place] in "({") - (text[place] in ")}")
        if depth == 0:
            return place
    return len(text)


def parameters_behind(text, at):
    """The names of a function's parameters, whose list begins behind here."""
    first = text.find("(", at)
    return {"result", *PARAMETER.findall(text[first : closed_at(text, first)])} if first >= 0 else set()


def applied(text, edits):
    """The text with these changes, which don't overlap."""
    made, at = [], 0
    for start, end, new in sorted(set(edits)):
        if start < at:
            raise ValueError(f"two changes overlap at {start}: {text[start - 40 : end + 40]!r}")
        made += [text[at:start], new]
        at = end
    return "".join([*made, text[at:]])


def moved_to(place, edits):
    """Where a place of the old text stands in the new one."""
    return place + sum(len(new) - (end - start) for start, end, new in set(edits) if end <= place)


def edit_of(path, text, texts):
    """An edit that must fail, over what changed: `old` as it reads now, and `new` with the same words renamed."""
    crate, lines, file = path.split("/edits/")[0].split("/must-fail/")[0], text.split("\n"), ""
    swaps = {}
    for number, line in enumerate(lines):
        if line.startswith("file: "):
            file = f"{crate}/{line[len('file: ') :].strip()}"
        elif line.startswith("old: ") and file in texts:
            before, edits = texts[file]
            start = before.find(line[len("old: ") :])
            end = start + len(line) - len("old: ")
            inside = [it for it in edits if start <= it[0] and it[1] <= end]
            swaps = {before[first:last]: new for first, last, new in inside}
            if start >= 0 and inside:
                lines[number] = "old: " + applied(line[len("old: ") :], [(a - start, b - start, new) for a, b, new in inside])
        elif line.startswith("new:") and swaps:
            lines[number] = re.sub(r"(?<![\w.])[\w']+(?![\w'])", lambda it: swaps.get(it[0], it[0]), line)
    return "\n".join(lines)


def changes(rows):
    """The new text of each file that changes, and what is in the way."""
    mentioned = re.compile(r"\b(?:" + "|".join(sorted({re.escape(row.old) for row in rows})) + r")\b")
    texts, made, wrong = {}, {}, []
    for path in files_of(DEFINED + SOURCE):
        text = text_of(path)
        if "Rattle." not in text and "/specs/" not in path or not mentioned.search(text):
            continue
        file = File(path, text, rows)
        edits = file.renamed()
        wrong += file.wrong
        if edits:
            texts[path], made[path] = (text, edits), applied(text, edits)
    for path in files_of(EDIT):
        text = text_of(path)
        new = edit_of(path, text, texts)
        if new != text:
            made[path] = new
    return made, wrong
