"""Edits of a crate planted together: where each stands, which fit into one copy, and what a check of the copy says of each.

A function's body is seen by that function's own proof; all others read its contract. So edits of different
functions stand in one copy, and one check tells each one's verdict, also where what a function calls isn't
proved. An edit of a definition, a type or a constant concerns more, and stands in a copy of its own.
"""

import collections
import glob
import os
import re

PARTS = ("src", "specs", "proofs")
REFUSED, SHAPE, LET_THROUGH, BAD, UNSURE = "refused", "BY ITS SHAPE", "LET THROUGH", "BAD EDIT", "NOT TRIED"
# What a check says of a proof file that names what is gone: that is a refusal of the file, and none of the function.
SHAPES = re.compile(r"has no field|is not in scope|has no `|was not admitted|is no name|expected the end|cannot continue|operand is missing")
# Of these: that a goal has another name now, so that nothing is known of the goals that aren't proved.
RENAMED = re.compile(r"is not in scope|has no `|is no name")
PLACE = re.compile(r"(?:note: )?(?:\./)?((?:src|specs|proofs)/\S+?):(\d+):\d+: (.*)")
HEAD = re.compile(r"( *)(?:pub(?:\([\w: ]+\))? )?(?:const )?(?:unsafe )?(?:extern \"C\" )?fn (\w+)")
OWNER = re.compile(r"(?:impl\b(?:<.*?>)? ?(?:(?:\w+::)*(\w+)(?:<.*?>)? for )?&?(?:mut )?(?:\w+::)*(\w+)|(?:pub(?:\([\w: ]+\))? )?trait (\w+))")
DECLARED = re.compile(r"(?m)^(?:pub(?:\([\w: ]+\))? )?(?:struct|enum|trait) (\w+)")
# What is planted in a function that no edit of the copy changes: with it the function means the same. The
# number differs from copy to copy, so that none takes what the check of another has proved.
HARMLESS = "let _spare = {}u16;"

Function = collections.namedtuple("Function", "name file first body last proofs cycle")
Edit = collections.namedtuple("Edit", "name pairs functions why")
Verdict = collections.namedtuple("Verdict", "kind where why")


def text_of(path):
    with open(path, encoding="utf-8") as it:
        return it.read()


def texts_of(folder):
    """The texts of a crate, by their paths in it."""
    paths = [path for part in PARTS for path in glob.glob(f"{folder}/{part}/**/*.*", recursive=True)]
    return {os.path.relpath(path, folder): text_of(path) for path in sorted(paths) if os.path.isfile(path)}


# Functions.


def module_of(file):
    """The names of the modules that a file of src/ is, from the crate's root on."""
    return [it for it in file[len("src/") : -len(".rt")].split("/") if it not in ("lib", "main", "mod")]


def owner_of(line, types, module):
    """The modules and the name that the methods of this block are named by."""
    found = OWNER.match(line)
    trait, name, own = found.groups()
    places = types.get(own or name, [])
    return [*(places[0] if len(places) == 1 else module), own or name + (trait or "")]


def end_of(lines, number, indent):
    """The line that ends the item which begins at this one, by the layout that `rt fmt` gives."""
    ends = (indent + "}", indent + "{}")
    return next((at for at in range(number, len(lines)) if lines[at] in ends or lines[at].startswith(indent + "}") and at > number), number)


def functions_of(texts, crate):
    """The crate's functions, and the lines that each has."""
    sources = {file: text for file, text in texts.items() if file.startswith("src/") and file.endswith(".rt")}
    types = collections.defaultdict(list)
    for file, text in sources.items():
        for name in DECLARED.findall(text):
            types[name].append(module_of(file))
    return [it for file, text in sources.items() for it in functions_in(file, text.split("\n"), crate, types)]


def functions_in(file, lines, crate, types):
    module, owner, cycle = module_of(file), None, None
    for number, line in enumerate(lines):
        begins = HEAD.match(line)
        if OWNER.match(line):
            owner = owner_of(line, types, module)
        elif line == "}":
            owner = None
        elif line.lstrip().startswith("#[cycle("):
            cycle = line.strip()
        elif begins and (owner or not begins[1]):
            last = end_of(lines, number, begins[1])
            heads = range(number, last + 1)
            # what stands above it is the contract
            body = next((at for at in heads if lines[at] in (begins[1] + "{", begins[1] + "{}") or at == number and line.endswith("{")), last)
            path = [*(owner or module), begins[2]]
            yield Function("::".join([crate, *path]), file, number, body, last, f"proofs/{'/'.join(path)}/", cycle)
            cycle = None


def function_at(functions, file, line):
    """The function whose body has this line, counted from 0."""
    return next((it for it in functions if it.file == file and it.body < line <= it.last), None)


# Edits.


def read_edit(path, texts, functions):
    """An edit: what it changes, and the functions in which all of it stands, none where one part stands in no body."""
    name, file, old, pairs, places = os.path.basename(path)[: -len(".edit")], "", "", [], []
    changed = dict(texts)
    for line in text_of(path).split("\n"):
        if line.startswith("file: "):
            file = line[len("file: ") :].strip()
        elif line.startswith("old: "):
            old = line[len("old: ") :]
        elif line.startswith("new:"):
            new = line[len("new:") :].removeprefix(" ")
            if changed.get(file, "").count(old) != 1 or old == new:
                return Edit(name, (), (), f"an 'old:' text does not stand once in {file}, or nothing changes")
            before = changed[file].partition(old)[0]
            places.append(function_at(functions, file, before.count("\n")))
            # a text that begins with the line before it stands where it ends
            pairs.append((file, old, new))
            changed[file] = changed[file].replace(old, new)
    uses = [place for place, (_, old, _) in zip(places, pairs) if not old.startswith("use ")]
    inside = tuple(dict.fromkeys(uses)) if all(uses) else ()
    return Edit(name, tuple(pairs), inside, None if pairs else "it has no 'old:' and 'new:' pair")


class Round:
    """Edits that stand in one copy: no function, and no cycle of calls, has two."""

    def __init__(self, texts, crate, passed_over=()):
        self.texts, self.crate, self.edits, self.taken, self.harmless = dict(texts), crate, [], set(), None
        # the functions that are to have no harmless edit
        self.passed_over = set(passed_over)

    def takes(self, edit):
        """Plants an edit, where it fits."""
        names = {it.cycle or it.name for it in edit.functions}
        changed = dict(self.texts)
        for file, old, new in edit.pairs:
            if changed[file].count(old) != 1:
                return False
            changed[file] = changed[file].replace(old, new)
        if names & self.taken:
            return False
        self.texts, self.taken = changed, self.taken | names
        self.edits.append(edit)
        return True

    def plant_harmless(self, number):
        """Plants what means the same in the plainest function that no edit changes: one that calls none, and whose proof has no file."""
        lines = {file: text.split("\n") for file, text in self.texts.items() if file.endswith(".rt")}

        def rank(it):
            body = "\n".join(lines[it.file][it.body + 1 : it.last])
            head = "\n".join(lines[it.file][it.first : it.body])
            is_plain = not re.search(r"[(]|\bfor\b|\bwhile\b|\bloop\b", body)
            has_proof = any(path.startswith(it.proofs) for path in self.texts)
            return has_proof, "ensures" not in head, not is_plain, "extern" in head or "const fn" in head, it.last - it.body, it.name

        fits = [it for it in functions_of(self.texts, self.crate)
                if it.last > it.body + 1 and (it.cycle or it.name) not in self.taken and it.name not in self.passed_over]
        if not fits:
            return
        it = self.harmless = min(fits, key=rank)
        lines[it.file].insert(it.body + 1, re.match(" *", lines[it.file][it.first])[0] + "    " + HARMLESS.format(number))
        self.texts[it.file] = "\n".join(lines[it.file])


def rounds_of(edits, texts, crate):
    """The edits whose functions are known in as few rounds as they fit into, and then each of the others alone."""
    rounds = []
    for edit in (it for it in edits if it.functions):
        if not any(it.takes(edit) for it in rounds):
            rounds.append(Round(texts, crate))
            rounds[-1].takes(edit)
    return rounds, [alone_of(edit, texts, crate) for edit in edits if not edit.functions]


def alone_of(edit, texts, crate):
    made = Round(texts, crate)
    made.takes(edit)
    return made


def once_more(made, texts):
    """The same edits with a harmless one in another function, None where that was tried, or where there was none."""
    if made.passed_over or not made.harmless:
        return None
    again = Round(texts, made.crate, {made.harmless.name})
    return again if all(again.takes(it) for it in made.edits) else None


# What a check says.


def said_of(name, lines):
    """What a check says of a function."""
    return next((it.partition(": ")[2] for it in lines if it.startswith(f"fn {name}: ")), "")


def errors_of(function, lines):
    """The errors at a function's own lines, and in its proof's files."""
    placed = [(at, it) for at, it in ((PLACE.match(it), it) for it in lines) if at and ": error" in it]
    return [it for at, it in placed if at[1].startswith(function.proofs)
            or at[1] == function.file and function.first < int(at[2]) <= function.last + 1]


def is_shown_false(function, lines):
    """Whether the check found values at which one of the function's goals is false."""
    return any("may be false: the known facts allow" in it and f" of {function.proofs}" in it for it in lines)


def verdict_of(function, lines):
    """What a check says of an edit of this function: None where it says nothing that counts."""
    said, errors = said_of(function.name, lines), errors_of(function, lines)
    shapes = [it for it in errors if SHAPES.search(it)]
    full = [it for it in errors if it not in shapes]
    open_goals = re.search(r"did not prove ([^;]*)", said)
    goals = [*([open_goals[1]] if open_goals else []), *dict.fromkeys(it for text in full for it in re.findall(r": error: (`[^`]*`): ", text))]
    if not said or said.startswith("could not tell"):
        return None
    if said.startswith(("proved", "no holes")):
        return Verdict(LET_THROUGH, function.name, "it is proved")
    is_renamed = any(RENAMED.search(it) for it in shapes)
    if full or goals and (not is_renamed or is_shown_false(function, lines)):
        return Verdict(REFUSED, function.name, ", ".join(goals) or full[0][:200])
    return Verdict(SHAPE, function.name, shapes[0][:200]) if shapes else None


def told_of(edit, functions, lines):
    """What a round says of an edit. The functions are those of the planted copy."""
    now = {it.name: it for it in functions}
    told = [verdict_of(now[it.name], lines) for it in edit.functions]
    for kind in (REFUSED, SHAPE):
        found = [it for it in told if it and it.kind == kind]
        if found:
            return found[0]
    return told[0] if told and all(told) else None


def alone_told(functions, lines, status):
    """What a check of the whole crate with one edit says of it."""
    last = lines[-1] if lines else ""
    if status == 0:
        return Verdict(LET_THROUGH, "the crate", "it is still proved")
    if status != 1 or not last.startswith("logic=not-proved"):
        return Verdict(BAD if status == 1 else UNSURE, "the crate", f"status {status}: {lines[0][:160]}")
    told = [it for it in (verdict_of(it, lines) for it in functions) if it and it.kind != LET_THROUGH]
    placed = [it for it in lines if PLACE.match(it) and ": error" in it]
    full = [it for it in placed if not SHAPES.search(it)]
    for found in (it for it in told if it.kind == REFUSED):
        return found
    if full:
        return Verdict(REFUSED, PLACE.match(full[0])[1], full[0][:200])
    return told[0] if told else Verdict(SHAPE, "the crate", (placed or lines)[0][:200])
