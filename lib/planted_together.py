"""Wrong programs compiled together: each edit of a function stands beside that function's own body, and a number that the
environment gives says which one runs. So hundreds are tried by one program, compiled once.

A function with edits becomes

    {
        if crate::planted::is(7) {
            its body with edit 7
        } else {
            its body
        }
    }
"""

import re

import planting

# A number that stands nowhere else.
MARK = 1_592_590_337
# What stands in each crate that has edits. The number that it answers is replaced where the program is compiled.
MODULE = f"""//! Which edit runs.

pub(crate) fn number() -> u32 {{
    {MARK}
}}

pub(crate) fn is(edit: u32) -> bool {{
    number() == edit
}}
"""
PAIR = re.compile(r"^old: (.*)\nnew:(?: (.*))?$", re.M)


def edits_in(text):
    """The edits of a text that has many, by their names: each stands behind a line `# NAME: what it does`."""
    return dict(re.findall(r"(?ms)^# (\w+): [^\n]*\n(file: .*?)(?=^\s*$|\Z)", text))


class Together:
    """A crate's sources, with what is planted in them."""

    def __init__(self, crate, folder):
        self.crate = crate
        self.texts = {file: text for file, text in planting.texts_of(folder).items() if file.startswith("src/")}
        self.functions = planting.functions_of(self.texts, crate)
        # By function: the edits' numbers, and the lines that its body has with each.
        self.bodies = {}

    def plant(self, number, edit):
        """Plants the sources' part of an edit as this one. Answers why it can't be, or None."""
        changed, places = dict(self.texts), []
        for part in re.split(r"(?m)^file: ", edit)[1:]:
            file, _, pairs = part.partition("\n")
            for old, new in PAIR.findall(pairs) if file.startswith("src/") else ():
                if changed[file].count(old) != 1:
                    return f"the old text doesn't stand once in {file}"
                line = changed[file].partition(old)[0].count("\n")
                places.append(planting.function_at(planting.functions_of({file: changed[file]}, self.crate), file, line))
                changed[file] = changed[file].replace(old, new)
        if not places:
            return "it changes no source"
        if not all(places):
            return "it isn't within a function"
        found = {(it.file, it.name): it for it in planting.functions_of(changed, self.crate)}
        own = {(it.file, it.name): it for it in self.functions}
        for place in {(it.file, it.name.split("::")[-1], it.first) for it in places}:
            key = next(it for it in found if it[0] == place[0] and found[it].first == place[2])
            self.bodies.setdefault(own[key], []).append((number, body_of(found[key], changed)))
        return None

    def planted(self):
        """The sources with all of it, by file."""
        lines = {file: text.split("\n") for file, text in self.texts.items()}
        for function in sorted(self.bodies, key=lambda it: -it.first):
            lines[function.file][function.body + 1:function.last] = choice(self.bodies[function], body_of(function, self.texts))
        made = {file: "\n".join(text) for file, text in lines.items()}
        made["src/lib.rt"] = made["src/lib.rt"].replace("\nmod ", "\nmod planted;\nmod ", 1)
        made["src/planted.rt"] = MODULE
        return made


def body_of(function, texts):
    """The lines between a function's braces."""
    return texts[function.file].split("\n")[function.body + 1:function.last]


def choice(edits, own):
    """A body that is one of these by the number."""
    made = []
    for number, body in edits:
        made += [f"{'} else ' if made else ''}if crate::planted::is({number}) {{", *body]
    return [*made, "} else {", *own, "}"]
