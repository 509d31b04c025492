"""Reads the definitions of the crates' specs/: which names each one cites, and how many lines are to be
read for some names, with all that these cite in turn.

What the checker makes of a crate's own types (specs.declared) is code, and no definition to read; and what
stands in the kit (Rattle.std) isn't counted. A name is looked for as a word, so a variable of a definition's
name counts as that: the count is at times a little too high."""

import collections
import functools
import os
import re

ROOT = os.path.dirname(os.path.dirname(os.path.abspath(__file__)))
# What the checker makes of a crate by itself: its types, and its contracts.
MADE = ("declared", "contracts")
IMPORT = re.compile(r"\buse Rattle\.(\w+)\.specs\.([\w.]+)\.\{(.*?)\}", re.S)
WHOLE = re.compile(r"\buse Rattle\.(\w+)\.specs\.([\w.]+) as (\w+)")
HEAD = re.compile(r"(?:(?:abbrev|unfoldable) (?:pub )?|(?:pub )?(?:record|data) |pub )([^\s:]+)")
VARIANT = re.compile(r"  (\w+) :")
WORD = re.compile(r"[\w«»'◌]+(?:\.\w+)*|[^\w\s(){}.,;«»]+")

# A definition: the lines that it has, its first line, what its comment says, and the words in it.
Definition = collections.namedtuple("Definition", "lines line comment words")


def path_of(crate, module):
    return f"crates/{crate}/specs/{module.replace('.', '/')}.antt"


def is_read(crate, module):
    """Whether this is a file of specs/ of a crate of this repository."""
    return module.split(".")[0] not in MADE and os.path.isfile(f"{ROOT}/{path_of(crate, module)}")


def words_in(text):
    """The words of a text, comments apart; of `a.b` the whole, and `a` too."""
    text = re.sub(r"(?m)--.*$", "", text)
    found = set(WORD.findall(text))
    return found | {it.partition(".")[0] for it in found}


def brought_in(text):
    """The words that the `use` lines of a text bring in: the crate, the module and the name of each."""
    words = {}
    for crate, module, items in IMPORT.findall(text):
        for item in re.split(r",\s*", items.strip(" ,\n")):
            path, _, own = item.strip().rpartition(".")
            name, _, other = own.partition(" as ")
            place = f"{module}.{path}".strip(".")
            if is_read(crate, place):
                words[(other or name).strip("◌ ")] = crate, place, name.strip()
    for crate, module, alias in WHOLE.findall(text):
        if is_read(crate, module):
            words.update({f"{alias}.{name}": (crate, module, name) for name in module_of(crate, module)[1]})
    return words


@functools.cache
def module_of(crate, module):
    """A file of specs/: what it brings in, and its definitions by name. A variant is its type's."""
    with open(f"{ROOT}/{path_of(crate, module)}", encoding="utf-8") as it:
        lines = it.read().splitlines()
    found, comment, block = {}, [], None

    def close():
        if block:
            text = "\n".join(block["text"])
            it = Definition(sum(map(bool, block["text"])) + len(block["comment"]), block["line"],
                            " ".join(line.lstrip("- ") for line in block["comment"]), words_in(text))
            found.update(dict.fromkeys(block["names"], it))

    for number, line in enumerate(lines, 1):
        head = HEAD.match(line)
        if line.startswith("--"):
            comment.append(line)
            continue
        if head and not line.startswith("pub mod "):
            close()
            block = {"names": [head[1]], "line": number, "text": [], "comment": comment}
        elif not line:
            comment = []
        if block:
            block["text"] += [*(comment if not head else []), line]
            variant = VARIANT.match(line)
            if variant and re.match(r"pub data|data", block["text"][0]):
                block["names"].append(variant[1])
        comment = []
    close()
    return brought_in("\n".join(lines)), found


def cited_by(crate, module, name):
    """What a definition cites: the crate, the module and the name of each."""
    imports, own = module_of(crate, module)
    for word in own[name].words:
        if word in imports:
            yield imports[word]
        elif word in own or f"◌{word}◌" in own:
            yield crate, module, word if word in own else f"◌{word}◌"


def all_of(names):
    """These definitions, and all that they cite, and so on; one of each definition."""
    found, left = {}, list(names)
    while left:
        crate, module, name = left.pop()
        definition = module_of(crate, module)[1].get(name)
        key = crate, module, definition and definition.line
        if definition and key not in found:
            found[key] = definition.lines
            left += cited_by(crate, module, name)
    return found


def lines_of(names):
    """How many lines are to be read for these names, and in how many files they stand."""
    found = all_of(names)
    return sum(found.values()), len({key[:2] for key in found})
