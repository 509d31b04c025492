"""The definitions that are to be read: each file of specs/ that a clause of a public function or trait of a
library cites, each that such a file cites in turn, and what BESIDES names.

What the checker makes of a crate's own types (specs.declared) is code, and no file to list. The libraries are
the crates tds_* and laws_*, and proxy_header.
"""

import os
import re

ROOT = os.path.dirname(os.path.dirname(os.path.abspath(__file__)))
LIBRARIES = ("tds_", "laws_", "proxy_header")
# What the two carriers, which are impls of a public trait, say of themselves; and what functions inside say of an
# answer's steps, of what a relay hands on, and of a login's answer.
BESIDES = (("tds_play", "Memory"), ("tds_tcp", "Flows"), ("tds_server", "Due"), ("tds_relay", "Handing"), ("tds_login", "Answers"))
# What the checker makes of a crate by itself: its types, and its contracts.
MADE = ("declared", "contracts")
IMPORT = re.compile(r"ghost use Rattle\.(\w+)\.specs\.([\w.]+)\.\{(.*?)\};", re.S)
CITED = re.compile(r"\bRattle\.(\w+)\.specs\.([\w.]+)")


def file_of(crate, name):
    return f"{ROOT}/crates/{crate}/specs/{name.replace('.', '/')}.antt"


def cited_by(crate, name):
    """Returns the crate and the name of each file of specs/ that this one cites."""
    with open(file_of(crate, name), encoding="utf-8") as it:
        text = re.sub(r"(?m)--.*$", "", it.read())
    cited = set()
    for other, path in CITED.findall(text):
        names = path.strip(".").split(".")
        if names[0] in MADE or not os.path.isdir(f"{ROOT}/crates/{other}"):
            continue
        # The path goes on, behind the file, with what is taken from it.
        fronts = [".".join(names[:count]) for count in range(len(names), 0, -1)]
        cited.add((other, next((it for it in fronts if os.path.isfile(file_of(other, it))), path)))
    return cited


def text_of(path):
    with open(path, encoding="utf-8") as it:
        return re.sub(r"(?m)^\s*//.*$", "", it.read())


def brought_in(text):
    """The names that `ghost use` lines bring in, each with the crate and the path that it comes from."""
    names = {}
    for crate, path, items in IMPORT.findall(text):
        for item in re.split(r",\s*", items.strip(" ,\n")):
            path_of, _, own = item.rpartition(".")
            name, _, other = own.partition(" as ")
            names[(other or name).strip()] = (crate, f"{path}.{path_of}".strip("."))
    return names


def public_clauses(text):
    """The head of each public function, and each public trait whole."""
    for found in re.finditer(r"(?m)^( *)pub (?:extern \"C\" )?(?:const )?fn .*?^\1(?:\{|[^\n]*;$)", text, re.S):
        yield found[0]
    for found in re.finditer(r"(?m)^pub trait .*?^\}", text, re.S):
        yield found[0]


def cited_by_clauses():
    """The files of specs/ that public clauses cite, each with a source that does."""
    cited = {}
    for crate in sorted(os.listdir(f"{ROOT}/crates")):
        if not crate.startswith(LIBRARIES) or not os.path.isfile(f"{ROOT}/crates/{crate}/src/lib.rt"):
            continue
        for folder, _, files in sorted(os.walk(f"{ROOT}/crates/{crate}/src")):
            for file in sorted(it for it in files if it.endswith(".rt")):
                text = text_of(f"{folder}/{file}")
                names = brought_in(text)
                words = set(re.findall(r"[\w◌]+", " ".join(public_clauses(text))))
                for word in sorted(words & names.keys()):
                    other, path = names[word]
                    if path.split(".")[0] not in MADE and os.path.isdir(f"{ROOT}/crates/{other}"):
                        cited.setdefault((other, path), os.path.relpath(f"{folder}/{file}", ROOT))
    return cited


def all_cited():
    """The crate and the name of each file to read, sorted; ValueError where one isn't there."""
    why = cited_by_clauses() | {it: "lib/read_definitions.py" for it in BESIDES}
    found, left = set(), sorted(why)
    while left:
        crate, name = left.pop()
        if (crate, name) in found:
            continue
        if not os.path.isfile(file_of(crate, name)):
            raise ValueError(f"{crate} has no file {name} in its specs/, and {why[crate, name]} cites it")
        found.add((crate, name))
        for it in cited_by(crate, name):
            why.setdefault(it, f"{crate}: {name}")
            left.append(it)
    return sorted(found)
