"""Reads the public laws of a Rattle source: each function, its clauses, and what the comments say of them."""

import collections
import re

FUNCTION = re.compile(r"pub fn (\w+)")
CLAUSE = re.compile(r"    (requires|ensures)(?: (\w+))? \{")
# A sentence ends at a full stop before a blank and a new beginning.
SENTENCE = re.compile(r"(?<=\.)\s+(?=[A-Z(`\[])|(?<=\.\))\s+")

Law = collections.namedtuple("Law", "name line comment clauses")
Clause = collections.namedtuple("Clause", "kind name text comment")


def sentences(comment):
    return SENTENCE.split(comment) if comment else []


def laws_of(text):
    """The public functions of a source that have clauses, in their order."""
    lines = text.splitlines()
    for number, line in enumerate(lines):
        found = FUNCTION.match(line)
        if found:
            clauses = list(clauses_from(lines, number + 1))
            if clauses:
                yield Law(found[1], number + 1, comment_above(lines, number), clauses)


def comment_above(lines, number):
    """The doc comment above a line; what is between them in brackets is passed."""
    said = []
    while number and re.match(r"///|#\[", lines[number - 1]):
        number -= 1
        if lines[number].startswith("///"):
            said.insert(0, lines[number].removeprefix("///").strip())
    return " ".join(filter(None, said))


def clauses_from(lines, number):
    """The clauses of a function whose head is above this line; a comment is of all below it."""
    comment, above = "", False
    while number < len(lines) and not lines[number].startswith(("{", "}")):
        line = lines[number].strip()
        found = CLAUSE.match(lines[number])
        number += 1
        if line.startswith("//"):
            comment = f"{comment} {line.lstrip('/ ')}".strip() if above else line.lstrip("/ ")
            above = True
            continue
        above = False
        if found:
            text = [lines[number - 1][found.end() :]]
            while number < len(lines) and not re.match(r"    (requires|ensures|//)|[{}]", lines[number]):
                text.append(lines[number])
                number += 1
            yield Clause(found[1], found[2], "\n".join(text).rstrip().removesuffix("}"), comment)


def parts_of(text):
    """What stands between the arrows of a clause, in no bracket: the last one is what is claimed."""
    depth, parts = 0, [""]
    for sign in text:
        depth += sign in "({⟦"
        depth -= sign in ")}⟧"
        if sign == "→" and depth == 0:
            parts.append("")
        else:
            parts[-1] += sign
    return [" ".join(part.split()) for part in parts]


def premises_of(text):
    """The predicates that a clause supposes, by name. What it binds, and what it supposes to be equal or
    unequal, is no predicate."""
    for part in parts_of(text)[:-1]:
        found = re.match(r"([A-Z]\w*(?:\.\w+)?)\b(?! [:≡≢≤<])", part)
        if found and not re.search(r" [≡≢≤<] ", part):
            yield found[1]
