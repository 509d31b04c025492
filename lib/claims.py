"""Reads docs/claims, and makes the tables of claims that pages show between `<!-- claims: GROUP -->` and
`<!-- end of claims -->`. A page shows a group, or what several have of five (`readme`)."""

import collections
import functools
import os
import re

import law_definitions
import law_sources

ROOT = os.path.dirname(os.path.dirname(os.path.abspath(__file__)))
SOURCE = "docs/claims"
PAGES = ("README.md", "docs/RELAY.md", "docs/proof/PROVED.md")
# How many claims the README has, and of how many words each at most.
FIVE, FEW = 5, 19
BLOCK = re.compile(r"(<!-- claims: ([\w -]+?) -->\n)(.*?)(<!-- end of claims -->)", re.S)
WORD = re.compile(r"[\w'-]+")
NAME = re.compile(r"`([\w:]+)`")
# What says that something has no proof.
UNPROVED = re.compile(r"\b(?:not|n't|never) proved\b|\bunproved\b", re.I)

# A claim: its line in the file, whether the README has it, whether it is proved, and what it says. Of what
# isn't proved `clauses` are those that would say it, and `premise` is how it is seen else.
Claim = collections.namedtuple("Claim", "line five proved sentence clauses premise crate")


def text_of(path):
    with open(f"{ROOT}/{path}", encoding="utf-8") as it:
        return it.read()


def groups():
    """The claims of each group, in their order."""
    found, group = {}, None
    for number, line in enumerate(text_of(SOURCE).splitlines(), 1):
        if line.startswith("= "):
            group = found.setdefault(line[2:].strip(), [])
        elif line.strip() and not line.startswith("#"):
            parts = [it.strip() for it in line.lstrip("*-").split(" | ")]
            if group is None or len(parts) != 4:
                raise ValueError(f"{SOURCE}:{number}: a line is SENTENCE | CLAUSES | PREMISE | CRATE, below a group")
            clauses = [it.strip() for it in parts[1].split(",") if it.strip() not in ("", "-")]
            group.append(Claim(number, line[0] == "*", line[0] != "-", parts[0], clauses, parts[2].removeprefix("-"), parts[3]))
    return found


@functools.cache
def clauses_of(crate):
    """The names of a crate's clauses, and of its functions that have some."""
    found = set()
    for folder, _, files in os.walk(f"{ROOT}/crates/{crate}/src"):
        for file in (it for it in files if it.endswith(".rt")):
            text = text_of(os.path.relpath(f"{folder}/{file}", ROOT))
            name = None
            for line in text.splitlines():
                said = re.match(r" *(?:ensures(?: (\w+))? \{|(?:pub(?:\([\w ]+\))? )?(?:extern \"C\" )?(?:const )?fn (\w+))", line)
                if said and said[2]:
                    name = said[2]
                elif said:
                    found |= {it for it in (name, said[1]) if it}
                elif line.strip() in ("{", "}"):
                    name = None
    return found


@functools.cache
def sources_of(crate):
    """The public functions of a crate that have clauses, methods too, each with what its file brings in."""
    found = []
    for folder, _, files in os.walk(f"{ROOT}/crates/{crate}/src"):
        for file in (it for it in files if it.endswith(".rt")):
            text = text_of(os.path.relpath(f"{folder}/{file}", ROOT))
            imports = law_definitions.brought_in(text)
            for form in (text, re.sub("(?m)^    ", "", text)):
                found += [(law, imports) for law in law_sources.laws_of(form)]
    return found


def cited(claim):
    """The definitions that a claim's clauses name: of a function all of its clauses, else those of this name."""
    for name in claim.clauses:
        crate, _, own = name.rpartition(":") if re.fullmatch(r"\w+:\w+", name) else (claim.crate, "", name)
        own = own.rpartition("::")[2]
        for law, imports in sources_of(crate):
            words = law_definitions.words_in("\n".join(it.text for it in law.clauses if own in (law.name, it.name)))
            yield from (imports[word] for word in words if word in imports)


def is_clause(claim, name):
    """Whether the claim's crate has this clause or law; `other:name` is one of another crate."""
    crate, _, own = name.rpartition(":") if re.fullmatch(r"\w+:\w+", name) else (claim.crate, "", name)
    return own.rpartition("::")[2] in clauses_of(crate)


def every_clause():
    """The names of all clauses and laws, and the crates of each."""
    found = collections.defaultdict(set)
    for crate in sorted(os.listdir(f"{ROOT}/crates")):
        for name in clauses_of(crate):
            found[name].add(crate)
    return found


def shown(claim, usual):
    """The clauses of a claim as a page has them: the crate is named where it isn't the usual one of its table."""
    own = [it for it in claim.clauses if not re.fullmatch(r"\w+:\w+", it)]
    others = collections.defaultdict(list)
    for crate, name in (it.split(":") for it in claim.clauses if it not in own):
        others[crate].append(name)
    parts = [", ".join(f"`{it}`" for it in own) + f" (`{claim.crate}`)" * (claim.crate != usual)] * bool(own)
    return "; ".join(parts + [", ".join(f"`{it}`" for it in names) + f" (`{crate}`)" for crate, names in others.items()])


def table(name):
    """The table of a group, of the README's five, or of what isn't proved."""
    every = groups()
    if name == "readme":
        chosen = [it for group in every.values() for it in group if it.five]
    else:
        chosen = [it for it in every[name.removeprefix("not proved of ")] if it.proved == (not name.startswith("not proved"))]
    if name.startswith("not proved"):
        return "".join(f"- {it.sentence}{f' ({it.premise})' if it.premise else ''}\n" for it in chosen)
    lines, files = law_definitions.lines_of({it for claim in chosen for it in cited(claim)})
    usual, count = collections.Counter(it.crate for it in chosen).most_common(1)[0]
    usual = usual if 2 * count > len(chosen) else None
    rows = "".join(f"| {it.sentence} | {it.premise} | {shown(it, usual)} |\n" for it in chosen)
    head = f"| Claim | Where | Clause{f' of `{usual}`' if usual else ''} |\n|---|---|---|\n"
    return f"Definitions to read: {lines:,} lines in {files} files.\n\n{head}{rows}"


def made(text):
    """A page's text with its tables as they are to be."""
    return BLOCK.sub(lambda it: f"{it[1]}{table(it[2])}{it[4]}", text)


def write_pages():
    """Makes the tables of the pages anew. The count of claims."""
    for page in PAGES:
        text = made(text_of(page))
        with open(f"{ROOT}/{page}", "w", encoding="utf-8") as it:
            it.write(text)
    return sum(map(len, groups().values()))


def wrong_claims():
    """A line for each claim that names no clause, or says of one that it isn't there; and for each of the README that is long."""
    every = groups()
    for claim in (it for group in every.values() for it in group):
        place = f"{SOURCE}:{claim.line}"
        for name in claim.clauses:
            if is_clause(claim, name) != claim.proved:
                yield f"{place}: {claim.crate} has " + (f"no clause {name}" if claim.proved else f"a clause {name}, and it is called not proved")
        if claim.proved and not claim.clauses:
            yield f"{place}: no clause is named"
        if claim.five and len(WORD.findall(claim.sentence)) > FEW:
            yield f"{place}: over {FEW} words, for the README"
    count = sum(it.five for group in every.values() for it in group)
    if count != FIVE:
        yield f"{SOURCE}: {count} claims are the README's, and {FIVE} are wanted"


def wrong_tables():
    """A line for each page whose tables aren't what docs/claims makes, and for each group that no page shows."""
    seen = set()
    for page in PAGES:
        text = text_of(page)
        seen |= {it[2] for it in BLOCK.finditer(text)}
        if made(text) != text:
            yield f"{page}: its table of claims isn't what scripts/claims makes"
    for name, group in groups().items():
        wanted = [name] * any(it.proved for it in group) + [f"not proved of {name}"] * any(not it.proved for it in group)
        yield from (f"{SOURCE}: no page shows {it}" for it in wanted if it not in seen)


def wrong_denials(pages):
    """A line for each sentence of a page that says of a clause that is there that it isn't proved."""
    every = every_clause()
    for page in pages:
        for number, line in enumerate(text_of(page).splitlines(), 1):
            for sentence in re.split(r"(?<=[.;:])\s", line):
                if UNPROVED.search(sentence):
                    yield from (f"{page}:{number}: {it} is a clause, and stands beside \"not proved\""
                                for it in NAME.findall(sentence) if it.rpartition("::")[2] in every)
