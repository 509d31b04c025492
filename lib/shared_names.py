"""Which names stand for two definitions among those that the clauses of one claim (docs/claims) lead to.

A definition is what a line of specs/ declares. What a type's variants are called doesn't count: they are read as their type's.
"""

import collections
import functools

import claims
import law_definitions


@functools.cache
def heads_of(crate, module):
    """The definitions of a file of specs/, each by its first line."""
    with open(f"{claims.ROOT}/{law_definitions.path_of(crate, module)}", encoding="utf-8") as it:
        lines = enumerate(it.read().splitlines(), 1)
        found = ((law_definitions.HEAD.match(line), number, line) for number, line in lines)
        return {number: head[1] for head, number, line in found if head and not line.startswith("pub mod ")}


def places_for(claim):
    """Where the names stand that two definitions share which this claim's clauses lead to."""
    places = collections.defaultdict(set)
    for crate, module, line in law_definitions.all_of(set(claims.cited(claim))):
        name = heads_of(crate, module).get(line)
        if name:
            places[name].add((crate, module, line))
    return {name: found for name, found in places.items() if len(found) > 1}


@functools.cache
def of_claims():
    """The shared names of each proved claim that has some."""
    found = [(claim, places_for(claim)) for group in claims.groups().values() for claim in group if claim.proved]
    return [(claim, places) for claim, places in found if places]


def over_all():
    """Of each shared name all places that some claim leads to beside another, and how many claims do."""
    places, counts = collections.defaultdict(set), collections.Counter()
    for _, found in of_claims():
        for name, there in found.items():
            places[name] |= there
            counts[name] += 1
    return {name: (sorted(places[name]), counts[name]) for name in sorted(places)}
