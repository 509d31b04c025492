#!/usr/bin/env python3
"""The headers of the C libraries as one: headers.py mouktelf.h [OUT], or headers.py names | crates | calls CRATE |
file CRATE.

HEADERS is the one list of what is installed: each header of include/ stands here, the lowest ones first, or the
release stops. `names` prints the calls that they declare, `calls` those of a crate's library, `crates` the crates
whose headers are there, and `file` the name of a crate's C file."""

import os
import re
import sys

TOP = os.path.dirname(os.path.dirname(os.path.dirname(os.path.realpath(__file__))))

# Each header, and what a man page says of it in a line.
HEADERS = {
    "mouktelf_version": "the version of header and library",
    "tds": "the client's end of a TDS connection",
    "tds_wire": "where each token of any TDS answer ends",
    "tds_service": "a table of TDS connections that callers share",
    "tds_judge": "what both ends of a recorded TDS connection do wrong",
    "tds_play": "plays a schedule of pooled TDS sessions",
}

# The library that each header's calls are in. Each crate is a part of libmouktelf, and one C file.
CRATES = {
    "mouktelf_version": "tds_c",
    "tds": "tds_c",
    "tds_wire": "tds_c",
    "tds_service": "tds_c",
    "tds_judge": "tds_judge_c",
    "tds_play": "tds_play_c",
}
# The C file that is printed of each.
FILES = {
    "tds_c": "mouktelf.c",
    "tds_judge_c": "mouktelf_judge.c",
    "tds_play_c": "mouktelf_play.c",
}
# A call that is in another one.
CRATE_OF = {"mouktelf_play_version": "tds_play_c"}

# The header of a library that isn't installed: the page's views.
ELSEWHERE = {"tds_view"}

FIRST = """/* Mouktelf {version}: the client's end of a connection that speaks the Tabular Data Stream (MS-TDS), a table of
 * connections that callers share, a judge of recorded ones, and the player of schedules. C99 and C++. It is these headers, one behind the other:
 * {names}.
 * https://learn.microsoft.com/openspecs/windows_protocols/ms-tds has the protocol. No licence is chosen for it yet. */
#ifndef MOUKTELF_H
#define MOUKTELF_H

#include <stddef.h>
#include <stdint.h>

#ifdef __cplusplus
extern "C" {{
#endif

"""
LAST = """
#ifdef __cplusplus
}
#endif

#endif
"""
# Where a header tells of its library: what is installed is one.
OWN_LIBRARY = re.compile(r"It is lib\w+\.a, a library of its(?: |\n \* )own(?: beside(?: |\n \* )lib\w+\.a)?\.(?: |\n \* )?")
# What each header has of its own around what it declares.
FRAME = re.compile(
    r"#ifndef \w+_H\n#define \w+_H\n|#include [<\"][\w.]+[>\"]\n|#ifdef __cplusplus\n(?:extern \"C\" \{|\})\n#endif\n|#endif\s*\Z", re.M
)


def here():
    """The names of the headers that there are, in order."""
    there = {it[:-2] for it in os.listdir(f"{TOP}/include") if it.endswith(".h")} - ELSEWHERE
    if there - HEADERS.keys():
        sys.exit(f"headers: {', '.join(sorted(there - HEADERS.keys()))}: in no list of scripts/release_parts/headers.py")
    return [it for it in HEADERS if it in there]


def text_of(name):
    with open(f"{TOP}/include/{name}.h", encoding="utf-8") as it:
        return it.read()


def version():
    with open(f"{TOP}/VERSION", encoding="utf-8") as it:
        return it.read().strip()


def body_of(name):
    """What a header declares and says, without its frame."""
    text = OWN_LIBRARY.sub("", FRAME.sub("", text_of(name)))
    return re.sub(r"\n{3,}", "\n\n", text).strip() + "\n"


def joined():
    names = ", ".join(f"{it}.h" for it in here())
    return FIRST.format(version=version(), names=names) + "\n".join(body_of(it) for it in here()) + LAST


def without_comments(text):
    return re.sub(r"/\*.*?\*/", " ", text, flags=re.S)


def prototypes():
    """Each call, in order: its header, what it answers, its name and its arguments."""
    found = []
    for header in here():
        text = re.sub(r"(?m)^\s*#.*(?:\\\n.*)*$", "", without_comments(text_of(header)))
        for answer, name, words in re.findall(r"(?m)^([\w ]+?\**) ?\b(\w+)\(([^()]*)\);", text):
            arguments = [re.sub(r"\s+", " ", it).strip() for it in words.split(",")]
            found.append((header, answer.strip(), name, [] if arguments == ["void"] else arguments))
    return found


def crates():
    """The crates whose headers are there, the lowest ones first."""
    return list(dict.fromkeys(CRATES[it] for it in here()))


def calls_of(crate):
    """The calls of a crate's library."""
    return [name for header, _, name, _ in prototypes() if CRATE_OF.get(name, CRATES[header]) == crate]


def main(words):
    if words == ["names"]:
        print("\n".join(it[2] for it in prototypes()))
    elif words == ["crates"]:
        print("\n".join(crates()))
    elif words[:1] == ["calls"] and words[1:] and words[1] in crates():
        print("\n".join(calls_of(words[1])))
    elif words[:1] == ["file"] and words[1:] and words[1] in FILES:
        print(FILES[words[1]])
    elif words[:1] == ["mouktelf.h"]:
        text = joined()
        with open(words[1], "w", encoding="utf-8") if words[1:] else sys.stdout as it:
            it.write(text)
    else:
        sys.exit(__doc__)


if __name__ == "__main__":
    main(sys.argv[1:])
