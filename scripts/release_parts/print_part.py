"""One C file: print_part.py CRATE MODULE.ll. What it is, and what it was made of, stands in its first lines."""

import re
import sys

import headers
import origin
from layer import layer
from one_file import Printer

FIRST = """/* Mouktelf {version}: {what}.
 * Build it by `cc -c {file}` beside mouktelf.h, with any compiler of C11. No licence is chosen for it yet (LICENCE).
 *
 * This is C made from proved source, and no C that is proved. The source is Rattle, each function of it with a
 * contract that was proved; the kit's backend made an LLVM module of it, LLVM made that smaller, and this file was
 * printed from what came out. So besides what libmouktelf.a trusts (the checker, the kit's backend, the middle of
 * LLVM) it trusts the printer and the layer at its end (scripts/release_parts), and your C compiler. Never edit it.
 *
 * {origin}
 *
 * {wants} There is no state here: two calls on different values may run at the same time. */
#include "mouktelf.h"
{machines}"""

# What each crate's file has.
PARTS = {
    "tds_c": "a client of one connection, a walk over any answer, and a table of connections that callers share",
    "tds_judge_c": "the judge of recorded connections",
    "tds_play_c": "the player of schedules",
}
TAKES_MEMORY = "It wants malloc, realloc and free besides memcpy and the like."
TAKES_NONE = "It wants memcpy, memmove, memset and abort."
# Where arrays of structs cross that no image is made of, or where there are numbers of 128 bits, or constants with
# addresses in them.
FEW = """#if UINTPTR_MAX != UINT64_MAX || __BYTE_ORDER__ == __ORDER_BIG_ENDIAN__
#error "this file is for machines of 64 bits with the low byte first"
#endif
"""
NARROW = """#if UINTPTR_MAX != UINT64_MAX || !defined(__SIZEOF_INT128__) || __BYTE_ORDER__ == __ORDER_BIG_ENDIAN__
#error "this file is for machines of 64 bits with the low byte first, and compilers with __int128"
#endif
"""


def main(crate, text):
    with open(text, encoding="utf-8") as it:
        printer = Printer(it.read())
    calls = headers.calls_of(crate)
    exported = {it[1:] for it in printer.module.exports()}
    if exported != set(calls):
        sys.exit(f"print_part: the headers and the library differ: {sorted(exported ^ set(calls))}")
    layer_text, left_out = layer(calls)
    if left_out:
        print(f"print_part: on 64-bit machines with the low byte first alone: {', '.join(left_out)}", file=sys.stderr)
    whole = printer.whole()
    machines = NARROW if printer.is_narrow(whole) else FEW if left_out else ""
    wants = TAKES_MEMORY if re.search(r"\brattle_(?:re)?alloc\(", whole) else TAKES_NONE
    print(FIRST.format(version=headers.version(), what=PARTS[crate], file=headers.FILES[crate], origin="\n * ".join(origin.lines(crate)),
                       wants=wants, machines=machines))
    print(whole)
    print(layer_text, end="")


if __name__ == "__main__":
    main(*sys.argv[1:])
