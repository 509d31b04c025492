#!/usr/bin/env python3
"""A module of WebAssembly, as its sections.

usage: wasm_file.py drop-table IN.wasm OUT.wasm    without its table, and it must have no indirect call
       wasm_file.py check [--wide] FILE.wasm NAME..  it imports nothing, has no table, no start and a memory
                                                   with addresses of 32 bits, or of 64, and exports just these
                                                   names"""

import sys

TYPE, IMPORT, TABLE, MEMORY, EXPORT, START, ELEMENT = 1, 2, 4, 5, 7, 8, 9
HEAD = b"\0asm\1\0\0\0"
WITH_64_BITS = 4


def number(data, at):
    """An unsigned LEB128 number, and where it ends."""
    value = shift = 0
    while True:
        byte = data[at]
        value |= (byte & 0x7F) << shift
        at, shift = at + 1, shift + 7
        if byte < 0x80:
            return value, at


def sections(data):
    """Each section: its number, its contents, and it whole."""
    if data[:8] != HEAD:
        sys.exit("wasm_file: this is no module")
    at = len(HEAD)
    while at < len(data):
        size, front = number(data, at + 1)
        yield data[at], data[front : front + size], data[at : front + size]
        at = front + size


def exports(data):
    """The names of an export section."""
    count, at = number(data, 0)
    for _ in range(count):
        size, at = number(data, at)
        yield data[at : at + size].decode()
        _, at = number(data, at + size + 1)


def drop_table(data):
    """Older engines can't read a table with numbers of 64 bits, and nothing uses it."""
    return HEAD + b"".join(whole for kind, _, whole in sections(data) if kind not in (TABLE, ELEMENT))


def faults(data, wanted, is_wide):
    """What of the module isn't as it is wanted."""
    found = {kind: contents for kind, contents, _ in sections(data)}
    for kind, name in ((IMPORT, "imports"), (TABLE, "a table"), (START, "a start"), (ELEMENT, "elements")):
        if kind in found:
            yield f"it has {name}"
    count, at = number(found.get(MEMORY, b"\0"), 0)
    if count != 1:
        yield f"it has {count} memories"
    elif bool(found[MEMORY][at] & WITH_64_BITS) != is_wide:
        yield f"its memory has addresses of {32 if is_wide else 64} bits"
    names = sorted(exports(found.get(EXPORT, b"\0")))
    if names != sorted(wanted):
        yield f"it exports {' '.join(names)}"


def main(words):
    command, *rest = words
    is_wide = rest[0] == "--wide"
    path, *more = rest[is_wide:]
    with open(path, "rb") as it:
        data = it.read()
    if command == "drop-table":
        with open(more[0], "wb") as it:
            it.write(drop_table(data))
        return 0
    wrong = list(faults(data, more, is_wide))
    for fault in wrong:
        print(f"page: the module isn't right: {fault}")
    return 1 if wrong else 0


if __name__ == "__main__":
    sys.exit(main(sys.argv[1:]))
