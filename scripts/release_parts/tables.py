"""The constants of a module as tables of bytes."""

import re

from llvm_text import Reader, Refused


def bytes_of(printer, reader, kind):
    """The bytes of a constant; an address is one item of text, and seven that are None."""
    word, size = reader.peek(), kind.size
    if word in ("zeroinitializer", "undef", "poison", "null"):
        reader.next()
        return [0] * size
    if word.startswith('c"'):
        text = reader.next()[2:-1]
        parts = re.findall(r"\\\\|\\[0-9A-Fa-f]{2}|[^\\]", text)
        return [92 if it == "\\\\" else int(it[1:], 16) if it[0] == "\\" else ord(it) for it in parts]
    if kind.kind == "int":
        reader.next()
        value = {"true": 1, "false": 0}.get(word)
        value = int(word) if value is None else value
        return list((value & ((1 << 8 * size) - 1)).to_bytes(size, "little"))
    if kind.kind == "ptr":
        return [printer.value(reader, kind)] + [None] * 7
    is_packed = reader.next() == "<" and reader.take("{")
    found, place = [], 0
    while reader.peek() not in ("}", "]", ">"):
        part = reader.type()
        if kind.kind == "struct":
            found += [0] * (kind.offset(place) - len(found))
        found += bytes_of(printer, reader, part)
        place += 1
        reader.take(",")
    reader.next()
    if is_packed:
        reader.want(">")
    return found + [0] * (size - len(found))


def texts_of(printer, names):
    """The constants as C, those with addresses in them last."""
    plain, tables = [], []
    for word in names:
        reader = Reader(printer.module.constants[word], printer.module.named)
        reader.next()
        reader.want("=")
        is_constant = False
        while reader.peek() in ("private", "internal", "unnamed_addr", "local_unnamed_addr", "constant", "dso_local", "hidden"):
            is_constant |= reader.next() == "constant"
        if not is_constant:
            raise Refused(f"a variable: {word}")
        data, name = bytes_of(printer, reader, reader.type()), printer.name_of(word)
        if any(isinstance(it, str) for it in data):
            tables.append(table(name, data))
        else:
            text = ", ".join(map(str, data)) or "0"
            plain.append(f"static const unsigned char {name}[{max(len(data), 1)}] = {{{text}}};")
    return plain + tables


def table(name, data):
    """A constant with addresses in it."""
    members, values, run = [], [], []

    def flush():
        if run:
            members.append(f"unsigned char m{len(members)}[{len(run)}];")
            values.append("{" + ", ".join(map(str, run)) + "}")
            run.clear()

    for it in data:
        if isinstance(it, str):
            flush()
            members.append(f"union {{ const unsigned char *p; uint64_t w; }} m{len(members)};")
            values.append("{" + it.replace("ONE_POINTER((uintptr_t)", "((const unsigned char *)") + "}")
        elif it is not None:
            run.append(it)
    flush()
    return f"static const struct {{ {' '.join(members)} }} {name} = {{{', '.join(values)}}};"
