#!/usr/bin/env python3
"""The Go package without cgo, as one file: go_package.py MODULE.ll SOURCE.go ..

The printed functions (go_file.py), the header's calls over them, and the sources of the package with cgo, in which each
C.NAME became c_NAME. It is compiled where cgo is off; judge and player aren't in it. The module's name is its crate's."""

import os
import re
import sys

import headers
import origin
from go_file import GoPrinter
from layer import parts, structs

TYPES = {"size_t": "uint64", "uint64_t": "uint64", "int64_t": "int64", "uint32_t": "uint32", "int32_t": "int32",
         "uint16_t": "uint16", "uint8_t": "uint8"}
# Nobody reads its fields, and it is long: of its columns those cross that there are, and the others, of which no walk says anything, stay.
WHOLE = "tds_wire_memory"
USED = """
// used says how many bytes its columns have, which stand first.
func (v *c_struct_{name}) used() uint64 {{
	if n := 2 * (uint64(v.image[{count}]) | uint64(v.image[{count}+1])<<8); n < {behind} {{
		return n
	}}
	return {behind}
}}
"""
IMPORTS = ("sync", "unicode/utf16", "unsafe")
# By the two arguments behind a room, the one that says how much of it counts.
COUNTED = {("room", "count"): "count", ("kept_room", "waiting"): "waiting"}


def go_type(kind):
    return f"c_struct_{kind[7:]}" if kind.startswith("struct ") else TYPES[kind]


def declaration(it):
    if it.name == WHOLE:
        behind, count = (it.fields[field][3] for field in (1, 2))
        return f"type c_struct_{it.name} struct {{ image [{it.size}]byte }}\n" + USED.format(name=it.name, behind=behind, count=count)
    fields = "; ".join(f"{name} {f'[{many}]' if many else ''}{go_type(kind)}" for kind, name, many, _, _ in it.fields)
    return f"type c_struct_{it.name} struct {{ {fields} }}"


def image(it, writes):
    """What writes a struct to the machine at p, or reads it back."""
    lines = []
    for kind, name, many, at, size in it.fields:
        place, value, loop = f"p+{at}", f"v.{name}", ""
        if many:
            place, value, loop = f"p+{at}+{size}*uint64(k)", f"v.{name}[k]", f"for k := range v.{name} "
        if kind.startswith("struct "):
            way = f"{value}.{'to' if writes else 'from'}(m, {place})"
        elif writes:
            way = f"m.write{8 * size}({place}, uint{8 * size}({value}))"
        else:
            way = f"{value} = {TYPES[kind]}(m.read{8 * size}({place}))"
        lines.append(f"{loop}{{ {way} }}" if loop else way)
    if it.name == WHOLE:
        behind = it.fields[1][3]
        lines = [f"copy(m.b[p:], v.image[:v.used()]); copy(m.b[p+{behind}:], v.image[{behind}:])" if writes else
                 f"copy(v.image[{behind}:], m.b[p+{behind}:]); copy(v.image[:v.used()], m.b[p:])"]
    return f"func (v *c_struct_{it.name}) {'to' if writes else 'from'}(m *machine, p uint64) {{ {'; '.join(lines)} }}"


def length_of(arguments, place):
    """The argument behind a pointer that says how many there are."""
    if place + 1 < len(arguments):
        kind, name = parts(arguments[place + 1])
        if kind == "size_t":
            return name
    return None


def crossing(argument, many, counted, known):
    """How an argument that points crosses: its Go type, and what is done before the call and behind it. Of a room that is counted
    those come back that the call says it wrote, and of bytes that wait those cross that do."""
    kind, word = parts(argument)
    item, is_const = kind.replace("const", "").replace("*", "").strip(), "const" in kind
    at, whole = f"of_{word}", f"unsafe.Slice({word}, {many})"
    if item == "uint8_t" and counted:
        first = f"{at} := m.space(int({many}))"
        if counted == "waiting":
            first += f"\n\tcopy(m.b[{at}:], {whole}[:least(*{counted}, {many})])"
        return item, first, f"copy({whole}, m.wrote({at}, m.read64(of_{counted}), {many}))"
    if item == "uint8_t" and many:
        return item, f"{at} := m.hand({whole})", "" if is_const else f"copy({whole}, m.b[{at}:])"
    if item == "uint16_t" and many:
        return item, f"{at} := m.space(int({many}) * 2)\n\tfor k, it := range {whole} {{ m.write16({at}+2*uint64(k), it) }}", ""
    if item.startswith("struct "):
        size = known[item[7:]].size
        if many:
            turns = f"k := uint64(0); k < {many} && k < m.read64(of_{counted}); k++" if counted else f"k := range {whole}"
            # What is counted is read as far as the call wrote it.
            first, back = f"{at} := m.{'space' if counted else 'room'}(int({many}) * {size})", f"for {turns} {{ {whole}[k].from(m, {at}+{size}*uint64(k)) }}"
            # The others are written by their calls, and not read.
            if word == "seats" or is_const:
                first += f"\n\tfor k := range {whole} {{ {whole}[k].to(m, {at}+{size}*uint64(k)) }}"
            return item, first, "" if is_const else back
        return item, f"{at} := m.space({size}); {word}.to(m, {at})", "" if is_const else f"{word}.from(m, {at})"
    if item in ("size_t", "uint64_t"):
        # A count is only written: it is 0 where the call wrote none.
        return item, f"{at} := m.space(8); m.write64({at}, {'0' if word == 'count' else f'*{word}'})", f"*{word} = m.read64({at})"
    sys.exit(f"go_package: {argument}")


def call(answer, name, arguments, known):
    """The header's call: what is pointed to is handed to the machine, and what isn't const comes back."""
    head, words, before, behind = [], [], [], []
    for place, argument in enumerate(arguments):
        kind, word = parts(argument)
        if "*" not in kind:
            head.append(f"{word} {go_type(kind)}")
            words.append(word)
            continue
        counted = COUNTED.get(tuple(parts(it)[1] for it in arguments[place + 1: place + 3]))
        item, first, last = crossing(argument, length_of(arguments, place), counted, known)
        head.append(f"{word} *{go_type(item)}")
        words.append(f"of_{word}")
        before.append(first)
        behind += [last] if last else []
    body = ["m := machines.Get().(*machine)", "m.begin()", *before, f"answer := of_core_{name}({', '.join(['m', *words])})", *behind,
            "machines.Put(m)", "return answer"]
    return f"func c_{name}({', '.join(head)}) {TYPES[answer]} {{\n\t" + "\n\t".join(body) + "\n}\n"


def constants():
    found = {}
    for name in headers.here():
        for word, value in re.findall(r"(?m)^#define (TDS_\w+) (\d+|0x[0-9A-Fa-f]+)\b", headers.text_of(name)):
            found[word] = value
    return "const (\n" + "\n".join(f"\tc_{word} = {value}" for word, value in found.items()) + "\n)\n"


def source(path):
    """A source of the package with cgo, without its first lines."""
    with open(path, encoding="utf-8") as it:
        text = it.read()
    text = text[text.index('import "C"') + len('import "C"'):]
    text = re.sub(r'(?s)^\s*import (\(.*?\n\)|"[\w/]+")\n', "", text)
    return re.sub(r"\bC\.(\w+)", r"c_\1", text)


def main(module, *sources):
    with open(module, encoding="utf-8") as it:
        printer = GoPrinter(it.read())
    exported = {name[1:] for name in printer.module.exports()}
    known = structs()
    calls = [(answer, name, arguments) for _, answer, name, arguments in headers.prototypes() if name in exported]
    used = " ".join(" ".join(it[2]) for it in calls)
    wanted = {it for it in known if re.search(rf"struct {it}\b", used)}
    while more := {kind[7:] for it in wanted - {WHOLE} for kind, *_ in known[it].fields if kind.startswith("struct ")} - wanted:
        wanted |= more
    crate = os.path.basename(module).removesuffix(".ll")
    print("// Code generated by scripts/stored. DO NOT EDIT.\n//")
    print("\n".join(f"// {it}" for it in origin.lines(crate)))
    print("\n//go:build !cgo\n")
    print(printer.whole("mouktelf", IMPORTS))
    print("var machines = sync.Pool{New: func() any { return newMachine() }}\n")
    print("\n".join(f"type c_{name} = {kind}" for name, kind in TYPES.items()))
    print(constants())
    for it in known.values():
        if it.name in wanted:
            print(declaration(it), image(it, True), image(it, False), sep="\n")
    for it in calls:
        print(call(*it, known))
    for path in sources:
        print(source(path))


if __name__ == "__main__":
    main(*sys.argv[1:])
