"""Each form of an instruction of LLVM, as a printer of Go (go_file.py) writes it: its lines, and the local that it is kept in."""

import re

from go_intrinsics import intrinsic
from instructions import COMPARES, PLAIN, pair, path_of
from llvm_text import POINTER, Refused, Type, integer
from one_file import width_of

INSTRUCTIONS = {}


def named(*words):
    def add(form):
        for word in words:
            INSTRUCTIONS[word] = form
        return form
    return add


def each(count, result, value):
    return f"for k := 0; k < {count}; k++ {{ {result}.e[k] = {value} }}" if count else f"{result} = {value}"


@named("phi")
def phi(printer, reader, result, word):
    printer.new(reader.type(), result)


@named(*PLAIN, "ashr", "sdiv", "srem")
def arithmetic(printer, reader, result, word):
    reader.skip("nuw", "nsw", "exact", "disjoint")
    kind, count, item, left, right = pair(printer, reader)
    printer.new(kind, result)
    go_type = printer.c_type(item)
    if word in ("ashr", "sdiv", "srem"):
        sign = {"ashr": ">>", "sdiv": "/", "srem": "%"}[word]
        value = f"{go_type}({printer.signed(item, left)} {sign} {right if word == 'ashr' else printer.signed(item, right)})"
    elif all(re.match(r"uint\d+\(\d", it) for it in (left, right)):
        # Go's compiler would refuse one that wraps.
        raise Refused("a sum of two constants")
    else:
        value = f"{left} {PLAIN[word]} {right}"
    printer.lines.append(each(count, result, printer.masked(item, value)))


@named("icmp")
def compared(printer, reader, result, word):
    reader.take("samesign")
    how = reader.next()
    _, count, item, left, right = pair(printer, reader)
    printer.new(Type("vector", count=count, of=integer(1)) if count else integer(1), result)
    if how[0] == "s":
        left, right = printer.signed(item, left), printer.signed(item, right)
    printer.lines.append(each(count, result, f"bit({left} {COMPARES[how]} {right})"))


@named("zext", "trunc", "sext", "ptrtoint", "ptrtoaddr", "inttoptr")
def converted(printer, reader, result, word):
    reader.skip("nneg", "nuw", "nsw")
    kind = reader.type()
    value, count = printer.value(reader, kind), 0
    reader.want("to")
    to = reader.type()
    printer.new(to, result)
    if kind.kind == "vector":
        count, value, kind, to = kind.count, f"{value}.e[k]", kind.of, to.of
    go_type = printer.c_type(to)
    if word == "sext":
        value = printer.masked(to, f"0 - {go_type}({value})" if kind.bits == 1 else printer.sign_extended(kind, value, width_of(to.bits)))
    elif word in ("trunc", "ptrtoint", "ptrtoaddr"):
        value = printer.masked(to, f"{go_type}({value})")
    else:
        value = f"{go_type}({value})"
    printer.lines.append(each(count, result, value))


@named("freeze")
def frozen(printer, reader, result, word):
    kind = reader.type()
    printer.new(kind, result)
    printer.lines.append(f"{result} = {printer.value(reader, kind)}")


@named("select")
def chosen(printer, reader, result, word):
    by = reader.type()
    holds = printer.value(reader, by)
    reader.want(",")
    kind = reader.type()
    left = printer.value(reader, kind)
    reader.want(",")
    reader.type()
    right = printer.value(reader, kind)
    printer.new(kind, result)
    if by.kind == "vector":
        raise Refused("select of a vector")
    printer.lines.append(f"if {holds} != 0 {{ {result} = {left} }} else {{ {result} = {right} }}")


@named("extractvalue")
def field_of(printer, reader, result, word):
    kind = reader.type()
    whole = printer.value(reader, kind)
    path, field = path_of(reader, kind)
    printer.new(field, result)
    printer.lines.append(f"{result} = {whole}{path}")


@named("insertvalue")
def with_field(printer, reader, result, word):
    kind = reader.type()
    whole = printer.value(reader, kind)
    reader.want(",")
    value = printer.value(reader, reader.type())
    path, _ = path_of(reader, kind)
    printer.new(kind, result)
    printer.lines.append(f"{result} = {whole}; {result}{path} = {value}")


@named("alloca")
def room(printer, reader, result, word):
    kind = reader.type()
    printer.new(POINTER, result)
    printer.lines.append(f"{result} = sp + {printer.frame}")
    printer.frame += (max(kind.size, 1) + 15) & ~15


@named("load")
def loaded(printer, reader, result, word):
    reader.take("volatile")
    kind = reader.type()
    reader.want(",")
    place = printer.value(reader, reader.type())
    printer.new(kind, result)
    printer.lines.append(f"{result} = {printer.load(kind, place)}")


@named("store")
def stored(printer, reader, result, word):
    kind = reader.type()
    value = printer.value(reader, kind)
    reader.want(",")
    printer.lines.append(printer.store(kind, printer.value(reader, reader.type()), value))


@named("getelementptr")
def stepped(printer, reader, result, word):
    reader.skip("inbounds", "nuw", "nusw")
    place = printer.place(reader)
    printer.new(POINTER, result)
    printer.lines.append(f"{result} = {place}")


@named("br")
def branch(printer, reader, result, word):
    if reader.take("label"):
        printer.lines.append(printer.edge(reader.next()))
        return
    holds = printer.value(reader, reader.type())
    reader.want(",")
    reader.want("label")
    left = reader.next()
    reader.want(",")
    reader.want("label")
    printer.lines.append(f"if {holds} != 0 {{ {printer.edge(left)} }}")
    printer.lines.append(printer.edge(reader.next()))


@named("switch")
def switch(printer, reader, result, word):
    value = printer.value(reader, reader.type())
    reader.want(",")
    reader.want("label")
    other = reader.next()
    reader.want("[")
    cases = []
    while not reader.take("]"):
        case = printer.value(reader, reader.type())
        reader.want(",")
        reader.want("label")
        cases.append(f"case {case}: {printer.edge(reader.next())};")
    printer.lines.append(f"switch {value} {{ {' '.join(cases)} default: {printer.edge(other)} }}")


@named("ret")
def answer(printer, reader, result, word):
    kind = reader.type()
    printer.lines.append(f"{printer.back}return" + ("" if kind.kind == "void" else f" {printer.value(reader, kind)}"))


@named("unreachable")
def unreachable(printer, reader, result, word):
    printer.lines.append('panic("unreachable")')


@named("call")
def call(printer, reader, result, word):
    reader.skip("fastcc", "coldcc")
    reader.attributes()
    gives, function, values, kinds = reader.type(), reader.next(), [], []
    reader.want("(")
    while not reader.take(")"):
        if reader.peek() == "metadata":
            return
        kinds.append(reader.type())
        reader.attributes()
        values.append(printer.value(reader, kinds[-1]))
        reader.take(",")
    name = function[1:].strip('"')
    if name.startswith("llvm."):
        text = intrinsic(printer, name, gives, values, kinds)
        if text is None:
            return
    elif function in printer.module.functions:
        printer.called.add(function)
        text = f"{printer.name_of(function)}({', '.join(['m', *values])})"
    elif name in ("memcmp", "bcmp"):
        text = f"m.compare({', '.join(values)})"
    else:
        raise Refused(f"a call of {function}")
    if result:
        printer.new(gives, result)
        text = f"{result} = {text}"
    printer.lines.append(text)
