"""Each instruction of LLVM as a line of C: INSTRUCTIONS by word. Each takes the printer, a reader behind the word, the
name of the result or None, and the word."""

from intrinsics import intrinsic
from llvm_text import POINTER, Refused, Type, integer

COMPARES = {"eq": "==", "ne": "!=", "ugt": ">", "uge": ">=", "ult": "<", "ule": "<=", "sgt": ">", "sge": ">=", "slt": "<", "sle": "<="}
FLOAT_COMPARES = {"oeq": "==", "olt": "<", "ole": "<=", "ogt": ">", "oge": ">=", "une": "!="}
PLAIN = {"add": "+", "sub": "-", "mul": "*", "and": "&", "or": "|", "xor": "^", "udiv": "/", "urem": "%", "shl": "<<", "lshr": ">>"}
SHIFTS = ("shl", "lshr", "ashr")
FLOATS = {"fadd": "+", "fsub": "-", "fmul": "*", "fdiv": "/"}
INSTRUCTIONS = {}


def named(*words):
    def add(form):
        for word in words:
            INSTRUCTIONS[word] = form
        return form
    return add


def each(count, result, value):
    """A line that writes a value, or each item of a vector; `value` reads item k then."""
    return f"for (int k = 0; k < {count}; k++) {result}.e[k] = {value};" if count else f"{result} = {value};"


def pair(printer, reader):
    """A type and two operands of it. Of a vector: its count, its items' type, and item k of both."""
    kind = reader.type()
    left = printer.value(reader, kind)
    reader.want(",")
    right = printer.value(reader, kind)
    if kind.kind == "vector":
        return kind, kind.count, kind.of, f"{left}.e[k]", f"{right}.e[k]"
    return kind, 0, kind, left, right


def of_sign(printer, kind, value):
    """The value as a signed one."""
    width = kind.bits if kind.bits in (8, 16, 32, 64, 128) else None
    if width:
        return f"({printer.signed_type(width)}){value}"
    wide = next(it for it in (8, 16, 32, 64) if kind.bits < it)
    return f"(int{wide}_t)({printer.sign_extended(kind, value, wide)})"


@named("phi")
def phi(printer, reader, result, word):
    # It is written where its block is come from.
    printer.new(reader.type(), result)


@named(*PLAIN, "ashr", "sdiv", "srem")
def arithmetic(printer, reader, result, word):
    reader.skip("nuw", "nsw", "exact", "disjoint")
    kind, count, item, left, right = pair(printer, reader)
    printer.new(kind, result)
    c_type = printer.c_type(item)
    if word in SHIFTS and not right[0].isdigit():
        # LLVM shifts by too much where it takes another value then. C must not.
        right = f"({right} & {printer.width(item) - 1}u)"
    if word in ("ashr", "sdiv", "srem"):
        sign = {"ashr": ">>", "sdiv": "/", "srem": "%"}[word]
        other = right if word == "ashr" else of_sign(printer, item, right)
        value = f"({c_type})({of_sign(printer, item, left)} {sign} {other})"
    elif c_type in ("uint64_t", "one_wide"):
        value = f"{left} {PLAIN[word]} {right}"
    else:
        # Two numbers of 16 bits would be multiplied as signed ones.
        value = f"({c_type})({'1u * ' if word == 'mul' and c_type != 'uint32_t' else ''}{left} {PLAIN[word]} {right})"
    printer.lines.append(each(count, result, printer.masked(item, value)))


@named(*FLOATS)
def of_floats(printer, reader, result, word):
    kind, _, _, left, right = pair(printer, reader)
    printer.new(kind, result)
    printer.lines.append(f"{result} = {left} {FLOATS[word]} {right};")


@named("fneg")
def negated(printer, reader, result, word):
    kind = reader.type()
    printer.new(kind, result)
    printer.lines.append(f"{result} = -{printer.value(reader, kind)};")


@named("fcmp")
def compared_floats(printer, reader, result, word):
    how = reader.next()
    if how not in FLOAT_COMPARES:
        raise Refused(f"fcmp {how}")
    _, _, _, left, right = pair(printer, reader)
    printer.new(integer(1), result)
    printer.lines.append(f"{result} = {left} {FLOAT_COMPARES[how]} {right};")


@named("uitofp")
def to_float(printer, reader, result, word):
    reader.take("nneg")
    kind = reader.type()
    value = printer.value(reader, kind)
    reader.want("to")
    printer.new(reader.type(), result)
    printer.lines.append(f"{result} = (double){value};")


@named("icmp")
def compared(printer, reader, result, word):
    reader.take("samesign")
    how = reader.next()
    _, count, item, left, right = pair(printer, reader)
    printer.new(Type("vector", count=count, of=integer(1)) if count else integer(1), result)
    if item.kind == "ptr":
        left, right = f"ONE_NUMBER({left})", f"ONE_NUMBER({right})"
    elif how[0] == "s":
        left, right = of_sign(printer, item, left), of_sign(printer, item, right)
    printer.lines.append(each(count, result, f"{left} {COMPARES[how]} {right}"))


@named("zext", "trunc", "sext", "ptrtoint", "ptrtoaddr", "inttoptr")
def converted(printer, reader, result, word):
    reader.skip("nneg", "nuw", "nsw")
    kind = reader.type()
    value, count = printer.value(reader, kind), 0
    reader.want("to")
    to = reader.type()
    printer.new(to, result)
    if kind.kind == "vector":
        count, value, kind, to = kind.count, f"{value}.e[k]", kind.of, to.of
    c_type = printer.c_type(to)
    if word == "sext" and kind.bits == 1:
        value = printer.masked(to, f"({c_type})(0u - {value})" if to.bits <= 32 else f"({c_type})0 - {value}")
    elif word == "zext":
        value = f"({c_type}){value}"
    elif word == "trunc":
        value = printer.masked(to, f"({c_type}){value}")
    elif word == "sext":
        value = printer.masked(to, printer.sign_extended(kind, value, width(to)))
    elif word == "inttoptr":
        value = f"ONE_POINTER({value})"
    else:
        value = printer.masked(to, f"({c_type})ONE_NUMBER({value})")
    printer.lines.append(each(count, result, value))


def width(kind):
    return next(it for it in (8, 16, 32, 64, 128) if kind.bits <= it)


@named("freeze")
def frozen(printer, reader, result, word):
    kind = reader.type()
    printer.new(kind, result)
    printer.lines.append(f"{result} = {printer.value(reader, kind)};")


@named("bitcast")
def same_bits(printer, reader, result, word):
    kind = reader.type()
    value = printer.value(reader, kind)
    reader.want("to")
    to = reader.type()
    printer.new(to, result)
    shape = kind.kind, to.kind
    if shape == ("vector", "int") and kind.of.bits == 1:
        c_type = printer.c_type(to)
        printer.lines.append(f"{result} = 0; for (int k = 0; k < {kind.count}; k++) "
                             f"{result} = ({c_type})({result} | ({c_type}){value}.e[k] << k);")
    elif shape == ("int", "double"):
        printer.lines.append(f"{result} = one_double({value});")
    elif shape == ("double", "int"):
        printer.lines.append(f"{result} = one_bits({value});")
    elif shape == ("vector", "vector") and kind.of.bits == to.of.bits == 8:
        printer.lines.append(f"{result} = {value};")
    else:
        raise Refused(f"bitcast of {kind.key} to {to.key}")


@named("select")
def chosen(printer, reader, result, word):
    by = reader.type()
    holds = printer.value(reader, by)
    reader.want(",")
    kind = reader.type()
    left = printer.value(reader, kind)
    reader.want(",")
    reader.type()
    right = printer.value(reader, kind)
    printer.new(kind, result)
    if by.kind == "vector":
        printer.lines.append(each(kind.count, result, f"{holds}.e[k] ? {left}.e[k] : {right}.e[k]"))
    elif kind.kind in ("struct", "array", "vector"):
        printer.lines.append(f"if ({holds}) {result} = {left}; else {result} = {right};")
    else:
        printer.lines.append(f"{result} = {holds} ? {left} : {right};")


@named("shufflevector")
def shuffled(printer, reader, result, word):
    kind = reader.type()
    left = printer.value(reader, kind)
    reader.want(",")
    reader.type()
    right = printer.value(reader, kind)
    reader.want(",")
    to = reader.type()
    printer.new(Type("vector", count=to.count, of=kind.of), result)
    if reader.peek() in ("zeroinitializer", "poison"):
        items = ["0"] * to.count
    elif reader.peek() == "splat":
        items = [reader.words[-2]] * to.count
    else:
        reader.want("<")
        items = []
        while not reader.take(">"):
            reader.type()
            items.append(reader.next())
            reader.take(",")
    for place, item in enumerate(items):
        if item != "poison":
            item = int(item)
            source = f"{left}.e[{item}]" if item < kind.count else f"{right}.e[{item - kind.count}]"
        else:
            source = "0"
        printer.lines.append(f"{result}.e[{place}] = {source};")


@named("insertelement")
def with_item(printer, reader, result, word):
    kind = reader.type()
    whole = printer.value(reader, kind)
    reader.want(",")
    item = printer.value(reader, reader.type())
    reader.want(",")
    place = printer.value(reader, reader.type())
    printer.new(kind, result)
    printer.lines.append(f"{result} = {whole}; {result}.e[{place}] = {item};")


@named("extractelement")
def item_of(printer, reader, result, word):
    kind = reader.type()
    whole = printer.value(reader, kind)
    reader.want(",")
    place = printer.value(reader, reader.type())
    printer.new(kind.of, result)
    printer.lines.append(f"{result} = {whole}.e[{place}];")


def path_of(reader, kind):
    """The rest of a line as a path into a struct, and the type there."""
    path = ""
    while reader.take(","):
        place = int(reader.next())
        path += f".f{place}" if kind.kind == "struct" else f".e[{place}]"
        kind = kind.fields[place] if kind.kind == "struct" else kind.of
    return path, kind


@named("extractvalue")
def field_of(printer, reader, result, word):
    kind = reader.type()
    whole = printer.value(reader, kind)
    path, field = path_of(reader, kind)
    printer.new(field, result)
    printer.lines.append(f"{result} = {whole}{path};")


@named("insertvalue")
def with_field(printer, reader, result, word):
    kind = reader.type()
    whole = printer.value(reader, kind)
    reader.want(",")
    value = printer.value(reader, reader.type())
    path, _ = path_of(reader, kind)
    printer.new(kind, result)
    printer.lines.append(f"{result} = {whole}; {result}{path} = {value};")


@named("alloca")
def room(printer, reader, result, word):
    kind = reader.type()
    printer.new(POINTER, result)
    printer.locals.append((None, f"_Alignas(16) unsigned char at_{result}[{max(kind.size, 1)}];"))
    printer.lines.append(f"{result} = ONE_POINTER((uintptr_t)at_{result});")


@named("load")
def loaded(printer, reader, result, word):
    reader.take("volatile")
    kind = reader.type()
    reader.want(",")
    place = printer.value(reader, reader.type())
    printer.new(kind, result)
    printer.lines.append(f"{result} = {printer.load(kind, place)};")


@named("store")
def stored(printer, reader, result, word):
    kind = reader.type()
    value = printer.value(reader, kind)
    reader.want(",")
    printer.lines.append(f"{printer.store(kind, printer.value(reader, reader.type()), value)};")


@named("getelementptr")
def stepped(printer, reader, result, word):
    reader.skip("inbounds", "nuw", "nusw")
    place = printer.place(reader)
    printer.new(POINTER, result)
    printer.lines.append(f"{result} = {place};")


@named("br")
def branch(printer, reader, result, word):
    if reader.take("label"):
        printer.lines.append(printer.edge(reader.next()))
        return
    holds = printer.value(reader, reader.type())
    reader.want(",")
    reader.want("label")
    left = reader.next()
    reader.want(",")
    reader.want("label")
    printer.lines.append(f"if ({holds}) {{ {printer.edge(left)} }} {printer.edge(reader.next())}")


@named("switch")
def switch(printer, reader, result, word):
    value = printer.value(reader, reader.type())
    reader.want(",")
    reader.want("label")
    other = reader.next()
    reader.want("[")
    cases = []
    while not reader.take("]"):
        case = printer.value(reader, reader.type())
        reader.want(",")
        reader.want("label")
        cases.append(f"case {case}: {printer.edge(reader.next())}")
    printer.lines.append(f"switch ({value}) {{ {' '.join(cases)} default: {printer.edge(other)} }}")


@named("ret")
def answer(printer, reader, result, word):
    kind = reader.type()
    printer.lines.append("return;" if kind.kind == "void" else f"return {printer.value(reader, kind)};")


@named("unreachable")
def unreachable(printer, reader, result, word):
    printer.lines.append("one_never();")


@named("call")
def call(printer, reader, result, word):
    reader.skip("fastcc", "coldcc")
    reader.attributes()
    gives, function, values, kinds = reader.type(), reader.next(), [], []
    reader.want("(")
    while not reader.take(")"):
        if reader.peek() == "metadata":
            # It only tells a debugger.
            return
        kinds.append(reader.type())
        reader.attributes()
        values.append(printer.value(reader, kinds[-1]))
        reader.take(",")
    name = function[1:].strip('"')
    if name.startswith("llvm."):
        text = intrinsic(printer, name, gives, values, kinds)
        if text is None:
            return
    elif function in printer.module.functions or name in ("rattle_alloc", "rattle_realloc", "rattle_dealloc"):
        text = f"{printer.name_of(function)}({', '.join(values)})"
    elif name in ("memcmp", "bcmp"):
        text = f"(uint32_t)memcmp(ONE_AT({values[0]}), ONE_AT({values[1]}), (size_t){values[2]})"
    else:
        raise Refused(f"a call of {function}")
    if result:
        printer.new(gives, result)
        text = f"{result} = {text}"
    printer.lines.append(f"{text};")
