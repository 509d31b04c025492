"""What LLVM calls by the name llvm.*, as C expressions."""

from llvm_text import Refused

# They say something to the compiler alone.
SILENT = ("lifetime", "assume", "dbg", "experimental", "donothing")


def intrinsic(printer, name, gives, values, kinds):
    """The expression, or None where nothing is done."""
    words = name.split(".")[1:]
    word = words[0]
    if word in SILENT:
        return None
    if word in ("memcpy", "memmove"):
        return f"one_{'copy' if word == 'memcpy' else 'move'}({values[0]}, {values[1]}, (size_t)({values[2]}))"
    if word == "memset":
        return f"memset(ONE_AT({values[0]}), {values[1]}, (size_t)({values[2]}))"
    if word == "trap":
        return "abort()"
    if word == "arithmetic":
        # A fence keeps floats from being put into another order; C puts none into another.
        return values[0]
    if name == "llvm.x86.ssse3.pshuf.b.128":
        return of_vector(printer, "one_shuffled", gives, values, "i.e[k] & 128 ? 0 : a.e[i.e[k] & 15]", 16)
    if words[:2] == ["usub", "sat"] and kinds[0].kind == "vector" and kinds[0].of.bits == 8:
        less = "a.e[k] > i.e[k] ? (uint8_t)(a.e[k] - i.e[k]) : 0"
        return of_vector(printer, f"one_less_{kinds[0].count}", gives, values, less, kinds[0].count)
    if kinds[0].kind != "int":
        raise Refused(f"intrinsic {name} of {kinds[0].kind}")
    return of_numbers(printer, words, gives, values, kinds[0])


def of_vector(printer, name, gives, values, item, count):
    c_type = printer.c_type(gives)
    printer.own_helpers[name] = (f"static inline {c_type} {name}({c_type} a, {c_type} i) {{\n    {c_type} r;\n"
                                 f"    for (int k = 0; k < {count}; k++) r.e[k] = {item};\n    return r;\n}}")
    return f"{name}({', '.join(values)})"


def of_numbers(printer, words, gives, values, kind):
    word, c_type, bits = words[0], printer.c_type(kind), kind.bits
    if bits not in (8, 16, 32, 64) and word not in ("umin", "umax") and words[1:2] != ["sat"]:
        raise Refused(f"intrinsic llvm.{'.'.join(words)}")
    if word in ("umin", "umax"):
        return f"{values[0]} {'<' if word == 'umin' else '>'} {values[1]} ? {values[0]} : {values[1]}"
    if word in ("smin", "smax"):
        left, right = (f"(int{bits}_t){it}" for it in values)
        return f"{left} {'<' if word == 'smin' else '>'} {right} ? {values[0]} : {values[1]}"
    if words[:2] == ["usub", "sat"]:
        return f"{values[0]} > {values[1]} ? ({c_type})({values[0]} - {values[1]}) : 0u"
    if words[:2] == ["uadd", "sat"]:
        both = f"({c_type})({values[0]} + {values[1]})"
        return f"{both} < {values[0]} ? ({c_type})-1 : {both}"
    if word in ("uadd", "usub", "umul") and words[1] == "with":
        return with_overflow(printer, word, gives, values, kind)
    if word == "bswap":
        return f"one_swap{bits}({values[0]})"
    if word == "ctpop":
        return f"({c_type})one_ones({values[0]})"
    if word in ("ctlz", "cttz"):
        return f"({c_type})one_{'leading' if word == 'ctlz' else 'trailing'}({values[0]}, {bits})"
    if word in ("fshl", "fshr"):
        shift = f"({values[2]} & {bits - 1}u)"
        left, right = (shift, f"({bits}u - {shift})") if word == "fshl" else (f"({bits}u - {shift})", shift)
        whole = values[0] if word == "fshl" else values[1]
        return f"({c_type})({shift} ? ({values[0]} << {left} | {values[1]} >> {right}) : {whole})"
    if word == "abs":
        return f"({c_type})((int{bits}_t){values[0]} < 0 ? 0u - {values[0]} : {values[0]})"
    if word in ("ucmp", "scmp"):
        left, right = values if word == "ucmp" else [f"(int{bits}_t){it}" for it in values]
        return f"({printer.c_type(gives)})(({left} > {right}) - ({left} < {right}))"
    raise Refused(f"intrinsic llvm.{'.'.join(words)}")


def with_overflow(printer, word, gives, values, kind):
    """A pair: the number, and whether it is another one than it would be without bounds."""
    c_type, pair = printer.c_type(kind), printer.c_type(gives)
    name = f"one_{word}{kind.bits}"
    narrow = "1u * " if word == "umul" and kind.bits < 32 else ""
    sign, over = {
        "uadd": ("+", "r.f0 < a"),
        "usub": ("-", "a < b"),
        "umul": ("*", "a != 0 && r.f0 / a != b"),
    }[word]
    printer.own_helpers[name] = (f"static inline {pair} {name}({c_type} a, {c_type} b) {{\n    {pair} r;\n"
                                 f"    r.f0 = ({c_type})({narrow}a {sign} b);\n    r.f1 = {over};\n    return r;\n}}")
    return f"{name}({', '.join(values)})"
