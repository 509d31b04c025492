"""What LLVM calls by the name llvm.*, as Go expressions."""

import re

from go_text import SLACK
from intrinsics import SILENT
from llvm_text import Refused


def intrinsic(printer, name, gives, values, kinds):
    """The expression, or None where nothing is done."""
    words = name.split(".")[1:]
    word = words[0]
    if word in SILENT:
        return None
    if word in ("memcpy", "memmove", "memset"):
        return in_memory(printer, word, *values[:3])
    if word == "trap":
        return 'panic("trap")'
    if not kinds or kinds[0].kind != "int":
        raise Refused(f"intrinsic {name}")
    kind, go_type, bits = kinds[0], printer.c_type(kinds[0]), kinds[0].bits
    if word in ("umin", "umax"):
        return f"{'least' if word == 'umin' else 'most'}({values[0]}, {values[1]})"
    if word in ("smin", "smax"):
        left, right = (printer.signed(kind, it) for it in values)
        return printer.masked(kind, f"{go_type}({'least' if word == 'smin' else 'most'}({left}, {right}))")
    if bits not in (8, 16, 32, 64):
        raise Refused(f"intrinsic {name}")
    if words[:2] == ["usub", "sat"]:
        return f"{values[0]} - least({values[0]}, {values[1]})"
    if words[:2] == ["uadd", "sat"]:
        return f"{values[0]} + least(^{values[0]}, {values[1]})"
    if word in ("uadd", "usub", "umul") and words[1] == "with":
        return with_overflow(printer, word, gives, values, go_type)
    if word == "bswap":
        return f"bits.ReverseBytes{bits}({values[0]})"
    if word in ("ctpop", "ctlz", "cttz"):
        call = {"ctpop": "OnesCount", "ctlz": "LeadingZeros", "cttz": "TrailingZeros"}[word]
        return f"{go_type}(bits.{call}{bits}({values[0]}))"
    if word in ("fshl", "fshr"):
        shift = f"({values[2]} & {bits - 1})"
        # Of a shift by all bits nothing is left.
        left, right = (shift, f"({bits} - {shift})") if word == "fshl" else (f"({bits} - {shift})", shift)
        return f"({values[0]}<<{left} | {values[1]}>>{right})"
    if word in ("ucmp", "scmp"):
        left, right = values if word == "ucmp" else [printer.signed(kind, it) for it in values]
        return printer.masked(gives, f"{printer.c_type(gives)}(bit({left} > {right}) - bit({left} < {right}))")
    raise Refused(f"intrinsic {name}")


def in_memory(printer, word, to, source, size):
    """Few bytes are copied and cleared by an array's assignment, which Go compiles in place. Of those that may overlap none is."""
    found = re.fullmatch(r"uint\d+\((\d+)\)", size)
    if found and 0 < int(found[1]) <= SLACK:
        array = f"[{found[1]}]byte"
        at = f"*(*{array})(unsafe.Pointer(&m.b[{{}}]))"
        if word == "memset" and source == "uint8(0)":
            name = f"clear{found[1]}"
            printer.own_helpers[name] = f"func (m *machine) {name}(p uint64) {{ {at.format('p')} = {array}{{}} }}"
            return f"m.{name}({to})"
        if word == "memcpy":
            name = f"copy{found[1]}"
            printer.own_helpers[name] = f"func (m *machine) {name}(to, from uint64) {{ {at.format('to')} = {at.format('from')} }}"
            return f"m.{name}({to}, {source})"
    return f"m.{'fill' if word == 'memset' else 'move'}({to}, {source}, uint64({size}))"


def with_overflow(printer, word, gives, values, go_type):
    """A pair: the number, and whether it is another one than it would be without bounds."""
    pair = printer.c_type(gives)
    name = f"{word}{go_type[4:]}"
    sign, over = {"uadd": ("+", "r.f0 < a"), "usub": ("-", "a < b"), "umul": ("*", "a != 0 && r.f0/a != b")}[word]
    printer.own_helpers[name] = f"func {name}(a, b {go_type}) (r {pair}) {{ r.f0 = a {sign} b; r.f1 = bit({over}); return r }}"
    return f"{name}({', '.join(values)})"
