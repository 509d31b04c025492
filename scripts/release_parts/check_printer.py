"""A second reader of the printer: check_printer.py MODULE.ll FOLDER. Each form of instruction of a module (its word, its types and its
constants) becomes a function of its own, that reads its operands from memory and writes its result there. LLVM
compiles these functions, and so does a C compiler what the printer makes of them; FOLDER has both and a program that
runs each on random words and compares what was written. It prints how many forms there are, and what it leaves out.

Where a form has no value for some words (a shift by too much, a division by zero) those are kept away. How blocks
are joined, and calls, are seen by the random run of the whole alone."""

import re
import sys

from instructions import FLOATS, PLAIN
from llvm_text import Module, Reader, Refused

FLAGS = ("nuw", "nsw", "exact", "disjoint", "nneg", "samesign", "inbounds", "nusw", "tail", "musttail", "notail", "fastcc")
CASTS = ("zext", "trunc", "sext", "ptrtoint", "ptrtoaddr", "inttoptr", "bitcast", "freeze", "fneg", "uitofp")
SLOT = 64
# They depend on where a function is, or say nothing of a value.
ELSEWHERE = ("phi", "br", "switch", "ret", "unreachable", "alloca")
SILENT = ("llvm.lifetime", "llvm.assume", "llvm.dbg", "llvm.experimental", "llvm.donothing", "llvm.trap")


def text_of_type(kind):
    if kind.kind == "int":
        return f"i{kind.bits}"
    if kind.kind in ("array", "vector"):
        left, right = "[]" if kind.kind == "array" else "<>"
        return f"{left}{kind.count} x {text_of_type(kind.of)}{right}"
    if kind.kind == "struct":
        inner = "{ " + ", ".join(map(text_of_type, kind.fields)) + " }"
        return f"<{inner}>" if kind.is_packed else inner
    return kind.kind


def width(bits):
    return next(it for it in (8, 16, 32, 64, 128) if bits <= it)


class Form:
    """One instruction with its operands as parameters."""

    def __init__(self, reader, word):
        self.reader, self.word, self.operands, self.numbers = reader, word, [], []
        self.text = getattr(self, f"of_{self.shape()}")()

    def shape(self):
        if self.word in PLAIN or self.word in FLOATS or self.word in ("ashr", "sdiv", "srem"):
            return "two"
        if self.word in ("icmp", "fcmp"):
            return "compare"
        if self.word in CASTS:
            return "cast"
        if self.word in ("select", "load", "store", "getelementptr", "extractvalue", "insertvalue", "call"):
            return self.word
        raise Refused(f"no form of {self.word}")

    def operand(self, kind, limit=None):
        """A parameter in a value's place; a constant stays."""
        word = self.reader.peek()
        if word[0] == "@" or word in ("getelementptr", "inttoptr", "ptrtoint", "ptrtoaddr"):
            raise Refused("an address of this module")
        if word in ("undef", "poison"):
            # It has no value, so it gets one.
            self.reader.next()
            return {"int": "0", "ptr": "null"}.get(kind.kind, "zeroinitializer")
        if word[0] != "%":
            if re.fullmatch(r"-?\d+", word):
                self.numbers.append(int(word))
                return self.reader.next()
            return self.rest_of_constant()
        self.reader.next()
        self.operands.append((kind, limit))
        return f"%v{len(self.operands) - 1}"

    def rest_of_constant(self):
        depth, words = 0, []
        while True:
            word = self.reader.next()
            depth += (word in "([{<") - (word in ")]}>")
            words.append(word)
            if depth == 0 and not (word == "splat"):
                return " ".join(words)

    def typed(self, limit=None):
        kind = self.reader.type()
        self.reader.attributes()
        return f"{text_of_type(kind)} {self.operand(kind, limit)}", kind

    def of_two(self):
        kind = self.reader.type()
        self.result = kind
        left = self.operand(kind)
        self.reader.want(",")
        limit = {"shl": "shift", "lshr": "shift", "ashr": "shift", "udiv": "divisor", "urem": "divisor", "sdiv": "divisor",
                 "srem": "divisor"}.get(self.word)
        return f"{self.word} {text_of_type(kind)} {left}, {self.operand(kind, limit)}"

    def of_compare(self):
        how, kind = self.reader.next(), self.reader.type()
        left = self.operand(kind)
        self.reader.want(",")
        self.result = Reader("i1" if kind.kind != "vector" else f"<{kind.count} x i1>", {}).type()
        return f"{self.word} {how} {text_of_type(kind)} {left}, {self.operand(kind)}"

    def of_cast(self):
        text, kind = self.typed()
        if self.word in ("freeze", "fneg"):
            self.result = kind
            return f"{self.word} {text}"
        self.reader.want("to")
        self.result = self.reader.type()
        return f"{self.word} {text} to {text_of_type(self.result)}"

    def of_select(self):
        by, _ = self.typed()
        self.reader.want(",")
        left, self.result = self.typed()
        self.reader.want(",")
        right, _ = self.typed()
        return f"select {by}, {left}, {right}"

    def of_load(self):
        self.reader.take("volatile")
        self.result = self.reader.type()
        self.reader.want(",")
        place, _ = self.typed()
        if has_bits(self.result):
            raise Refused("a load of a number of odd bits")
        return f"load {text_of_type(self.result)}, {place}, align 1"

    def of_store(self):
        value, kind = self.typed()
        if kind.kind == "struct" and kind.size != sum(it.size for it in kind.fields):
            raise Refused("a store with gaps")
        self.result = None
        self.reader.want(",")
        place, _ = self.typed()
        return f"store {value}, {place}, align 1"

    def of_getelementptr(self):
        kind = self.reader.type()
        self.result, parts = Reader("ptr", {}).type(), []
        while self.reader.take(","):
            if self.reader.peek()[0] == "!":
                break
            parts.append(self.typed("index" if parts else None)[0])
        return f"getelementptr {text_of_type(kind)}, {', '.join(parts)}"

    def path(self, kind):
        words = []
        while self.reader.take(","):
            words.append(self.reader.next())
            kind = kind.fields[int(words[-1])] if kind.kind == "struct" else kind.of
        return "".join(f", {it}" for it in words), kind

    def of_extractvalue(self):
        whole, kind = self.typed()
        path, self.result = self.path(kind)
        return f"extractvalue {whole}{path}"

    def of_insertvalue(self):
        whole, self.result = self.typed()
        self.reader.want(",")
        value, _ = self.typed()
        return f"insertvalue {whole}, {value}{self.path(self.result)[0]}"

    def of_call(self):
        self.reader.attributes()
        self.result, name, parts = self.reader.type(), self.reader.next(), []
        plain = name[1:].strip('"')
        if not plain.startswith("llvm.") or plain.startswith(SILENT):
            raise Refused("a call")
        self.reader.want("(")
        kinds, is_memory = [], plain.startswith("llvm.memset")
        if plain.startswith(("llvm.memcpy", "llvm.memmove")):
            raise Refused("a copy")
        while not self.reader.take(")"):
            last, kind = self.typed("length" if is_memory and len(parts) == 2 else None)
            if is_memory and len(parts) == 2 and re.search(r" \d{4,}$| [3-9]\d\d$", last):
                raise Refused("more bytes are set than a run has")
            kinds.append(text_of_type(kind))
            # Where a 0 has no value, it gets one.
            parts.append("i1 false" if last == "i1 true" else last)
            self.reader.take(",")
        gives = text_of_type(self.result)
        self.result = None if gives == "void" else self.result
        self.declared = f"declare {gives} {name}({', '.join(kinds)})"
        return f"call {gives} {name}({', '.join(parts)})"


def has_bits(kind):
    """Whether a number of bits that fill no bytes is in it."""
    if kind.kind == "int":
        return kind.bits % 8 != 0
    if kind.kind in ("array", "vector"):
        return has_bits(kind.of)
    return kind.kind == "struct" and any(map(has_bits, kind.fields))


def read(place, kind, limit):
    """The lines that read operand `place`."""
    at, name, odd = SLOT * place, f"%v{place}", kind.kind == "int" and kind.bits not in (8, 16, 32, 64, 128)
    lines = [f"%p{place} = getelementptr i8, ptr %in, i64 {at}"]
    if kind.kind == "vector" and kind.of.kind == "int" and kind.of.bits == 1:
        lines += [f"%w{place} = load <{kind.count} x i8>, ptr %p{place}, align 1",
                  f"{name} = trunc <{kind.count} x i8> %w{place} to <{kind.count} x i1>"]
    elif has_bits(kind) and kind.kind != "int":
        raise Refused("a struct with numbers of odd bits")
    elif odd or limit:
        whole = width(kind.bits)
        lines.append(f"%w{place} = load i{whole}, ptr %p{place}, align 1")
        lines.append(f"%x{place} = trunc i{whole} %w{place} to i{kind.bits}" if odd else f"%x{place} = or i{whole} %w{place}, 0")
        most = {"shift": kind.bits - 1 if kind.bits in (8, 16, 32, 64) else 7, "length": 31, "index": 63,
                "divisor": (1 << kind.bits - 1) - 1}.get(limit, (1 << kind.bits) - 1)
        lines.append(f"%y{place} = and i{kind.bits} %x{place}, {most}")
        lines.append(f"{name} = or i{kind.bits} %y{place}, {1 if limit == 'divisor' else 0}")
    else:
        lines.append(f"{name} = load {text_of_type(kind)}, ptr %p{place}, align 1")
    return lines


def write(kind):
    if kind is None:
        return []
    if kind.kind == "int" and kind.bits not in (8, 16, 32, 64, 128):
        return [f"%z = zext i{kind.bits} %r to i{width(kind.bits)}", f"store i{width(kind.bits)} %z, ptr %out, align 1"]
    if kind.kind == "vector" and kind.of.kind == "int" and kind.of.bits == 1:
        return [f"%z = zext <{kind.count} x i1> %r to <{kind.count} x i8>", f"store <{kind.count} x i8> %z, ptr %out, align 1"]
    if kind.kind == "double":
        # Which of the values that are no number it is depends on the machine.
        return ["%n = fcmp une double %r, %r", "%z = select i1 %n, double 0.000000e+00, double %r", "store double %z, ptr %out, align 1"]
    if kind.kind == "struct":
        # Each field by itself: what lies between two has no value.
        lines = []
        for place, field in enumerate(kind.fields):
            lines.append(f"%f{place} = extractvalue {text_of_type(kind)} %r, {place}")
            value, text = f"%f{place}", text_of_type(field)
            if field.kind == "int" and field.bits == 1:
                lines.append(f"%g{place} = zext i1 %f{place} to i8")
                value, text = f"%g{place}", "i8"
            lines += [f"%o{place} = getelementptr i8, ptr %out, i64 {16 * place}", f"store {text} {value}, ptr %o{place}, align 1"]
        return lines
    return [f"store {text_of_type(kind)} %r, ptr %out, align 1"]


def forms_of(module):
    """The forms by their text, and how many lines were left out, by reason."""
    forms, left_out = {}, {}
    functions, _ = module.reached()
    lines = []
    for function in functions:
        whole = re.sub(r"\[\n(.*?)\n\s*\]", lambda it: "[ ]", "\n".join(function.lines), flags=re.S)
        lines += whole.split("\n")
    for line in lines:
        line = re.sub(r"(, )?![\w.]+ !\d+", "", line.split(" ; preds")[0].strip())
        if not line or line.startswith(";") or re.match(r'("[^"]*"|[-\w.$]+):', line):
            continue
        try:
            reader = Reader(line, module.named)
            if reader.peek(1) == "=":
                reader.at += 2
            reader.skip(*FLAGS)
            word = reader.next()
            reader.skip(*FLAGS)
            if word in ELSEWHERE:
                raise Refused(f"where it stands matters: {word}")
            form = Form(reader, word)
            for place, (kind, limit) in enumerate(form.operands):
                read(place, kind, limit)
            forms.setdefault(form.text + repr([it[1] for it in form.operands]), form)
        except Refused as why:
            left_out[str(why)] = left_out.get(str(why), 0) + 1
    return list(forms.values()), left_out


def llvm_of(forms):
    text, declared = [], set()
    for number, form in enumerate(forms):
        lines = [it for place, (kind, limit) in enumerate(form.operands) for it in read(place, kind, limit)]
        lines.append(f"%r = {form.text}" if form.result else form.text)
        text += [f"define void @form_{number}(ptr %in, ptr %out) {{"] + [f"  {it}" for it in lines + write(form.result)] + ["  ret void", "}"]
        if hasattr(form, "declared"):
            declared.add(form.declared)
    return "\n".join(text + sorted(declared)) + "\n"


HARNESS = """
#include <stdio.h>
typedef void form(unsigned char *in, unsigned char *out);
{externs}
static form *const by_llvm[] = {{{by_llvm}}};
static form *const by_c[] = {{{by_c}}};
/* Which operands are addresses. */
static const unsigned char addresses[][8] = {{{addresses}}};
static const uint64_t numbers[] = {{0, 1, 2, 3, 7, 8, 31, 32, 63, 64, 127, 128, 255, 256, 32767, 32768, 65535, 65536, 0x7fffffffull, 0x80000000ull,
    0xffffffffull, 0x7fffffffffffffffull, 0x8000000000000000ull, 0xffffffffffffffffull{numbers}}};
static uint64_t state = 88172645463325252ull;
static uint64_t next(void) {{ state ^= state << 13, state ^= state >> 7, state ^= state << 17; return state; }}
static uint64_t word(void) {{
    uint64_t count = sizeof numbers / sizeof *numbers, it = next() >> 5;
    switch (next() >> 20 & 3) {{ case 0: return next(); case 1: return numbers[it % count]; case 2: return numbers[it % count] + (next() >> 9 & 3) - 1; default: return it & 15; }}
}}
int main(void) {{
    static unsigned char in[8 * {slot}], scratch[512], before[512], out[2][256], after[512];
    unsigned long long runs = 0, wrong = 0;
    for (int k = 0; k < {count}; k++) {{
        for (int run = 0; run < {rounds}; run++) {{
            for (unsigned i = 0; i < sizeof in; i += 8) {{ uint64_t w = word(); memcpy(in + i, &w, 8); }}
            for (unsigned i = 0; i < sizeof scratch; i += 8) {{ uint64_t w = word(); memcpy(scratch + i, &w, 8); }}
            for (int i = 0; i < 8; i++) if (addresses[k][i]) {{ unsigned char *p = scratch + 128 + (next() >> 7) % 64; memcpy(in + i * {slot}, &p, 8); }}
            memset(out, 0xA5, sizeof out);
            memcpy(before, scratch, sizeof scratch);
            by_llvm[k](in, out[0]);
            memcpy(after, scratch, sizeof scratch), memcpy(scratch, before, sizeof scratch);
            by_c[k](in, out[1]);
            runs++;
            if (memcmp(out[0], out[1], sizeof out[0]) || memcmp(after, scratch, sizeof scratch)) {{
                if (wrong++ < 20) printf("form %d differs\\n", k);
                break;
            }}
        }}
    }}
    printf("%d forms, %llu runs, %llu wrong\\n", {count}, runs, wrong);
    return wrong != 0;
}}
"""


def main(path, folder):
    from one_file import Printer
    with open(path, encoding="utf-8") as it:
        forms, left_out = forms_of(Module(it.read()))
    text = llvm_of(forms)
    with open(f"{folder}/forms.ll", "w", encoding="utf-8") as it:
        it.write(text)
    printed = Printer(text).whole()
    numbers = sorted({it & (2**64 - 1) for form in forms for it in form.numbers})
    addresses = ", ".join("{" + ", ".join(str(int(place < len(it.operands) and it.operands[place][0].kind == "ptr")) for place in range(8)) + "}"
                          for it in forms)
    every = range(len(forms))
    harness = HARNESS.format(externs="\n".join(f"extern form form_{it};" for it in every), by_llvm=", ".join(f"form_{it}" for it in every),
                             by_c=", ".join(f"core_form_{it}" for it in every), addresses=addresses, slot=SLOT, count=len(forms),
                             rounds=2000, numbers="".join(f", {it}ull" for it in numbers))
    with open(f"{folder}/forms.c", "w", encoding="utf-8") as it:
        it.write(printed + harness)
    for why, count in sorted(left_out.items()):
        print(f"left out: {count} lines, {why.removeprefix('one_file: ')}")
    print(f"{len(forms)} forms")


if __name__ == "__main__":
    main(*sys.argv[1:])
