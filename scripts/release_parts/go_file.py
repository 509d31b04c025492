#!/usr/bin/env python3
"""Prints the module of the client as Go without cgo: go_file.py IN.ll PACKAGE.

Each function becomes a Go function, each value a local variable, each block a label. Memory is a slice of bytes of the
machine that each function is handed: an address is a place in it, the constants lie lowest. A wrong address ends in a
panic. All arithmetic is on unsigned integers. What isn't known is refused."""

import re
import sys

from go_instructions import INSTRUCTIONS
from go_text import FIRST, HELPERS, SLACK
from llvm_text import Reader, Refused, integer
from one_file import Printer, width_of
from tables import bytes_of

# Nothing lies at address 0, or near to it.
FIRST_PLACE = 64
WORDS_OF_A_CONSTANT = ("private", "internal", "unnamed_addr", "local_unnamed_addr", "constant", "dso_local", "hidden")


class GoPrinter(Printer):
    """The printer of a module."""

    def __init__(self, text):
        super().__init__(text)
        self.places, self.image = {}, bytearray(FIRST_PLACE)
        # What a function's rooms take of the stack, and which functions it calls: of the one that is printed, and of all by name.
        self.frame, self.called, self.frames = 0, set(), {}

    # Types and numbers

    def c_type(self, kind):
        if kind.kind == "void":
            return ""
        if kind.kind == "ptr":
            return "uint64"
        if kind.kind == "int":
            if width_of(kind.bits) == 128:
                raise Refused("a number of more than 64 bits")
            return f"uint{width_of(kind.bits)}"
        if kind.kind not in ("struct", "array", "vector"):
            raise Refused(f"a type {kind.kind}")
        if kind.key not in self.structs:
            if kind.kind == "struct":
                body = "; ".join(f"f{place} {self.c_type(it)}" for place, it in enumerate(kind.fields))
            else:
                body = f"e [{kind.count}]{self.c_type(kind.of)}"
            self.structs[kind.key] = f"one{len(self.structs)}"
            self.struct_texts.append(f"type {self.structs[kind.key]} struct {{ {body} }}")
        return self.structs[kind.key]

    def declared(self, kind, name):
        return f"{name} {self.c_type(kind)}"

    def masked(self, kind, value):
        return value if kind.bits == width_of(kind.bits) else f"(({value}) & {(1 << kind.bits) - 1:#x})"

    @staticmethod
    def constant_of(kind, value):
        """The signed number that a constant is, or None."""
        found = re.fullmatch(r"uint\d+\((\d+)\)", value)
        number = int(found[1]) if found else None
        return number - (1 << kind.bits) if found and number >> (kind.bits - 1) else number

    def sign_extended(self, kind, value, bits):
        if kind.bits == bits:
            return value
        if (number := self.constant_of(kind, value)) is not None:
            return self.number(integer(bits), number)
        if kind.bits in (8, 16, 32, 64):
            return f"uint{bits}(int{bits}(int{kind.bits}({value})))"
        sign = f"{1 << (kind.bits - 1):#x}"
        return f"uint{width_of(bits)}((uint64({value}) ^ {sign}) - {sign})"

    def signed(self, kind, value):
        """The value as a signed one of its width."""
        width, number = width_of(kind.bits), self.constant_of(kind, value)
        # Go's compiler refuses to make a signed constant of a large one.
        return f"int{width}({self.sign_extended(kind, value, width) if number is None else number})"

    def number(self, kind, value):
        return f"{self.c_type(kind)}({int(value) & ((1 << kind.bits) - 1)})"

    # Memory

    def load(self, kind, place):
        if kind.kind == "ptr":
            return f"m.read64({place})"
        if kind.kind == "int":
            if kind.bits > 8 and kind.bits != width_of(kind.bits):
                return self.masked(kind, f"{self.c_type(kind)}(m.readOdd({place}, {(kind.bits + 7) // 8}))")
            return self.masked(kind, f"m.read{width_of(kind.bits)}({place})")
        self.copier(kind)
        return f"{self.c_type(kind)}Read(m, {place})"

    def store(self, kind, place, value):
        if kind.kind == "ptr":
            return f"m.write64({place}, {value})"
        if kind.kind == "int":
            if kind.bits > 8 and kind.bits != width_of(kind.bits):
                return f"m.writeOdd({place}, uint64({value}), {(kind.bits + 7) // 8})"
            return f"m.write{width_of(kind.bits)}({place}, {value})"
        self.copier(kind)
        return f"{self.c_type(kind)}Write(m, {place}, {value})"

    def copier(self, kind):
        if kind.key in self.copiers:
            return
        self.copiers[kind.key] = None
        name = self.c_type(kind)
        if kind.kind == "struct":
            parts = [(f"f{place}", it, kind.offset(place)) for place, it in enumerate(kind.fields)]
        else:
            parts = [(f"e[{place}]", kind.of, kind.of.size * place) for place in range(kind.count)]
        reads = "; ".join(f"v.{part} = {self.load(it, f'p+{at}')}" for part, it, at in parts)
        writes = "; ".join(self.store(it, f"p+{at}", f"v.{part}") for part, it, at in parts)
        self.copiers[kind.key] = (f"func {name}Read(m *machine, p uint64) (v {name}) {{ {reads}; return v }}\n"
                                  f"func {name}Write(m *machine, p uint64, v {name}) {{ {writes} }}")
        self.copier_order.append(kind.key)

    def place_of(self, word):
        """The address of a constant, which is put into the image."""
        if word not in self.places:
            self.places[word] = None
            reader = Reader(self.module.constants[word], self.module.named)
            reader.next()
            reader.want("=")
            reader.skip(*WORDS_OF_A_CONSTANT)
            data = bytes_of(self, reader, reader.type())
            self.image += bytes(-len(self.image) % 16)
            self.places[word] = len(self.image)
            for it in data:
                if isinstance(it, str):
                    self.image += int(re.fullmatch(r"uint64\((\d+)\)", it)[1]).to_bytes(8, "little")
                elif it is not None:
                    self.image.append(it)
        if self.places[word] is None:
            raise Refused(f"a constant with its own address: {word}")
        return self.places[word]

    # Values

    def name_of(self, word):
        return f"of_{super().name_of(word)}"

    def value(self, reader, kind):
        word = reader.peek()
        if word[0] == "%":
            return self.local(reader.next())
        if word[0] == "@":
            reader.next()
            if word in self.module.functions:
                raise Refused("an address of a function")
            return f"uint64({self.place_of(word)})"
        if word in ("true", "false"):
            return f"uint8({int(reader.next() == 'true')})"
        if word in ("undef", "poison", "zeroinitializer", "null"):
            reader.next()
            return "uint64(0)" if kind.kind == "ptr" else self.number(kind, 0) if kind.kind == "int" else f"{self.c_type(kind)}{{}}"
        if re.fullmatch(r"-?\d+", word):
            return self.number(kind, reader.next())
        return self.constant(reader, kind)

    def constant(self, reader, kind):
        word = reader.next()
        if word in ("inttoptr", "ptrtoint", "ptrtoaddr"):
            reader.want("(")
            inner = self.value(reader, reader.type())
            reader.want("to")
            reader.type()
            reader.want(")")
            return f"uint64({inner})"
        if word == "getelementptr":
            reader.skip("inbounds", "nuw", "nusw")
            reader.want("(")
            place = self.place(reader)
            reader.want(")")
            return place
        items = []
        if word == "splat":
            reader.want("(")
            items = [self.value(reader, reader.type())] * kind.count
            reader.want(")")
        elif word in "{<[":
            ends = ["}", ">"] if word == "<" and reader.take("{") else [{"{": "}", "[": "]", "<": ">"}[word]]
            while reader.peek() != ends[0]:
                items.append(self.value(reader, reader.type()))
                reader.take(",")
            for end in ends:
                reader.want(end)
        else:
            raise Refused(f"constant {word} in {' '.join(reader.words)}")
        inner = ", ".join(items)
        name = self.c_type(kind)
        return f"{name}{{{inner}}}" if kind.kind == "struct" else f"{name}{{[{kind.count}]{self.c_type(kind.of)}{{{inner}}}}}"

    def place(self, reader):
        kind = reader.type()
        reader.want(",")
        base, fixed, steps, is_first = self.value(reader, reader.type()), 0, [], True
        while reader.take(","):
            if reader.peek()[0] == "!":
                break
            index, word = reader.type(), reader.peek()
            step = self.value(reader, index)
            if not is_first and kind.kind == "struct":
                fixed += kind.offset(int(word))
                kind = kind.fields[int(word)]
                continue
            if not is_first:
                kind = kind.of
            is_first = False
            if re.fullmatch(r"-?\d+", word):
                fixed += kind.size * int(word)
            else:
                step = self.sign_extended(index, step, 64)
                steps.append(step if kind.size == 1 else f"{step}*{kind.size}")
        text = base + "".join(f" + {it}" for it in steps)
        if fixed:
            text += f" {'+' if fixed > 0 else '-'} {abs(fixed)}"
        return f"({text})" if steps or fixed else text

    # Functions

    def prototype(self, function):
        arguments = [self.declared(kind, self.local(name) if name else f"v{place}")
                     for place, (kind, name) in enumerate(function.arguments)]
        return f"func {self.name_of(function.name)}({', '.join(['m *machine', *arguments])}) {self.c_type(function.gives)}"

    def edge(self, to):
        moves = [(name, by_block[self.block]) for name, _, by_block in self.joins.get(to, []) if by_block[self.block] != name]
        go = f"goto {self.labels[to]}"
        if not moves:
            return go
        # All are read before one is written.
        return f"{', '.join(it[0] for it in moves)} = {', '.join(it[1] for it in moves)}; {go}"

    def function(self, function):
        blocks = self.blocks_of(function)
        self.lines, self.locals, self.frame, self.called = [], [], 0, set()
        has_rooms = any(" = alloca " in line for _, lines in blocks for line in lines)
        self.back = "m.sp = sp; " if has_rooms else ""
        self.labels = {name: f"b{number}" for number, (name, _) in enumerate(blocks)}
        self.joins = self.joins_of(blocks)
        for self.block, lines in blocks:
            self.lines.append(f"{self.labels[self.block]}:")
            for line in lines:
                self.instruction(line)
        goals = set(re.findall(r"goto (b\d+)\b", "\n".join(self.lines)))
        lines = [it for it in self.lines if not (re.fullmatch(r"b\d+:", it) and it[:-1] not in goals)]
        self.frames[function.name] = self.frame, self.called
        front = ["sp := m.sp", f"m.sp = sp + {self.frame}"] if has_rooms else []
        front += [f"var {text}" for _, text in self.locals]
        names = [name for name, _ in self.locals if name]
        if names:
            front.append(f"{', '.join('_' * len(names))} = {', '.join(names)}")
        return self.prototype(function) + " {\n\t" + "\n\t".join(front + lines) + "\n}\n"

    def deepest(self, name, above=()):
        """What this function takes of the stack, with all that it calls."""
        if name in above:
            raise Refused(f"{name} calls itself")
        frame, called = self.frames[name]
        return frame + max((self.deepest(it, (*above, name)) for it in called), default=0)

    def new(self, kind, name):
        self.locals.append((name, self.declared(kind, name)))

    def instruction(self, line):
        reader, result = Reader(line, self.module.named), None
        if reader.peek()[0] == "%" and reader.peek(1) == "=":
            result = self.local(reader.next())
            reader.next()
        reader.skip("tail", "musttail", "notail")
        word = reader.next()
        if word not in INSTRUCTIONS:
            raise Refused(f"{word}: {line}")
        INSTRUCTIONS[word](self, reader, result, word)

    def whole(self, package, imports):
        """The file of this printer's module."""
        bodies = [self.function(it) for it in self.module.reached()[0]]
        stack = max(map(self.deepest, self.frames))
        copiers = [self.copiers[key] for key in self.copier_order]
        image = "".join(f"\\x{it:02x}" for it in self.image)
        wanted = "\n".join(f'\t"{it}"' for it in sorted({"bytes", "encoding/binary", "math/bits", "runtime", "unsafe", *imports}))
        front = FIRST.format(package=package, imports=wanted, stack=stack, slack=SLACK, size=len(self.image), image=image)
        return "\n".join([front, HELPERS, *self.struct_texts, *copiers, *self.own_helpers.values(), *bodies])


def main(words):
    if len(words) != 2:
        sys.exit(__doc__)
    with open(words[0], encoding="utf-8") as it:
        print(GoPrinter(it.read()).whole(words[1], []), end="")


if __name__ == "__main__":
    main(sys.argv[1:])
