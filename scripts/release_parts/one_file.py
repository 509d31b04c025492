#!/usr/bin/env python3
"""Prints a module of the kit's backend, as LLVM's text, as portable C11: one_file.py IN.ll.

Each function becomes a C function, each value a local variable, each block a label. Memory is the caller's own: an
address is an `unsigned char *`, and each load and store copies so many bytes, so there is no aliasing rule to break and
no alignment to keep. All arithmetic is on unsigned integers; a value of an odd width is kept with its upper bits 0.
What isn't known is refused."""

import re
import sys
from collections import Counter

from c_text import HEAP, MEMORY, calls, helpers_of
from instructions import INSTRUCTIONS
from llvm_text import Module, Reader, Refused
from tables import texts_of


def width_of(bits):
    """The bits of the C type that holds so many."""
    return next((it for it in (8, 16, 32, 64, 128) if bits <= it), 128)


class Printer:
    def __init__(self, text):
        self.module = Module(text)
        self.structs, self.struct_texts = {}, []
        self.copiers, self.copier_order = {}, []
        self.names, self.own_helpers = {}, {}
        # What a function's printing leaves.
        self.lines, self.locals, self.labels, self.joins = [], [], {}, {}
        self.block = None

    # Types

    def c_type(self, kind):
        if kind.kind == "void":
            return "void"
        if kind.kind == "ptr":
            return "one_pointer"
        if kind.kind == "double":
            return "double"
        if kind.kind == "int":
            width = width_of(kind.bits)
            return "one_wide" if width == 128 else f"uint{width}_t"
        if kind.key not in self.structs:
            if kind.kind == "struct":
                body = " ".join(f"{self.declared(it, f'f{place}')};" for place, it in enumerate(kind.fields)) or "char none;"
            else:
                body = self.declared(kind.of, f"e[{max(kind.count, 1)}]") + ";"
            name = f"struct one_{len(self.structs)}"
            self.structs[kind.key] = name
            self.struct_texts.append(f"{name} {{ {body} }};")
        return self.structs[kind.key]

    def declared(self, kind, name):
        return f"{self.c_type(kind)} {name}"

    def signed_type(self, bits):
        return "one_signed_wide" if width_of(bits) == 128 else f"int{width_of(bits)}_t"

    @staticmethod
    def width(kind):
        """The bits of the C type of a number."""
        return width_of(kind.bits)

    def masked(self, kind, value):
        """A value of an odd width, with its upper bits 0."""
        if kind.bits == width_of(kind.bits):
            return value
        mask = f"{(1 << kind.bits) - 1:#x}" + ("u" if kind.bits <= 32 else "ull")
        return f"({self.c_type(kind)})(({value}) & {mask})"

    def sign_extended(self, kind, value, bits):
        """The value as an unsigned one of so many bits, its sign carried up."""
        if kind.bits == bits:
            return value
        if kind.bits in (8, 16, 32, 64):
            if bits > 64:
                return f"(one_wide)(one_signed_wide)(int{kind.bits}_t){value}"
            return f"(uint{bits}_t)(int{bits}_t)(int{kind.bits}_t){value}"
        sign = f"{1 << (kind.bits - 1):#x}ull"
        return f"(uint{width_of(bits)}_t)((((uint64_t){value}) ^ {sign}) - {sign})"

    # Memory

    def load(self, kind, place):
        if kind.kind == "ptr":
            return f"one_read_pointer({place})"
        if kind.kind == "double":
            return f"one_read_double({place})"
        if kind.kind == "int":
            width = width_of(kind.bits)
            if kind.bits > 8 and kind.bits != width:
                return self.masked(kind, f"({self.c_type(kind)})one_read_odd({place}, {(kind.bits + 7) // 8})")
            return self.masked(kind, f"one_read{width}({place})")
        self.copier(kind)
        return f"one_read_{self.c_type(kind).split()[1]}({place})"

    def store(self, kind, place, value):
        if kind.kind == "ptr":
            return f"one_write_pointer({place}, {value})"
        if kind.kind == "double":
            return f"one_write_double({place}, {value})"
        if kind.kind == "int":
            width = width_of(kind.bits)
            if kind.bits > 8 and kind.bits != width:
                return f"one_write_odd({place}, {value}, {(kind.bits + 7) // 8})"
            return f"one_write{width}({place}, {value})"
        self.copier(kind)
        return f"one_write_{self.c_type(kind).split()[1]}({place}, {value})"

    def copier(self, kind):
        """The two functions that read and write a struct field by field."""
        if kind.key in self.copiers:
            return
        self.copiers[kind.key] = None
        c_type = self.c_type(kind)
        name = c_type.split()[1]
        if kind.kind == "vector":
            if kind.of.kind != "int" or kind.of.bits != 8:
                raise Refused(f"a vector in memory: {kind.key}")
            reads, writes = f"memcpy(v.e, ONE_AT(p), {kind.count});", f"memcpy(ONE_AT(p), v.e, {kind.count});"
        else:
            if kind.kind == "struct":
                parts = [(f"f{place}", it, kind.offset(place)) for place, it in enumerate(kind.fields)]
            else:
                parts = [(f"e[{place}]", kind.of, kind.of.size * place) for place in range(kind.count)]
            reads = " ".join(f"v.{part} = {self.load(it, f'p + {at}')};" for part, it, at in parts)
            writes = " ".join(f"{self.store(it, f'p + {at}', f'v.{part}')};" for part, it, at in parts)
        self.copiers[kind.key] = {
            f"one_read_{name}": f"static inline {c_type} one_read_{name}(one_pointer p) {{ {c_type} v; {reads} return v; }}",
            f"one_write_{name}": f"static inline void one_write_{name}(one_pointer p, {c_type} v) {{ {writes} }}",
        }
        self.copier_order.append(kind.key)

    # Names and values

    def name_of(self, word):
        """The C name of a function or a constant: the last words of its own."""
        if word not in self.names:
            name = word[1:].strip('"')
            if word in self.module.functions and not self.module.functions[word].is_inner:
                self.names[word] = f"core_{name}"
            elif name.startswith("rattle_"):
                self.names[word] = name
            else:
                base = re.sub(r"_?[^A-Za-z0-9_]+_?", "_", re.sub(r"<.*", "", name).replace("::", "__")).strip("_")[:60]
                base = f"k{base}" if not base or base[0].isdigit() else base
                taken, number, name = set(self.names.values()), 1, base
                while name in taken:
                    number += 1
                    name = f"{base}_{number}"
                self.names[word] = name
        return self.names[word]

    @staticmethod
    def local(word):
        return "v" + re.sub(r"\W", "_", word[1:].strip('"'))

    @staticmethod
    def number(kind, value):
        value = int(value) & ((1 << kind.bits) - 1)
        width = width_of(kind.bits)
        if width == 128:
            low = f"{value & (2**64 - 1):#x}ull"
            return f"((one_wide){value >> 64:#x}ull << 64 | {low})" if value >> 64 else f"(one_wide){low}"
        if width == 64:
            return f"{value}ull" if value >> 31 else f"(uint64_t){value}"
        return f"{value}u"

    def value(self, reader, kind):
        """An operand of this type, as a C expression."""
        word = reader.peek()
        if word[0] == "%":
            return self.local(reader.next())
        if word[0] == "@":
            return f"ONE_POINTER((uintptr_t)&{self.name_of(reader.next())})"
        if kind.kind == "double" and word not in ("undef", "poison"):
            reader.next()
            return f"one_double({word}ull)" if word.startswith("0x") else word
        if word in ("true", "false"):
            return f"{int(reader.next() == 'true')}u"
        if word in ("undef", "poison", "zeroinitializer", "null"):
            reader.next()
            zero = {"ptr": "(one_pointer)0", "double": "0.0"}.get(kind.kind)
            return zero or (self.number(kind, 0) if kind.kind == "int" else f"({self.c_type(kind)}){{0}}")
        if re.fullmatch(r"-?\d+", word):
            return self.number(kind, reader.next())
        return self.constant(reader, kind)

    def constant(self, reader, kind):
        """A constant that is made of others."""
        word = reader.next()
        if word == "splat":
            reader.want("(")
            item = self.value(reader, reader.type())
            reader.want(")")
            return f"({self.c_type(kind)}){{{{{', '.join([item] * kind.count)}}}}}"
        if word in ("inttoptr", "ptrtoint", "ptrtoaddr"):
            reader.want("(")
            inner = self.value(reader, reader.type())
            reader.want("to")
            to = reader.type()
            reader.want(")")
            return f"ONE_POINTER({inner})" if word == "inttoptr" else f"({self.c_type(to)})ONE_NUMBER({inner})"
        if word == "getelementptr":
            reader.skip("inbounds", "nuw", "nusw")
            reader.want("(")
            place = self.place(reader)
            reader.want(")")
            return place
        if word in "{<[":
            ends = ["}", ">"] if word == "<" and reader.take("{") else [{"{": "}", "[": "]", "<": ">"}[word]]
            parts = []
            while reader.peek() != ends[0]:
                parts.append(self.value(reader, reader.type()))
                reader.take(",")
            for end in ends:
                reader.want(end)
            inner = ", ".join(parts)
            return f"({self.c_type(kind)}){{{inner}}}" if kind.kind == "struct" else f"({self.c_type(kind)}){{{{{inner}}}}}"
        raise Refused(f"constant {word} in {' '.join(reader.words)}")

    def place(self, reader):
        """What getelementptr computes: an address, and steps into it."""
        kind = reader.type()
        reader.want(",")
        base, fixed, steps, is_first = self.value(reader, reader.type()), 0, [], True
        while reader.take(","):
            if reader.peek()[0] == "!":
                break
            index, word = reader.type(), reader.peek()
            step = self.value(reader, index)
            if not is_first and kind.kind == "struct":
                fixed += kind.offset(int(word))
                kind = kind.fields[int(word)]
                continue
            if not is_first:
                kind = kind.of
            is_first = False
            if re.fullmatch(r"-?\d+", word):
                fixed += kind.size * int(word)
            else:
                step = self.sign_extended(index, step, 64)
                steps.append(step if kind.size == 1 else f"{step} * {kind.size}u")
        text = base + "".join(f" + (one_distance)({it})" for it in steps)
        if fixed:
            text += f" {'+' if fixed > 0 else '-'} {abs(fixed)}"
        return f"({text})" if steps or fixed else text

    # Functions

    def prototype(self, function):
        arguments = [self.declared(kind, self.local(name) if name else f"v{place}")
                     for place, (kind, name) in enumerate(function.arguments)]
        return f"static {self.declared(function.gives, self.name_of(function.name))}({', '.join(arguments) or 'void'})"

    def new(self, kind, name):
        self.locals.append((name, f"{self.declared(kind, name)};"))

    def blocks_of(self, function):
        """The blocks: a name and its lines, each with the lines of a switch joined."""
        unnamed = sum(1 for _, name in function.arguments if name is None or name[1:].isdigit())
        blocks, lines = [], iter(it.split(" ; preds")[0].rstrip() for it in function.lines)
        for line in lines:
            if not line.strip() or line.lstrip().startswith(";"):
                continue
            if line.lstrip().startswith("switch ") and line.endswith("["):
                while not line.endswith("]"):
                    line += " " + next(lines).strip()
            if label := re.match(r'("[^"]*"|[-\w.$]+):', line):
                blocks.append(("%" + label[1], []))
                continue
            if not blocks:
                blocks.append((f"%{unnamed}", []))
            # Words about a line stand behind it.
            blocks[-1][1].append(re.sub(r"(, )?![\w.]+ !\d+", "", line.strip()))
        return blocks

    def joins_of(self, blocks):
        """Of each block the values that depend on where it is come from."""
        joins = {}
        for block, lines in blocks:
            for line in lines:
                found = re.match(r'(%[-\w.$"]+) = phi (.*)', line)
                if not found:
                    continue
                reader, by_block = Reader(found[2], self.module.named), {}
                kind = reader.type()
                while True:
                    reader.want("[")
                    value = self.value(reader, kind)
                    reader.want(",")
                    by_block[reader.next()] = value
                    reader.want("]")
                    if not reader.take(","):
                        break
                joins.setdefault(block, []).append((self.local(found[1]), kind, by_block))
        return joins

    def edge(self, to):
        """What is done on the way from this block to that one."""
        moves = [(name, by_block[self.block], kind) for name, kind, by_block in self.joins.get(to, [])
                 if by_block[self.block] != name]
        targets = {name for name, _, _ in moves}
        go = f"goto {self.labels[to]};"
        if not any(set(re.findall(r"\w+", value)) & (targets - {name}) for name, value, _ in moves):
            return " ".join([f"{name} = {value};" for name, value, _ in moves] + [go])
        # One reads what another writes: all are read first.
        reads = [f"{self.declared(kind, 't_' + name)} = {value};" for name, value, kind in moves]
        return "{ " + " ".join(reads + [f"{name} = t_{name};" for name, _, _ in moves] + [go]) + " }"

    def function(self, function):
        blocks = self.blocks_of(function)
        self.lines, self.locals = [], []
        self.labels = {name: f"b{number}" for number, (name, _) in enumerate(blocks)}
        self.joins = self.joins_of(blocks)
        for self.block, lines in blocks:
            self.lines.append(f"{self.labels[self.block]}:;")
            for line in lines:
                self.instruction(line)
        return self.prototype(function) + " {\n    " + "\n    ".join(self.body_of(function)) + "\n}\n"

    def instruction(self, line):
        reader = Reader(line, self.module.named)
        result = None
        if reader.peek()[0] == "%" and reader.peek(1) == "=":
            result = self.local(reader.next())
            reader.next()
        reader.skip("tail", "musttail", "notail")
        word = reader.next()
        if word not in INSTRUCTIONS:
            raise Refused(f"{word}: {line}")
        INSTRUCTIONS[word](self, reader, result, word)

    def body_of(self, function):
        """The function's variables and lines, without labels that nobody goes to."""
        whole = "\n".join(self.lines)
        goals = set(re.findall(r"goto (b\d+);", whole))
        lines = [it for it in self.lines if not (re.fullmatch(r"b\d+:;", it) and it[:-2] not in goals)]
        seen, written = Counter(re.findall(r"\bv\w*", whole)), Counter(re.findall(r"\b(v\w*) =(?!=)", whole))
        unread = [name for name, _ in self.locals if name and seen[name] == written[name]]
        unread += [self.local(name) for _, name in function.arguments if name and not seen[self.local(name)]]
        quiet = [" ".join(f"(void){name};" for name in unread)] if unread else []
        return [text for _, text in self.locals] + quiet + lines

    # The whole

    def heap(self, text):
        """The heap's calls that the functions make."""
        found = []
        for name, form in HEAP.items():
            if not re.search(rf"\b{name}\(", text):
                continue
            if name == "rattle_dealloc":
                found.append(form)
                continue
            gives = self.module.declared[f"@{name}"].gives
            is_pointer = gives.fields[1].kind == "ptr"
            number = "at ? ONE_POINTER(at) : ONE_POINTER(align)" if is_pointer else "at ? (uint64_t)(uintptr_t)at : align"
            found.append(form.format(got=self.c_type(gives), number=number))
        return found

    def is_narrow(self, text):
        """Whether the printed text is for few machines: it has numbers of 128 bits, or constants with addresses."""
        return calls(text, "one_wide") or calls(text, "one_signed_wide") or "union { const unsigned char *p; uint64_t w; }" in text

    def whole(self):
        functions, constants = self.module.reached()
        for name in constants:
            self.name_of(name)
        bodies = [self.function(it) for it in functions]
        tables = texts_of(self, constants)
        prototypes = [self.prototype(it) + ";" for it in functions]
        text = "\n".join(bodies)
        heap = self.heap(text)
        copiers = {name: it for key in self.copier_order for name, it in self.copiers[key].items()}
        helpers = helpers_of("\n".join(self.struct_texts + heap) + text, {**copiers, **self.own_helpers})
        # A helper that needs a struct stands behind it; the numbers of 128 bits stand before both.
        wide = [it for it in helpers if "typedef unsigned __int128" in it]
        rest = [it for it in helpers if it not in wide]
        return "\n".join([MEMORY] + wide + self.struct_texts + rest + heap + tables + prototypes + [""] + bodies)


def main(words):
    if len(words) != 1:
        sys.exit(__doc__)
    with open(words[0], encoding="utf-8") as it:
        print(Printer(it.read()).whole(), end="")


if __name__ == "__main__":
    main(sys.argv[1:])
