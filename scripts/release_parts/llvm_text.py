"""LLVM's text, as far as the kit's backend writes it: words, types and where fields lie. What isn't known is refused."""

import re

WORD = re.compile(
    r"""\s*(c"(?:[^"])*"|@"[^"]*"|%"[^"]*"|"[^"]*"|[@%][-\w.$]+|![\w.]*(?:\([^)]*\))?|\#\d+|0x[0-9A-Fa-f]+"""
    r"""|-?\d+(?:\.\d+e[+-]\d+)?|\.\.\.|[A-Za-z_][\w.]*|[][(){}<>,=*:|])"""
)
NAME = r'@(?:"[^"]*"|[-\w.$]+)'

# What stands before a type of an argument, and says nothing of its value.
ATTRIBUTES = {
    "noundef", "nonnull", "nocapture", "readonly", "readnone", "writeonly", "noalias", "signext", "zeroext", "immarg",
    "returned", "nofree", "dead_on_unwind", "writable", "inreg",
}
WITH_WORDS = {
    "dereferenceable", "dereferenceable_or_null", "captures", "align", "sret", "byval", "range", "initializes", "memory",
}
LINKAGE = {"internal", "private", "dso_local", "hidden", "local_unnamed_addr", "unnamed_addr", "fastcc", "linkonce_odr"}


class Refused(SystemExit):
    """What the printer doesn't know."""

    def __init__(self, what):
        super().__init__(f"one_file: {what}")


def words_of(text):
    found, at, text = [], 0, text.rstrip()
    while at < len(text):
        word = WORD.match(text, at)
        if not word:
            raise Refused(f"can't read {text[at:at + 60]!r} in {text!r}")
        found.append(word[1])
        at = word.end()
    return found


class Type:
    """A type: `kind` is void, ptr, double, int (of `bits`), array or vector (of `count` times `of`) or struct."""

    def __init__(self, kind, bits=0, count=0, of=None, fields=(), is_packed=False):
        self.kind, self.bits, self.count, self.of = kind, bits, count, of
        self.fields, self.is_packed = fields, is_packed

    @property
    def key(self):
        if self.kind == "int":
            return f"i{self.bits}"
        if self.kind in ("array", "vector"):
            return f"{self.kind[0]}{self.count}_{self.of.key}"
        if self.kind == "struct":
            return f"s{'p' if self.is_packed else ''}_" + "_".join(it.key for it in self.fields) + "_e"
        return self.kind

    @property
    def size(self):
        return self.size_and_alignment()[0]

    def size_and_alignment(self):
        """As x86-64 has it: an address has 8 bytes on each machine."""
        if self.kind in ("ptr", "double"):
            return 8, 8
        if self.kind == "int":
            size = 1
            while size < (self.bits + 7) // 8:
                size *= 2
            return size, min(size, 16)
        if self.kind in ("array", "vector"):
            size, alignment = self.of.size_and_alignment()
            return size * self.count, alignment if self.kind == "array" else size * self.count
        if self.kind == "struct":
            at, alignment = 0, 1
            for place, field in enumerate(self.fields):
                at = self.offset(place) + field.size
                alignment = max(alignment, 1 if self.is_packed else field.size_and_alignment()[1])
            return (at + alignment - 1) // alignment * alignment, alignment
        raise Refused(f"the size of {self.kind}")

    def offset(self, place):
        at = 0
        for number, field in enumerate(self.fields):
            size, alignment = field.size_and_alignment()
            if not self.is_packed:
                at = (at + alignment - 1) // alignment * alignment
            if number == place:
                return at
            at += size
        raise Refused(f"field {place} of {self.key}")


VOID, POINTER, DOUBLE = Type("void"), Type("ptr"), Type("double")


def integer(bits):
    return Type("int", bits=bits)


class Reader:
    """A reader over the words of one line. `named` has the types that the module names."""

    def __init__(self, text, named):
        self.words, self.at, self.named = words_of(text), 0, named

    def peek(self, further=0):
        at = self.at + further
        return self.words[at] if at < len(self.words) else None

    def next(self):
        self.at += 1
        return self.words[self.at - 1]

    def take(self, word):
        if self.peek() != word:
            return False
        self.at += 1
        return True

    def want(self, word):
        if not self.take(word):
            raise Refused(f"{word} is wanted at {self.words[self.at:self.at + 6]} of {' '.join(self.words)}")

    def skip(self, *words):
        while self.peek() in words:
            self.at += 1

    def type(self):
        word = self.next()
        if word in ("void", "ptr", "double"):
            return {"void": VOID, "ptr": POINTER, "double": DOUBLE}[word]
        if re.fullmatch(r"i\d+", word):
            return integer(int(word[1:]))
        if word == "{":
            return Type("struct", fields=self.fields())
        if word == "<" and self.take("{"):
            found = Type("struct", fields=self.fields(), is_packed=True)
            self.want(">")
            return found
        if word in "[<":
            count = int(self.next())
            self.want("x")
            of = self.type()
            self.want("]" if word == "[" else ">")
            return Type("array" if word == "[" else "vector", count=count, of=of)
        if word in self.named:
            return self.named[word]
        raise Refused(f"no type {word} in {' '.join(self.words)}")

    def fields(self):
        found = []
        if self.take("}"):
            return found
        while True:
            found.append(self.type())
            if self.take("}"):
                return found
            self.want(",")

    def attributes(self):
        while (word := self.peek()) is not None:
            if word in ATTRIBUTES or word[0] == '"':
                self.at += 1
            elif word in WITH_WORDS:
                self.at += 1
                if word == "align" and self.peek() != "(":
                    self.at += 1
                else:
                    self.parentheses()
            else:
                return

    def parentheses(self):
        self.want("(")
        depth = 1
        while depth:
            depth += {"(": 1, ")": -1}.get(self.next(), 0)


class Function:
    """A function: what it gives, its arguments (each a type and a name), and its lines."""

    def __init__(self, head, lines, named):
        reader = Reader(head, named)
        reader.next()
        self.is_inner = False
        while reader.peek() in LINKAGE | ATTRIBUTES | WITH_WORDS:
            if reader.peek() in ATTRIBUTES | WITH_WORDS:
                reader.attributes()
            else:
                self.is_inner |= reader.next() in ("internal", "private")
        self.gives, self.name, self.arguments, self.lines = reader.type(), reader.next(), [], lines
        reader.want("(")
        while not reader.take(")"):
            if reader.take("..."):
                continue
            kind = reader.type()
            reader.attributes()
            name = reader.next() if (reader.peek() or "")[:1] == "%" else None
            self.arguments.append((kind, name))
            reader.take(",")

    def uses(self):
        return set(re.findall(NAME, "\n".join(self.lines)))


class Module:
    """A module: its types, functions (also those that are only declared) and constants."""

    def __init__(self, text):
        self.named, self.functions, self.declared, self.constants = {}, {}, {}, {}
        lines, at = text.split("\n"), 0
        while at < len(lines):
            line = lines[at]
            if found := re.match(r'(%[-\w.$"]+) = type (.*)', line):
                self.named[found[1]] = Reader(found[2], self.named).type()
            elif line.startswith("define"):
                end = lines.index("}", at)
                it = Function(line[: line.rindex("{")], lines[at + 1:end], self.named)
                self.functions[it.name], at = it, end
            elif line.startswith("declare"):
                it = Function(line, [], self.named)
                self.declared[it.name] = it
            elif line.startswith("@"):
                self.constants[line.split(" = ")[0]] = line
            at += 1

    def exports(self):
        return [it.name for it in self.functions.values() if not it.is_inner]

    def reached(self):
        """The functions that the exports reach, and the constants, those that others name first."""
        functions, todo = set(), self.exports()
        while todo:
            name = todo.pop()
            if name in self.functions and name not in functions:
                functions.add(name)
                todo += self.functions[name].uses()
        functions = [it for it in self.functions.values() if it.name in functions]
        used = set().union(*(it.uses() for it in functions)) if functions else set()
        ordered = []

        def visit(name, above=()):
            if name in above or name in ordered:
                return
            for other in re.findall(NAME, self.constants[name].split(" = ", 1)[1]):
                if other in self.constants and other != name:
                    visit(other, above + (name,))
            ordered.append(name)

        for name in self.constants:
            if name in used:
                visit(name)
        return functions, ordered
