"""Answers made from the layout's definition (crates/tds_wire/specs/Layout.antt): each function has the name that it has
there, and where it reads, bytes are made up. Which types there are is read from crates/tds_wire/specs/Types.antt.

So these answers are what the layout accepts, sensible or not; by_hand.py has what a server sends.
"""
import os
import random
import re

from by_hand import Answer

SPECS = os.environ.get("SPECS") or os.path.join(os.path.dirname(os.path.abspath(__file__)), "../../crates/tds_wire/specs")


def type_table(path=f"{SPECS}/Types.antt"):
    """`type_of` of each byte, computed from its definition: (`Info`, bytes, shape) or (`Limited`, collated), .."""
    text = open(path, encoding="utf-8").read()
    words = {}
    for name, of, body in re.findall(r"^(\w+) (\w+) =((?: .*|)\n(?:    .*\n)*)", text, re.M):
        words[name] = of, " ".join(re.sub(r"--.*", "", body).split())
    table = {}
    for byte in range(256):
        rest = words["type_of"][1]
        while rest.startswith("if "):
            test, rest = re.fullmatch(r"if (.*?) then (.*)", rest).groups()
            then, rest = rest.split(" else ", 1)
            if holds(test, byte, words):
                rest = then
        found = re.fullmatch(r"info\.(\w+)(.*)", rest)
        table[byte] = (found[1], *re.sub(r"[()]|shape\.", "", found[2]).split())
    return {byte: info for byte, info in table.items() if info[0] != "Unknown"}


def holds(test, byte, words):
    """Whether a test of `==`, `||` and words that are defined so holds for this byte."""
    for name, (of, body) in words.items():
        if re.search(rf"\b{name} b\b", test):
            test = re.sub(rf"\b{name} b\b", f"({body.replace(of, 'b')})", test)
            return holds(test, byte, words)
    return eval(test.replace("||", "or").replace("&&", "and"), {}, {"b": byte})


class Layout:
    def __init__(self, seed):
        self.r = random.Random(seed)
        self.types = type_table()

    def start(self):
        agreed = self.r.choices([(), ("encryption",), ("classification 2",)], [90, 6, 4])[0]
        self.encryption, self.ranks = "encryption" in agreed, "classification 2" in agreed
        self.answer, self.shapes, self.out, self.marks = Answer(agreed), [], bytearray(), []

    # numbers, and runs of bytes
    def one(self, n):
        return self.number(1, n)

    def two(self, n):
        return self.number(2, n)

    def four(self, n):
        return self.number(4, n)

    def number(self, width, n):
        self.out += n.to_bytes(width, "little")
        return n

    def run(self, n):
        self.out += self.r.randbytes(n)

    def few(self, most=9, edges=(127, 128, 254, 255)):
        """A count: mostly few, now and then at an edge."""
        return self.r.choice(edges) if self.r.random() < 0.02 else self.r.randint(0, most)

    def name(self):
        self.run(2 * self.one(self.few()))

    def long_name(self):
        self.run(2 * self.two(self.few(9, (255, 256, 600))))

    # values
    def parts(self):
        for _ in range(self.r.choice([0, 1, 1, 2, 3])):
            self.run(self.four(max(1, self.few(30, (255, 256, 4000)))))
        self.four(0)

    def value_in_parts(self):
        which = self.r.random()
        if which < 0.2:
            self.run_of(b"\xff" * 8)
            return
        if which < 0.5:
            self.run_of(b"\xfe" + b"\xff" * 7)
        else:  # the length is passed over, whatever it is; but it is not all ones
            self.four(self.r.choice([0, 1, 2**31, 2**32 - 1]))
            self.four(self.r.choice([0, 1, 2**32 - 2]))
        self.parts()

    def run_of(self, bytes_of):
        self.out += bytes_of

    def long_value(self, edges=(0, 1, 255, 4096)):
        n = 2**32 - 1 if self.r.random() < 0.1 else self.four_count(edges)
        self.four(n)
        if n != 2**32 - 1:
            self.run(n)

    def four_count(self, edges):
        return self.few(30, edges)

    def value(self, shape):
        kind, byte, scale = shape
        if kind[0] == "Fixed":
            self.run(int(kind[1]))
        elif kind[0] == "Byte":
            n = self.one(self.few(17))
            self.run(n)
            if byte in (0x2A, 0x2B) and n and n != (3 if scale < 3 else 4 if scale < 5 else 5) + {0x2A: 3, 0x2B: 5}[byte]:
                self.marks.append("length of a time")
        elif kind[0] == "Short":
            n = self.two(0xFFFF if self.r.random() < 0.2 else self.few(40, (255, 256, 8000)))
            self.run(0 if n == 0xFFFF else n)
        elif kind[0] == "Long":
            self.long_value()
            self.marks.append("variant")
        elif kind[0] == "Pointer":
            n = self.one(self.r.choice([0, 16, 16, self.few(20)]))
            if n:
                self.run(n + 8)
                self.long_value()
            else:
                self.marks.append("null text")
        else:
            self.value_in_parts()

    # columns
    def type_at(self):
        byte = self.one(self.r.choice(list(self.types)))
        info, scale = self.types[byte], 0
        if info[0] == "Info":
            before = len(self.out)
            self.run(int(info[1]))
            if byte in (0x29, 0x2A, 0x2B):
                scale = self.out[before] = self.r.randint(0, 7)
            return info[2:], byte, scale
        if info[0] == "Limited":
            n = self.two(self.r.choice([0xFFFF, 20, 8000]))
            self.run(5 if info[1] == "true" else 0)
            if n == 0xFFFF and byte in (0xAD, 0xAF, 0xEF):
                self.marks.append("parts of a short type")
            return ("Parts" if n == 0xFFFF else "Short",), byte, scale
        if info[0] == "Xml":
            if self.one(self.r.choice([0, 0, 1])):
                self.marks.append("XML schema")
                self.name()
                self.name()
                self.long_name()
        else:
            self.run(2)
            self.name()
            self.name()
            self.name()
            self.long_name()
        return ("Parts",), byte, scale

    def table_at(self, shape):
        if shape[0][0] == "Pointer":
            for _ in range(self.one(self.r.choice([0, 1, 2, 4]))):
                self.long_name()

    def flags(self):
        """The flags of a column or a parameter: whether crypto metadata follow, where encryption was agreed."""
        return self.two(self.r.randrange(65536)) // 2048 % 2 == 1 and self.encryption

    def cipher_if(self, is_ciphered, place):
        if is_ciphered:
            self.run(place + 4)
            self.type_at()
            if self.one(self.r.choice([0, 1, 2, 255])) == 0:
                self.run(2 * self.one(self.few()))
            self.run(2)

    def columns_at(self, n):
        self.shapes = []
        for _ in range(n):
            self.run(4)
            is_ciphered = self.flags()
            shape = self.type_at()
            self.table_at(shape)
            self.cipher_if(is_ciphered, 2)
            self.name()
            self.shapes.append(shape)

    def key_table(self):
        if self.encryption:
            self.marks.append("encryption")
            for _ in range(self.two(self.r.choice([0, 1, 2, 5]))):
                self.run(20)
                for _ in range(self.one(self.r.choice([0, 1, 2, 9]))):
                    self.run(self.two(self.few(30, (255, 256, 700))))
                    self.name()
                    self.long_name()
                    self.name()

    # tokens
    def column_list(self):
        n = 65535 if self.r.random() < 0.03 and self.shapes else self.r.choice([1, 1, 2, 3, 5, 8, 9, 17, 30])
        self.two(n)
        if n == 65535:
            self.marks.append("no metadata")
        else:
            self.key_table()
            self.columns_at(n)

    def counted(self):
        n = self.two(self.few(60, (0, 255, 256, 3000)))
        self.run(n)
        self.marks.append("counted")

    def long_counted(self):
        n = self.four(self.few(60, (0, 255, 256, 3000)))
        self.run(n)
        self.marks.append("counted")

    def order(self):
        n = self.two(2 * self.few(20, (0, 127, 128)))
        self.run(n)

    def done(self):
        self.run(12)

    def row(self):
        for shape in self.shapes:
            self.value(shape)

    def null_row(self):
        bits = self.r.randbytes((len(self.shapes) + 7) // 8)
        self.run_of(bits)
        for place, shape in enumerate(self.shapes):
            if not bits[place // 8] >> place % 8 & 1:
                self.value(shape)

    def change(self):
        """ENVCHANGE; the values of type 15 have lengths of their own."""
        self.marks.append("counted")
        n = self.two(self.few(60, (0, 255, 256, 3000)))
        if n and self.one(self.r.choice([15, self.r.randrange(256)])) == 15:
            self.run(self.four(self.few(60, (0, 255, 256, 3000))))
            self.run(self.one(self.few()))
        elif n:
            self.run(n - 1)

    def parameter(self):
        self.marks.append("no such token")
        self.run(2)
        self.run(2 * self.one(self.few()) + 5)
        is_ciphered = self.flags()
        shape = self.type_at()
        self.cipher_if(is_ciphered, 0)
        self.value(shape)

    def label_list(self):
        for _ in range(self.two(self.r.choice([0, 1, 2, 5]))):
            self.name()
            self.name()

    def classification(self):
        self.marks.append("no such token")
        self.label_list()
        self.label_list()
        self.run(4 if self.ranks else 0)
        for _ in range(self.two(self.r.choice([0, 1, 2, 9]))):
            self.run(self.two(self.r.choice([0, 1, 3])) * (8 if self.ranks else 4))

    def features(self):
        for _ in range(self.few(4, (5,))):
            self.one(self.r.randint(0, 254))
            self.run(self.four(self.few(30, (0, 255, 256, 1000))))
        self.one(255)

    def token_behind(self, byte):
        if byte in (0xA4, 0xA5, 0xAA, 0xAB, 0xAD, 0xED):
            self.counted()
        elif byte == 0xA9:
            self.order()
        elif byte in (0xE4, 0xEE):
            self.long_counted()
        elif byte in (0xFD, 0xFE, 0xFF):
            self.done()
        else:
            {0xD1: self.row, 0xD2: self.null_row, 0x81: self.column_list, 0x79: lambda: self.run(4),
             0xAC: self.parameter, 0xAE: self.features, 0xA3: self.classification, 0xE3: self.change}[byte]()

    def token_at(self, byte):
        self.out, self.marks = bytearray([byte]), []
        self.token_behind(byte)
        self.answer.add(bytes(self.out), *self.marks)

    def one_answer(self):
        """Tokens in any order; rows only behind a COLMETADATA. Tokens that peers read by what is in them are rare."""
        self.start()
        for _ in range(self.r.choice([1, 2, 4, 8, 16])):
            choices = [0x81] * 2 + [0xFD, 0xFE, 0xFF, 0x79, 0xA9, 0xAE]
            choices += [0xD1, 0xD2] * 5 if self.shapes else []
            if self.r.random() < 0.06:
                choices = [0xA3, 0xA4, 0xA5, 0xAA, 0xAB, 0xAC, 0xAC, 0xAC, 0xAD, 0xE3, 0xE4, 0xED, 0xEE]
            self.token_at(self.r.choice(choices))
        self.token_at(0xFD)
        return self.answer


def answers(seed, count):
    layout = Layout(seed)
    return (layout.one_answer() for _ in range(count))
