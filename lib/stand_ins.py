"""Stand-ins for a crate: its types without private fields, its functions without contracts, whose bodies answer
something simple of their type.
"""

import re

from crate_items import parted

# The traits whose impls callers need.
TRAITS = ("Display", "Debug", "From", "PartialEq", "Read", "Write")
SIMPLE = {"bool": "false", "()": "()", "String": "String::new({})", "Global": "{}", "fmt::Result": "Ok(())", "AllocError": "AllocError",
          "NoMemory": "AllocError", "io::Error": "io::Error::from(io::ErrorKind::OutOfMemory)"}
# What has these types is kept: others go through it.
KEPT = "Slab<|Table<"
HIDDEN = re.compile(rf"    (?!pub |alloc: )[a-z_]+: (?!{KEPT}).*,$|    pub\(\w+\) \w+: (?!{KEPT})")
SHOWN = ["    fn fmt<W: std::fmt::Write>(&self, f: &mut std::fmt::Formatter<W>) -> std::fmt::Result { Ok(()) }", "}"]
stands = {}


def last(path):
    """The crate of a path that is used, and the name there."""
    return path.split("::")[0], path.split("::")[-1].split(" ")[0]


def kept(item):
    """A type without its private fields; one with parameters keeps all."""
    text = re.sub(r"(?ms)^    +#\[.*?\]$\n", "", "\n".join(item).replace(", thiserror::Error", "") + "\n")
    lines = [it for it in text.split("\n") if it and not re.match(r"\s+ghost ", it)]
    head = next(it for it in lines if not it.startswith("#"))
    if "struct " in head and "<" not in head and head.endswith("{"):
        lines = [it for it in lines if not HIDDEN.match(it)]
    return [re.sub(r"^((?:pub )?struct \w+\()(?!pub )", r"\1pub ", it.replace("pub(crate) ", "pub ")) for it in lines]


class Stand:
    """The stand-in of a crate, with what is wanted of it; of its types' functions those that are called."""

    def __init__(self, crate, called):
        self.crate, self.called, self.done, self.text, self.named = crate, called, set(), [], set()

    def want(self, name):
        """Takes a name in, and what it names."""
        if name in self.done:
            return
        self.done.add(name)
        if item := self.crate.types.get(name):
            self.put(kept(item))
            if any("thiserror::Error" in it for it in item):
                self.put([f"impl std::fmt::Display for {name} {{", *SHOWN])
            for impl in self.crate.impls:
                self.take(impl, name)
        elif item := self.crate.others.get(name):
            self.put(self.function(item, "") if re.search(r"(?m)^(pub(\(\w+\))? )?(const )?fn ", "\n".join(item)) else item)
        elif name in self.crate.uses:
            self.named.add(name)

    def put(self, lines):
        self.text += [*(re.sub(r"^(struct|enum|fn|const|type) ", r"pub \1 ", it.replace("pub(crate) ", "pub ")) for it in lines), ""]
        for word in re.findall(r"[A-Za-z_]\w*", "\n".join(lines)):
            self.want(word)

    def take(self, impl, name):
        """What is called of an impl, or all where it is of a trait."""
        head = next(it for it in impl if it.startswith("impl"))
        found = re.match(r"impl(?:<.*?>)? (?:(?:\w+::)*(\w+)(?:<.*?>)? for )?(\w+)", head)
        if not found or found[2] != name or found[1] and found[1] not in TRAITS:
            return
        lines, part = [], []
        for line in impl[impl.index(head) + 1:-1]:
            part.append(line)
            if line == "    }" or line.endswith(";") and line[4] != " ":
                called = re.search(r"(?m)^    (pub )?(?:const )?fn (\w+)", "\n".join(part))
                if called and (found[1] or called[1] and called[2] in self.called):
                    lines += [it.replace("<W: Write>", "<W: std::fmt::Write>") for it in self.function(part, "    ", name)]
                elif re.match(r"    (type|pub const) ", line):
                    lines += part
                part = []
        if lines:
            self.put([head, *lines, "}"])

    def function(self, lines, indent, name=""):
        """A function's signature, with a simple body."""
        head = []
        for line in (it for it in lines if not it.lstrip().startswith("#")):
            if re.match(r"\s*(ensures|requires|ghost)\b", line) or line == indent + "{":
                break
            head.append(line.strip())
            if re.match(rf"{indent}\S.* {{$", line):
                break
        text = " ".join(head).removesuffix("{").strip()
        answer = re.search(r"-> (.*?)(?: where .*)?$", text)
        if answer and "Iter<" in answer[1]:
            return [f"{indent}{text} {{ {lines[-2].strip()} }}"]
        return [f"{indent}{text} {{ {self.simple(answer[1].replace('Self', name), text) if answer else ''} }}"]

    def simple(self, kind, text):
        """Something of this type, in a function of this text."""
        alloc = "self.alloc" if "self" in text and "alloc" not in text else "alloc"
        front, _, inner = kind.partition("<")
        if kind in SIMPLE:
            return SIMPLE[kind].format(alloc)
        if re.fullmatch(r"[ui](8|16|32|64|size)", kind):
            return "0"
        if front == "Option":
            return "None"
        if front in ("Result", "io::Result"):
            whole = parted(inner[:-1])
            return "Ok(())" if whole[0] == "()" else f"Err({self.simple([*whole, 'io::Error'][1], text)})"
        if kind.startswith("&"):
            kind = re.sub(r"^&(?:'\w+ )?", "", kind)
            return "&[]" if kind.startswith("[") else '""' if kind == "str" else f"&{self.simple(kind, text)}"
        if front in ("Vec", "Slab"):
            return f"{front}::new({alloc})"
        if kind.startswith("("):
            return f"({', '.join(self.simple(it, text) for it in parted(kind[1:-1]))})"
        if kind.startswith("["):
            value, count = kind[1:-1].split("; ")
            return f"[{self.simple(value, text)}; {count}]"
        return self.made(front, text, alloc)

    def made(self, name, text, alloc):
        """A value of a type of a repository's crate."""
        if name not in self.crate.types:
            crate, word = last(self.crate.uses.get(name, "none::none"))
            return f"{crate}::{stands[crate].made(word, text, alloc)}" if crate in stands else f"{name}::new({alloc})"
        lines = [it.strip() for it in kept(self.crate.types[name]) if not it.startswith("#")]
        if len(lines) == 1:
            inside = re.search(r"\((.*)\);", lines[0])
            return f"{name}({', '.join(self.simple(it.removeprefix('pub '), text) for it in parted(inside[1]))})" if inside else f"{name} {{}}"
        if re.search(r"\benum\b", lines[0]):
            cost = lambda it: (bool(re.search("Vec|String|Box", it)), len(it.lstrip("abcdefghijklmnopqrstuvwxyzABCDEFGHIJKLMNOPQRSTUVWXYZ")))
            variant, _, inside = min((it.rstrip(",") for it in lines[1:-1] if re.match("[A-Z]", it)), key=cost).partition("(")
            return f"{name}::{variant}" + (f"({', '.join(self.simple(it, text) for it in parted(inside[:-1]))})" if inside else "")
        fields = [re.match(r"(?:pub )?(\w+): (.*),$", it).groups() for it in lines[1:-1]]
        values = [f"{it}: {it if f' {it}: {kind}' in text else self.simple(kind, text)}" for it, kind in fields]
        return f"{name} {{ {', '.join(values)} }}"
