"""The items of a crate's sources, as rt fmt lays them out: types, functions, constants, impls, and what is used."""

import os
import re

ROOT = os.path.dirname(os.path.dirname(os.path.abspath(__file__)))
KIND = re.compile(r"(pub(?:\(\w+\))? )?(?:const )?(struct|enum|type|const|fn|impl|trait)\b(?:<[^{]*?> (?=\w))? ?(.*)")
TOLD = re.compile(r"(?m)^pub use (\w+)::(?:\{([^}]*)\}|([^;]+))")


def items(text):
    """The items of a file: the lines of each, its attributes too, without comments."""
    item = []
    for line in text.split("\n"):
        if line.lstrip().startswith("//") or not item and not line:
            continue
        item.append(line)
        if not line.startswith((" ", "#")) and line.endswith(("}", ";")):
            yield item
            item = []


def parted(text):
    """What stands between commas, outside of brackets."""
    depth, found = 0, [""]
    for at, char in enumerate(text):
        depth += (char in "<([{") - (char in ")]}" or char == ">" and text[at - 1] != "-")
        if char == "," and not depth:
            found.append("")
        else:
            found[-1] += char
    return [it.strip() for it in found if it.strip()]


class Crate:
    """A crate: its types and other items by name, its impls, and by which path it knows others' names."""

    def __init__(self, name):
        self.name, self.types, self.others, self.impls, self.uses = name, {}, {}, [], {}
        self.homes, self.renamed = {}, {}
        files = [f"{folder}/{it}" for folder, _, names in os.walk(f"{ROOT}/crates/{name}/src") for it in sorted(names)]
        texts = {}
        for path in files:
            with open(path, encoding="utf-8") as it:
                texts[path] = it.read()
        self.text = "\n".join(texts.values())
        for path in files:
            if path.endswith(("src/lib.rt", "src/main.rt")):
                self.tell(texts[path])
        for path in files:
            self.read(texts[path], os.path.basename(path)[:-3])

    def tell(self, text):
        """Notes from which module each name is told to others: another one's of this name isn't meant."""
        for home, many, one in TOLD.findall(text):
            for name in parted(many or one):
                word, _, other = name.partition(" as ")
                self.homes[other or word] = home
                if other:
                    self.renamed[home, word] = other

    def read(self, text, module):
        for (home, word), other in self.renamed.items():
            text = re.sub(rf"\b{word}\b", other, text) if home == module else text
        for item in items(text):
            line = next(it for it in item if not it.startswith("#"))
            if line.startswith("use "):
                self.use(" ".join(it.strip() for it in item)[4:-1])
            elif found := KIND.match(line):
                name = re.match(r"\w*", found[3])[0]
                kind = self.types if found[2] in ("struct", "enum") else self.others
                if found[2] == "impl":
                    self.impls.append(item)
                elif name not in kind or self.homes.get(name) == module or found[1] == "pub " and name not in self.homes:
                    kind[name] = item

    def use(self, path, front=""):
        head, brace, rest = path.partition("{")
        if brace:
            for part in parted(rest[:-1]):
                self.use(part, front + head)
            return
        whole, _, other = (front + path).removesuffix("::self").partition(" as ")
        if not whole.startswith(("crate::", "super::")):
            self.uses[other or whole.split("::")[-1]] = whole + (f" as {other}" if other else "")
