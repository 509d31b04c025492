"""Reads the names in definitions and proofs: which of them are uses of what a file declares or brings in, and which are
variables, labels or fields of the same spelling.

uses_in gives each use as (start, end, path): `path` is the name alone, or all of `alias.name` and
`Rattle.crate.specs.Module.name`, of which the use is the last part that is asked for.
"""

import collections
import re

TOKEN = re.compile(r'--(?=[\s\-]|$)[^\n]*|--[^\n]*|"(?:\\.|[^"\\\n])*"|[^\s(){}.;,@"«»]+|[(){}.;,@"«»]', re.M)
OPENS, CLOSES = "({[", ")}]"
MARKS = {"abbrev", "pub", "unfoldable", "opaque", "pattern", "axiom"}
BLOCKS = {"data", "record", "module", "mutual"}
NO_NAMES = {"→", "×", "↦", "=", "|", ":", "λ", "let", "in", "elim", "as", "where", "do", "←", "_", "∀", "record", "unfolding"}

# A token: where it stands, in its text, its line, and behind how many signs of that.
Token = collections.namedtuple("Token", "text start end line column")


def tokens_of(text, offset=0):
    """The tokens of a text, comments and quoted texts apart."""
    starts = [0, *(it.end() for it in re.finditer("\n", text))]
    found, line = [], 0
    for it in TOKEN.finditer(text):
        while line + 1 < len(starts) and starts[line + 1] <= it.start():
            line += 1
        if not it[0].startswith(("--", '"')):
            found.append(Token(it[0], it.start() + offset, it.end() + offset, line, it.start() - starts[line]))
    return found


def is_name(token):
    return token.text[0] not in '(){}.;,@"«»' and token.text not in NO_NAMES and token.text not in ("[", "]")


def is_member(tokens, at):
    """Whether this is what stands behind a dot: a field, or a part of a path."""
    return at > 0 and tokens[at - 1].text == "." and tokens[at - 1].end == tokens[at].start


def path_at(tokens, at):
    """The path that ends here, from its first name on, and where that stands; None where a term is in front of the dot."""
    first = at
    while is_member(tokens, first):
        first -= 2
        if first < 0 or tokens[first].end != tokens[first + 1].start or not is_name(tokens[first]):
            return None, None
    return "".join(it.text for it in tokens[first : at + 1]), tokens[first].text


def end_of_group(tokens, at):
    """Where the bracket is closed that stands here."""
    depth = 0
    for number in range(at, len(tokens)):
        depth += (tokens[number].text in OPENS) - (tokens[number].text in CLOSES)
        if depth == 0:
            return number
    return len(tokens)


def find_flat(tokens, words, at=0, end=None):
    """The first of these words that stands in no bracket, from here on; where the tokens end, None is there."""
    depth = 0
    for number in range(at, len(tokens) if end is None else end):
        text = tokens[number].text
        if depth == 0 and text in words and not (text == "." and is_projection(tokens, number)):
            return number
        depth += (text in OPENS) - (text in CLOSES)
        if depth < 0:
            return None
    return None


def is_projection(tokens, at):
    """Whether a dot goes on with a path, and doesn't end the binders of a λ."""
    return at + 1 < len(tokens) and tokens[at].end == tokens[at + 1].start and is_name(tokens[at + 1])


def names_in(tokens):
    """What a pattern may bind: each name that is no part of a path, and no label."""
    for at, token in enumerate(tokens):
        is_path = at + 1 < len(tokens) and tokens[at + 1].text == "." and is_projection(tokens, at + 1)
        is_label = at > 0 and tokens[at - 1].text in "{;" and at + 1 < len(tokens) and tokens[at + 1].text == "="
        if is_name(token) and not is_member(tokens, at) and not is_path and not is_label:
            yield token.text


class Uses:
    """Walks through a file, and keeps the uses of names that no variable hides."""

    def __init__(self):
        self.found, self.at = [], 0

    def use(self, tokens, at, bound):
        path, first = path_at(tokens, at)
        if path is not None and first not in bound:
            self.found.append((tokens[at].start, tokens[at].end, path))

    def term(self, tokens, bound):
        """The uses in a term, where these names are bound."""
        self.at = 0
        self.group(tokens, set(bound))

    def group(self, tokens, outer):
        """What stands up to the bracket that closes this group."""
        bound, lets = set(outer), []
        while self.at < len(tokens):
            token, text = tokens[self.at], tokens[self.at].text
            if text in CLOSES:
                return
            if text in OPENS:
                bound |= self.bracket(tokens, bound)
            elif text in (",", ";", "|"):
                bound, lets = set(outer), []
                self.at += 1
                self.case(tokens, bound, text)
            elif text == "λ":
                end = find_flat(tokens, {"."}, self.at + 1) or len(tokens)
                bound |= self.binders(tokens[self.at + 1 : end], bound)
                self.at = end + 1
            elif text == "let":
                end = find_flat(tokens, {":", "="}, self.at + 1) or len(tokens)
                lets.append(set(names_in(tokens[self.at + 1 : end])))
                self.at = end + 1
            elif text == "in" and lets:
                bound |= lets.pop()
                self.at += 1
            else:
                if is_name(token):
                    self.use(tokens, self.at, bound)
                self.at += 1

    def case(self, tokens, bound, sign):
        """A case's pattern binds what is in it, up to its arrow."""
        if sign == "|":
            end = find_flat(tokens, {"↦"}, self.at)
            if end is not None:
                bound |= set(names_in(tokens[self.at : end]))
                self.at = end + 1

    def bracket(self, tokens, bound):
        """A bracket: the names that it binds for what stands behind it."""
        first, sign = self.at, tokens[self.at].text
        self.at += 1
        names, inner, is_record = set(), set(bound), self.is_record(tokens, first)
        end = self.at
        while end < len(tokens) and is_name(tokens[end]) and not is_member(tokens, end):
            end += 1
        if sign in "({" and end > self.at and end < len(tokens) and tokens[end].text == ":":
            names = {it.text for it in tokens[self.at : end]}
            self.at = end + 1
        elif sign == "[":
            self.case(tokens, inner, "|")
        if is_record:
            self.record(tokens, first, inner)
            names = set()
        else:
            self.label(tokens, inner)
            self.group(tokens, inner)
        self.at += 1
        return names

    def is_record(self, tokens, first):
        if tokens[first].text != "{" or first == 0:
            return False
        before = first - 1
        while before >= 0 and (is_name(tokens[before]) or tokens[before].text == ".") and tokens[before].text != "record":
            before -= 1
        if tokens[first - 1].text == ")":
            depth = 0
            for before in range(first - 1, -1, -1):
                depth += (tokens[before].text in CLOSES) - (tokens[before].text in OPENS)
                if depth == 0:
                    before -= 1
                    break
        return before >= 0 and tokens[before].text == "record"

    def label(self, tokens, bound):
        """An implicit argument's name is no use."""
        if self.at + 1 < len(tokens) and tokens[self.at].text not in OPENS and tokens[self.at + 1].text == "=":
            self.at += 2

    def record(self, tokens, first, bound):
        """A record's value or type: its labels are no uses, and those of a type stand for its later parts."""
        end = end_of_group(tokens, first)
        self.at = first + 1
        bound = set(bound)
        while self.at < end:
            sign = find_flat(tokens, {"=", ":"}, self.at, end)
            if sign is None:
                self.at = end
                break
            if tokens[sign].text == ":":
                bound |= set(names_in(tokens[self.at : sign]))
            last = find_flat(tokens, {";"}, sign + 1, end)
            last = end if last is None else last
            inner = Uses()
            inner.term(tokens[sign + 1 : last], bound)
            self.found += inner.found
            self.at = last + 1
        self.at = end

    def binders(self, tokens, bound):
        """What a λ binds; the types that it gives are terms."""
        names, at = set(), 0
        while at < len(tokens):
            if tokens[at].text in OPENS:
                end = end_of_group(tokens, at)
                colon = find_flat(tokens, {":"}, at + 1, end)
                if colon is not None:
                    inner = Uses()
                    inner.term(tokens[colon + 1 : end], bound | names)
                    self.found += inner.found
                names |= set(names_in(tokens[at + 1 : colon if colon is not None else end]))
                at = end + 1
            else:
                names |= {tokens[at].text} if is_name(tokens[at]) else set()
                at += 1
        return names

    def items(self, tokens, bound, at_top=False):
        """The declarations of a block; inside a clause they hide others from the first one on."""
        bound = set(bound)
        groups = list(items_of(tokens))
        if not at_top:
            bound |= {name for it in groups for name in declared_by(it)}
        for item in groups:
            bound |= self.item(item, bound, at_top) or set()

    def item(self, item, bound, at_top):
        words = [it.text for it in item]
        marks = next((at for at, it in enumerate(words) if it not in MARKS), len(words))
        head = words[marks] if marks < len(words) else ""
        if head in ("use", "mod", "infix", "infixl", "infixr", "package"):
            return self.fixity(item, bound) if head.startswith("infix") else None
        if head == "open":
            end = next((at for at, it in enumerate(words) if it == "use"), len(words))
            self.term(item[marks + 1 : end], bound)
            return set(opened_by(item[end + 1 :]))
        if head in BLOCKS:
            return self.block(item, marks, head, bound, at_top)
        if head in ("unfolding", "ruleset"):
            self.term(item[marks + 1 :], bound)
            return None
        self.declaration(item[marks:], bound, at_top)
        return None

    def fixity(self, item, bound):
        for at in range(2, len(item)):
            self.use(item, at, bound)

    def block(self, item, marks, head, bound, at_top):
        """A type or a module: what its head binds stands for all of it."""
        where = find_flat(item, {"where"})
        where = len(item) if where is None else where
        colon = find_flat(item, {":"}, marks, where)
        front = item[marks + 2 : colon if colon is not None else where]
        if head in ("data", "record") and at_top:
            self.found.append((item[marks + 1].start, item[marks + 1].end, item[marks + 1].text))
        inner = set(bound) | self.parameters(front, bound)
        if colon is not None:
            self.term(item[colon + 1 : where], inner)
        rest = item[where + 1 :]
        if head in ("module", "mutual"):
            self.items(rest, inner, True)
            return
        for part in items_of(rest):
            sign = find_flat(part, {":"})
            if sign is not None:
                self.term(part[sign + 1 :], inner)
                inner |= {it.text for it in part[:sign]} if head == "record" else set()

    def parameters(self, tokens, bound):
        names, at = set(), 0
        while at < len(tokens):
            if tokens[at].text not in OPENS:
                at += 1
                continue
            end = end_of_group(tokens, at)
            colon = find_flat(tokens, {":"}, at + 1, end)
            if colon is not None:
                inner = Uses()
                inner.term(tokens[colon + 1 : end], bound | names)
                self.found += inner.found
            names |= set(names_in(tokens[at + 1 : colon if colon is not None else end]))
            at = end + 1
        return names

    def declaration(self, item, bound, at_top):
        """A signature, or a clause with what it binds."""
        sign = find_flat(item, {":", "="})
        if sign is None:
            self.term(item, bound)
            return
        if at_top and is_name(item[0]):
            self.found.append((item[0].start, item[0].end, item[0].text))
        if item[sign].text == ":":
            self.term(item[sign + 1 :], bound)
            return
        inner = bound | set(names_in(item[1:sign] if is_name(item[0]) else item[:sign]))
        if not at_top and is_name(item[0]):
            inner.add(item[0].text)
        where = find_flat(item, {"where"}, sign + 1)
        body, rest = (item[sign + 1 :], []) if where is None else (item[sign + 1 : where], item[where + 1 :])
        inner |= {name for it in items_of(rest) for name in declared_by(it)}
        self.term(body, inner)
        self.items(rest, inner)


def items_of(tokens):
    """The declarations of a block, by how far their first lines are set in."""
    firsts = {at for at, it in enumerate(tokens) if at == 0 or tokens[at - 1].line != it.line}
    item, least = [], min((tokens[at].column for at in firsts), default=0)
    for at, token in enumerate(tokens):
        if at in firsts and token.column <= least and item:
            yield item
            item = []
        item.append(token)
    if item:
        yield item


def declared_by(item):
    """What an item declares: a function's name, or what it opens."""
    sign = find_flat(item, {":", "="})
    if item[0].text == "open":
        end = next((at for at, it in enumerate(item) if it.text == "use"), len(item))
        return opened_by(item[end + 1 :])
    names = [it.text for it in item[: sign or 0] if it.text not in MARKS]
    return names[:1]


def opened_by(tokens):
    """The names that an `open` gives."""
    names = []
    for at, token in enumerate(tokens):
        if is_name(token):
            if at > 0 and tokens[at - 1].text == "as":
                names.pop()
            names.append(token.text)
    return names


def uses_in(text):
    """The uses of names in a file of definitions or of proofs."""
    walk = Uses()
    walk.items(tokens_of(text), set(), True)
    return walk.found


def uses_in_term(text, offset, bound):
    """The uses in a term that stands there, where these names are bound."""
    walk = Uses()
    walk.term(tokens_of(text, offset), set(bound))
    return walk.found
