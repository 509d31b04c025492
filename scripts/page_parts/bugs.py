"""What others get wrong, as a page: each bug of page/parts/bugs.txt, which has its words, the picture of what goes
wrong, and what a driver printed. What happens here the page's player draws, or a test says it."""

import html
import os
import re
import sys
import urllib.parse

from bug_pictures import picture

TOP = os.path.dirname(os.path.dirname(os.path.dirname(os.path.abspath(__file__))))
FOLDER = f"{TOP}/schedules"
TESTS = "tests/crates/test_layers/data"
KEYS = ("title", "elsewhere", "here", "recorded", "packets", "schedule", "test")
PLAYER = "mouktelf.html"


def text_of(path):
    with open(path, encoding="utf-8", newline="") as it:
        return it.read()


def entries():
    """The bugs of page/parts/bugs.txt, each with its name, its keys and the rows of its picture."""
    found = []
    for line in text_of(f"{TOP}/page/parts/bugs.txt").splitlines():
        key, _, value = line.partition(": ")
        if not line or line.startswith("#"):
            continue
        if line.startswith("= "):
            found.append({"name": line[2:], "rows": []})
        elif key in KEYS:
            found[-1][key] = value
        else:
            found[-1]["rows"].append(line)
    return found


def plain(words):
    """Markdown's words as HTML: code and what is stressed; of a link its words."""
    words = html.escape(re.sub(r"!?\[([^\]]*)\]\([^)]*\)", r"\1", words), quote=False)
    words = re.sub(r"`([^`]*)`", r"<code>\1</code>", words)
    words = re.sub(r"\*\*([^*]*)\*\*", r"<b>\1</b>", words)
    return re.sub(r"\*([^*]*)\*", r"<em>\1</em>", words)


def bugs():
    """All bugs, each with its words. Each schedule of schedules/peers has its bug."""
    found = entries()
    missing = {it.removesuffix(".json") for it in os.listdir(f"{FOLDER}/peers") if it.endswith(".json")}
    missing -= {it["name"] for it in found}
    if missing:
        sys.exit(f"page/parts/bugs.txt: these have no picture: {sorted(missing)}")
    for bug, key in ((it, key) for it in found for key in ("title", "elsewhere", "here")):
        if key not in bug:
            sys.exit(f"page/parts/bugs.txt: {bug['name']} has no {key}")
    return found


def schedule_of(bug):
    """What is played here: the name of an example, or None, and its text, or None."""
    given = bug.get("schedule", None if "test" in bug else f"peers/{bug['name']}")
    if given is None or given.startswith("{"):
        return None, given and spread(given)
    return given, text_of(f"{FOLDER}/{given}.json")


def spread(schedule):
    """A schedule of one line with an event in each line."""
    head, events = schedule.split('"events": [', 1)
    events = events.removesuffix("]}").replace("], [", "],\n  [")
    return f'{head}"events": [\n  {events}\n]}}\n'


def schedules():
    """What is played here, by the bug's name."""
    return {it["name"]: schedule_of(it)[1] for it in bugs() if schedule_of(it)[1]}


def address_of(bug):
    """Where the player has the schedule of a bug."""
    name, text = schedule_of(bug)
    return PLAYER + "#" + urllib.parse.urlencode({"example": name} if name else {"text": text})


def part_of(found, form):
    """A file of drivers/ and, of what it has, the parts that this form finds behind the name of a part."""
    path, _, name = found.partition(" ")
    parts = re.findall(form.format(re.escape(name)), text_of(f"{TOP}/{path}"))
    if not parts:
        sys.exit(f"page/parts/bugs.txt: {path} has no {name}")
    return path, "".join(parts)


def case_of(bug):
    """The lines of a test, behind its name."""
    path, _, case = bug["test"].partition(" ")
    found = re.search(rf"(?m)^= \w+: {re.escape(case)}\n((?:.+\n)+)", text_of(f"{TOP}/{TESTS}/{path}"))
    if not found:
        sys.exit(f"page/parts/bugs.txt: {path} has no case {case}")
    return f"{TESTS}/{path}, case “{case}”", found[1]


def shown_lines(words, lines):
    """Lines as they are, with what they are."""
    label = re.sub("<[^>]*>", "", words)
    return f'<p class="source">{words}</p><pre tabindex="0" aria-label="{label}">{html.escape(lines)}</pre>'


def said_of_source(bug):
    """Where the picture of what goes wrong is from."""
    if "recorded" not in bug:
        return '<p class="source">Drawn by hand, after these words.</p>'
    path, printed = part_of(bug["recorded"], r"(?m)^{}\n(?:  .*\n)+")
    source, packets = part_of(bug["packets"], r"(?m)^= {}\n((?:(?!= ).+\n)+)")
    return shown_lines(f"What a run of this driver printed, <code>{path}</code>:", printed) + shown_lines(
        f"What it sent and was sent, <code>{source}</code> (a request names its transaction, “in 0” none):", packets)


def shown_here(bug):
    """What happens here: a picture, where a schedule is played, and a test's lines."""
    parts = []
    name, title = bug["name"], html.escape(bug["title"])
    if schedule_of(bug)[1]:
        image = f'<img data-bug="{name}" alt="">'
        parts.append(f'<div class="frame" tabindex="0" role="group" aria-label="{title}, here">{image}</div>')
        parts.append(f'<p><a class="try" href="{html.escape(address_of(bug))}">Change it and see</a></p>')
    if "test" in bug:
        source, lines = case_of(bug)
        words = f"A schedule has two proved ends, so no peer says this in one: it is a test, {source}."
        parts.append(shown_lines(words, lines))
    return "".join(parts)


def article(bug):
    name, title = bug["name"], html.escape(bug["title"])
    drawn = picture(name, bug["title"], bug["rows"])
    return f"""<article id="{name}" aria-labelledby="{name}-head">
<h2 id="{name}-head">{title}</h2>
<section class="elsewhere" aria-label="Elsewhere">
<h3>Elsewhere</h3>
<p>{plain(bug["elsewhere"])}</p>
<div class="frame" tabindex="0" role="group" aria-label="{title}, elsewhere">{drawn}</div>
{said_of_source(bug)}
</section>
<section class="here" aria-label="Here">
<h3>Here</h3>
<p>{plain(bug["here"])}</p>
{shown_here(bug)}
</section>
</article>"""


def all_bugs():
    """The list of all bugs, and each of them."""
    found = bugs()
    links = "".join(f'<li><a href="#{it["name"]}">{html.escape(it["title"])}</a></li>' for it in found)
    return f'<nav aria-label="All bugs"><ol>{links}</ol></nav>\n' + "\n".join(map(article, found))
