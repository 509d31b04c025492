"""A picture of rows that were written by hand (page/parts/bugs.txt): who sends what to whom, time going down."""

import html
import re
import sys

LANES = {"caller": 52, "next": 52, "driver": 312, "server": 588}
HEADS = ("caller", "driver", "server")
NAMES = {"next": "next caller"}
WIDTH, TOP, ROW, BREAK, SIGN = 640, 34, 31, 58, 7
# Between the end of an arrow and the lane.
GAP = 4
ROW_FORM = re.compile(r"(! )?(\w+)(?: ([-=x])> (\w+)(?: \+(\d+))?)?: (.+)")


def row_of(line):
    """A row: whether it is the mistake, from where, to where by which arrow, how many rows down, its words."""
    if line.startswith("-- "):
        return {"break": line[3:]}
    if line == ".":
        return {"empty": True}
    found = ROW_FORM.fullmatch(line)
    if not found or found[2] not in LANES or (found[4] or "driver") not in LANES:
        sys.exit(f"page/parts/bugs.txt: this is no row: {line}")
    is_wrong, start, arrow, end, later, words = found.groups()
    return {"wrong": bool(is_wrong), "from": start, "arrow": arrow, "to": end, "later": int(later or 0), "words": words}


def said(row):
    """A row as a sentence."""
    if "break" in row:
        return row["break"]
    names = [NAMES.get(it, it) for it in (row["from"], row["to"]) if it]
    return ("the mistake: " if row["wrong"] else "") + " to ".join(names) + ": " + row["words"]


def heights(rows):
    """Where each row's line is, and where the picture ends."""
    at, found = TOP, []
    for row in rows:
        at += BREAK if "break" in row else ROW
        found.append(at - 8)
    return found, at + 12


def label(x, y, words, kind, clamp=False):
    """Words with a ground, in the middle of x."""
    size = len(words) * SIGN + 8
    front = x - size / 2
    if clamp:
        front = min(max(front, 2), WIDTH - size - 2)
    return (
        f'<rect class="ground {kind}" x="{front:g}" y="{y - 13}" width="{size}" height="17" rx="3"/>'
        f'<text class="{kind}" x="{front + size / 2:g}" y="{y}">{html.escape(words)}</text>'
    )


def arrow(row, start, end):
    """An arrow between two lanes, with its end, and its words, which stand where it begins."""
    kind = "wrong" if row["wrong"] else ""
    left, right = LANES[row["from"]], LANES[row["to"]]
    way = 1 if right > left else -1
    left, right = left + way * GAP, right - way * GAP
    thick = " urgent" if row["arrow"] == "=" else ""
    parts = [f'<line class="arrow {kind}{thick}" x1="{left}" y1="{start}" x2="{right}" y2="{end}"/>']
    if row["arrow"] == "x":
        at = right - way * 5
        parts.append(f'<path class="arrow {kind}" d="M{at - 5} {end - 5}l10 10m0 -10l-10 10"/>')
    else:
        parts.append(f'<path class="head {kind}" d="M{right} {end}l{-way * 9} -5v10z"/>')
    return parts, label((left + right) / 2, start - 9, row["words"], kind)


def lanes(bottom):
    yield from (f'<line class="life" x1="{LANES[it]}" y1="{TOP - 8}" x2="{LANES[it]}" y2="{bottom}"/>' for it in HEADS)
    yield from (label(LANES[it], TOP - 14, it, "name", clamp=True) for it in HEADS)


def picture(name, title, lines):
    """The picture as SVG, in the colours of the page that it stands in."""
    rows = [row_of(it) for it in lines]
    places, bottom = heights(rows)
    below, above = list(lanes(bottom)), []
    for number, (row, place) in enumerate(zip(rows, places)):
        if "break" in row:
            below.append(f'<line class="break" x1="0" y1="{place - 24}" x2="{WIDTH}" y2="{place - 24}"/>')
            above.append(label(WIDTH / 2, place - 20, row["break"], "between"))
            above.append(label(LANES["next"], place + 2, NAMES["next"], "name", clamp=True))
        elif "empty" in row:
            continue
        elif row["arrow"]:
            parts, words = arrow(row, place, places[number + row["later"]])
            below += parts
            above.append(words)
        else:
            above.append(label(LANES[row["from"]], place, row["words"], "wrong" if row["wrong"] else "note", clamp=True))
    words = html.escape(". ".join(said(it) for it in rows if "empty" not in it))
    return (
        f'<svg viewBox="0 0 {WIDTH} {bottom}" width="{WIDTH}" height="{bottom}" role="img" '
        f'aria-labelledby="{name}-title {name}-words"><title id="{name}-title">{html.escape(title)}, elsewhere</title>'
        f'<desc id="{name}-words">{words}.</desc>{"".join(below)}{"".join(above)}</svg>'
    )
