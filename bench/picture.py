"""Draws the table that bench/run prints as bars: of each thing that has one beside it in plain C, how many instructions that one
takes for each of this repository's.

usage: python3 bench/picture.py FILE PICTURE      the table is looked for in FILE, as bench/measured.txt
"""
import html
import sys

# Where the bars begin, the width of a bar that is as fast as plain C, and of the longest bar.
LEFT, WHOLE, LONGEST = 530, 200, 330
STYLE = """text{font:12px ui-monospace,Menlo,"DejaVu Sans Mono",monospace;fill:#222}.head{font-weight:bold}.end{text-anchor:end}
.bg{fill:#fff}.bar{fill:#2563a8}.plain{stroke:#222;stroke-dasharray:3 3}
@media (prefers-color-scheme:dark){text{fill:#ddd}.bg{fill:#16191d}.bar{fill:#6aa6e8}.plain{stroke:#ddd}}"""


def ratios(lines):
    """Gives of each group its things, each with plain C's instructions over this repository's."""
    found = {}
    for line in lines:
        cells = [it.strip() for it in line.strip().strip("|").split("|")]
        if len(cells) == 7 and cells[1].startswith("`bench/") and cells[5]:
            group, _, what = cells[0].partition(": ")
            found.setdefault(group, []).append((what.replace("`", ""), float(cells[5])))
    return found


def bars(things, top):
    """Draws the things of a group from this height on."""
    drawn = []
    for what, ratio in things:
        width = max(1, min(LONGEST, round(WHOLE * ratio)))
        drawn.append(f'<text x="{LEFT - 8}" y="{top + 10}" class="end">{html.escape(what)}</text>')
        drawn.append(f'<rect x="{LEFT}" y="{top}" width="{width}" height="11" class="bar"/>')
        drawn.append(f'<text x="{LEFT + LONGEST + 50}" y="{top + 10}" class="end">{ratio:.2f}</text>')
        top += 17
    return drawn, top


def picture(lines):
    """Draws the whole picture."""
    width, top = LEFT + LONGEST + 70, 44
    drawn = ['<text x="12" y="22" class="head">Instructions of plain C for each of this repository\'s</text>']
    for group, things in ratios(lines).items():
        drawn.append(f'<text x="12" y="{top + 8}" class="head">{html.escape(group.replace("`", ""))}</text>')
        group_drawn, bottom = bars(things, top + 18)
        line = f'<line x1="{LEFT + WHOLE}" y1="{top + 14}" x2="{LEFT + WHOLE}" y2="{bottom}" class="plain"/>'
        drawn += [*group_drawn, line]
        top = bottom + 14
    head = f'<svg xmlns="http://www.w3.org/2000/svg" width="{width}" height="{top}" viewBox="0 0 {width} {top}" role="img">'
    title = "<title>Instructions of plain C for each of this repository's</title>"
    return "\n".join([head, title, f"<style>{STYLE}</style>", f'<rect width="{width}" height="{top}" class="bg"/>', *drawn, "</svg>", ""])


if __name__ == "__main__":
    if len(sys.argv) != 3:
        sys.exit(__doc__)
    with open(sys.argv[1], encoding="utf-8") as table, open(sys.argv[2], "w", encoding="utf-8") as out:
        out.write(picture(table))
