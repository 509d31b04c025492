#!/usr/bin/env python3
"""Makes the pages of the sources in page/parts, of the module, the schedules and the version:

usage: compose.py MODULE.wasm FOLDER [MADE_OF]    FOLDER/mouktelf.html, the player, and FOLDER/bugs.html. The lines of
                                                  the file MADE_OF say of each what its module was made of

Each is one file: what it names stands in it. The player's examples are all schedules, each with the sentence that
says what it shows (page/parts/examples.txt); what the other page has, bugs.py says."""

import base64
import json
import os
import re
import sys

sys.dont_write_bytecode = True
import bugs

TOP = bugs.TOP
FOLDER = bugs.FOLDER
PARTS = f"{TOP}/page/parts"
KINDS = (("Schedules", ""), ("What drivers and pools get wrong", "peers/"))
STYLE = re.compile(r'<link rel="stylesheet" href="([\w.]+)">')
SCRIPT = re.compile(r'<script(.*?) src="([\w.]+)"></script>')
text_of = bugs.text_of


def sentences():
    """What each schedule shows, by its name, in the order of the file."""
    found = {}
    for line in text_of(f"{TOP}/page/parts/examples.txt").splitlines():
        name, _, sentence = line.partition(": ")
        if not sentence or name in found:
            sys.exit(f"page/parts/examples.txt: this line is wrong: {line}")
        found[name] = sentence
    return found


def names():
    """The schedules that there are."""
    for _, front in KINDS:
        for name in os.listdir(f"{FOLDER}/{front}"):
            if name.endswith(".json"):
                yield front + name.removesuffix(".json")


def examples():
    shows, there = sentences(), set(names())
    if shows.keys() != there:
        sys.exit(f"page/parts/examples.txt: it and schedules/ differ: {sorted(shows.keys() ^ there)}")
    for kind, front in KINDS:
        for name, sentence in shows.items():
            if name.rpartition("/")[0] == front.rstrip("/"):
                text = text_of(f"{FOLDER}/{name}.json")
                yield {"kind": kind, "name": name, "shows": sentence, "text": text}


def one_file(name, made, made_of):
    """A page of this name, with what is made, and with all that it names in it."""
    # So no text ends the element that it stands in.
    data = json.dumps(made, separators=(",", ":")).replace("<", "\\u003c")

    def script(found):
        text = data if found[2] == "data" else text_of(f"{PARTS}/{found[2]}")
        if "</script" in text:
            sys.exit(f"page/parts/{found[2]} ends the element that it is put into")
        return f"<script{found[1]}>\n{text.strip()}\n</script>"

    page = text_of(f"{PARTS}/{name}").replace("<!-- BUGS -->", bugs.all_bugs() if name == "bugs.html" else "")
    page = STYLE.sub(lambda found: f"<style>\n{text_of(f'{PARTS}/{found[1]}')}</style>", page)
    # It has its own first line, and the next one says what it is.
    first, _, rest = SCRIPT.sub(script, page).partition("\n")
    return f"{first}\n<!-- scripts/page made this file: edit it in page/parts.\n{made_of}-->\n{rest}"


def main(module, folder, made_of=os.devnull):
    with open(module, "rb") as it:
        wasm = base64.b64encode(it.read()).decode()
    said = text_of(made_of)
    made = {"version": text_of(f"{TOP}/VERSION").strip(), "module": wasm}
    shown = list(examples())
    for name, more in (("mouktelf.html", {"examples": shown}), ("bugs.html", {"schedules": bugs.schedules()})):
        page = one_file(name, made | more, said)
        with open(f"{folder}/{name}", "w", encoding="utf-8", newline="") as it:
            it.write(page)
        print(f"page: {folder}/{name}: {len(page)} characters")
    print(f"page: {len(shown)} schedules, a module of {len(wasm) * 3 // 4} bytes")


if __name__ == "__main__":
    main(*sys.argv[1:])
