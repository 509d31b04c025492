"""Man pages: man_pages.py OUT PROGRAMS. Section 3 out of the headers' comments and prototypes, a page a header; section 1 out of
what each program of the folder PROGRAMS says to --help; tdsplay has no such word, and what is stored of it is taken. Nothing is
written by hand here but the frame."""

import os
import re
import subprocess
import sys

import headers

PROGRAMS = {
    "tdsplay": "plays schedules of pooled TDS sessions",
    "tdsview": "shows the play of a schedule as a picture, as bytes and in words",
    "tdsserve": "a server for TDS drivers to be tried on",
    "tdsask": "a TDS client by arguments",
    "tdsrelay": "lets many applications share few connections to a TDS server",
    "tdswatch": "says what the connections of a capture did wrong",
}


def roff(text):
    text = text.replace("\\", "\\e").replace("-", "\\-")
    return re.sub(r"(?m)^(?=['.])", "\\\\&", text)


def frame(name, section, line):
    return [f'.TH {name.upper()} {section} {date()} "Mouktelf {headers.version()}"', ".SH NAME", f"{name} \\- {line}"]


def date():
    """The day of the commit."""
    words = ["git", "log", "-1", "--format=%cs"]
    return subprocess.run(words, capture_output=True, text=True, check=True, cwd=headers.TOP).stdout.strip()


def as_it_is(text):
    return [".nf", roff(text), ".fi"]


def of_header(name):
    text = headers.body_of(name)
    calls = [f"{answer} {call}({', '.join(words) or 'void'});" for header, answer, call, words in headers.prototypes() if header == name]
    page = frame("mouktelf" if name == "tds" else f"mouktelf_{name.removeprefix('tds_').removeprefix('mouktelf_')}", 3, headers.HEADERS[name])
    page += [".SH SYNOPSIS", ".nf", ".B #include <mouktelf.h>", ""] + [roff(it) for it in calls]
    page += ["", roff("cc file.c $(pkg-config --cflags --libs mouktelf)"), ".fi", ".SH DESCRIPTION"]
    return page + as_it_is(text.strip())


def of_program(name, program):
    if name == "tdsplay":
        with open(f"{headers.TOP}/scripts/help/{name}", encoding="utf-8") as it:
            text = it.read()
    else:
        text = subprocess.run([program, "--help"], stdin=subprocess.DEVNULL, capture_output=True, text=True, check=True).stdout
    return frame(name, 1, PROGRAMS[name]) + [".SH DESCRIPTION"] + as_it_is(text.strip())


def of_tdstls(program):
    """Its flags as it tells them."""
    said = [subprocess.run([program, *words], capture_output=True, text=True, check=False)
            for words in (["-help"], ["server", "-h"], ["client", "-h"])]
    text = "\n".join((it.stdout + it.stderr).strip() + "\n" for it in said).replace("\t", "        ")
    return frame("tdstls", 1, "TLS before a TDS server or behind a TDS client that has none") + [".SH DESCRIPTION"] + as_it_is(text.strip())


def page_name(page):
    return re.match(r"(\S+)", page[2])[1]


def main(out, folder):
    programs = [of_program(it, f"{folder}/{it}") for it in PROGRAMS if os.path.exists(f"{folder}/{it}")]
    programs += [of_tdstls(it) for it in (f"{folder}/tdstls",) if os.path.exists(it)]
    for section, pages in ((3, [of_header(it) for it in headers.here()]), (1, programs)):
        os.makedirs(f"{out}/man{section}", exist_ok=True)
        for page in pages:
            with open(f"{out}/man{section}/{page_name(page)}.{section}", "w", encoding="utf-8") as it:
                it.write("\n".join(page) + "\n")


if __name__ == "__main__":
    main(*sys.argv[1:])
