#!/usr/bin/env python3
"""What a wrapper answers by itself: first_look.py NAME before|after|help WORD..

before: what needs no program is answered before one is compiled: words that are wrong, a file that can't be
read or is no JSON. It ends with 0 where the program is to answer, else with the program's status.
after: behind a run that ended with 1 or 2, a line says where and what is wrong.
help: prints what is stored of the program's help, or the version."""

import errno
import os
import stat
import sys

import json_look

HERE = os.path.dirname(os.path.realpath(__file__))
MOST_BYTES = 32 * 1024 * 1024
MOST_LOOKED_AT = 1024 * 1024

# Of each command the options, and how many arguments stand after it; N is a number.
COMMANDS = {
    "tdsplay": {"play": ({}, 1), "trace": ({}, 1), "loopback": ({}, 1), "show": ({}, 1),
                "tokens": ({}, 1), "vectors": ({}, 0)},
    "tdsview": {
        "bytes": ({"--show": 0, "--text2pcap": 0}, 1),
        "draw": ({"--text": 0, "--beside": 0, "--from": 1, "--to": 1}, 1),
        "snapshots": ({}, 1),
        "explain": ({}, 1),
        "check": ({"--write": 0}, None),
    },
}
WORDS = {
    "tdsplay": "the arguments are: play FILE, trace FILE, loopback FILE, show HEX, tokens HEX, or vectors",
    "tdsview": "the commands are bytes, draw, snapshots, explain and check, each with a FILE",
    "tdsserve": "the first argument is an address, as 127.0.0.1:1433",
    "tdsrelay": "the arguments are two addresses, as 127.0.0.1:1434 127.0.0.1:1433",
    "tdsask": "the arguments are an address, as 127.0.0.1:1433, and what is asked (docs/SERVING.md)",
}


def is_text(word):
    try:
        word.encode()
    except UnicodeEncodeError:
        return False
    return True


def read_command(name, words):
    """The command and what stands after it, without options; or what is wrong with the arguments."""
    commands = COMMANDS[name]
    if not words:
        return None, WORDS[name]
    for place, word in enumerate(words, 1):
        if not is_text(word):
            return None, f"argument {place} isn't UTF-8"
    command, rest = words[0], words[1:]
    if command not in commands:
        return None, f'"{command}" is no command{json_look.similar(command, list(commands))}'
    options, count = commands[command]
    found, is_open = [], True
    while rest:
        word = rest.pop(0)
        option, has_value, _ = word.partition("=")
        if is_open and word == "--":
            is_open = False
        elif is_open and option in options:
            if options[option] and not has_value and not (rest and rest.pop(0).isdigit()):
                return None, f'after "{option}" stands a number'
        elif is_open and word.startswith("-") and word != "-":
            return None, f'{command} has no option "{word}"; ' + (
                "it has " + ", ".join(options) if options else "it has none"
            )
        else:
            found.append(word)
    if count is not None and len(found) != count or not found and count is None:
        wanted = {0: "no argument", 1: "one argument"}.get(count, "an argument at least")
        return None, f"{command} takes {wanted}, and here are {len(found)}"
    return (command, found), None


def read_file(path):
    """The bytes of a plain file, and what is wrong with it: a reason, and the number that the system gives it."""
    try:
        if not stat.S_ISREG(os.stat(path).st_mode) and not os.path.isdir(path):
            # A pipe is read once, by the program.
            return None, None
        if os.path.isdir(path):
            raise IsADirectoryError(errno.EISDIR, os.strerror(errno.EISDIR))
        with open(path, "rb") as it:
            data = it.read(MOST_BYTES + 1)
    except (OSError, ValueError) as error:
        number = getattr(error, "errno", None) or errno.ENOENT
        return None, f"{os.strerror(number)} (os error {number})"
    if len(data) > MOST_BYTES:
        return None, "it has more than 32 MiB"
    return data, None


def hex_fault(word):
    """What is wrong with hexadecimal digits, or None."""
    for place, character in enumerate(word, 1):
        if character not in "0123456789abcdefABCDEF":
            return f"character {place}, {character!r}, is no hexadecimal digit; blanks are taken neither"
    return f"{len(word)} digits spell no bytes: two spell one" if len(word) % 2 else None


def faults(name, words, is_deep):
    """What is wrong with the words or the file: the program's error line, its status, and a line that says more.
    Where `is_deep`, also with a schedule, and with digits."""
    command, why = read_command(name, words)
    if why:
        return "usage", 2, why
    verb, (*operands,) = command
    if verb in ("show", "tokens"):
        why = hex_fault(operands[0]) if is_deep else None
        return ("hex", 1, why) if why else None
    if verb in ("vectors", "check"):
        return None
    path = operands[0]
    data, why = read_file(path)
    if why:
        return "file", 1, f"{path}: {why}"
    if data is None:
        return None
    if len(data) > MOST_LOOKED_AT:
        # This would take seconds, and the program is faster.
        return ("json", 1, f"./tdsview explain {path} says where and what") if is_deep else None
    fault, text = json_look.json_fault(data)
    if fault:
        return "json", 1, f"{path}:{fault}"
    fault = json_look.schedule_fault(text) if is_deep else None
    return ("schedule", 1, f"{path}:{fault}") if fault else None


def help_text(name):
    with open(f"{HERE}/help/{name}") as it:
        return it.read()


def print_help(name, words):
    if "--version" in words or "-V" in words:
        with open(f"{HERE}/../VERSION") as it:
            print(name, it.read().strip())
    else:
        print(help_text(name), end="")


def before(name, words):
    if name not in COMMANDS:
        if words or name not in WORDS:
            return 0
        print(f"{name}: {WORDS[name]}", file=sys.stderr)
        return 2
    found = faults(name, words, is_deep=False)
    if not found:
        return 0
    kind, status, why = found
    if name == "tdsplay":
        print(f"error: {kind}\n{name}: {why}", file=sys.stderr)
    elif kind == "json" and words[0] == "explain":
        print(why)
    else:
        print(f"error: {why}", file=sys.stderr)
    return status


def after(name, words):
    # The others' own lines say where and what.
    found = faults(name, words, is_deep=True) if name == "tdsplay" else None
    if found:
        print(f"{name}: {found[2]}", file=sys.stderr)
    return 0


def main(name, what, *words):
    words = list(words)
    sys.stdout.reconfigure(errors="backslashreplace")
    if what == "help":
        return print_help(name, words)
    return (before if what == "before" else after)(name, words)


if __name__ == "__main__":
    sys.exit(main(*sys.argv[1:]))
