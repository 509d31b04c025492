"""The answers that the tests of all languages walk: vectors.py OUT. Out of tests/crates/test_wire/data, which were written by
hand from MS-TDS, one file that is easy to read: of each answer

    = NAME FORM AGREED      FORM is short or full; AGREED is nothing, encryption or ranks
    :DIGITS                 its bytes
    AT KIND LENGTH ..       a line a token, as tests/crates/test_wire/data says; where FORM is short, of a DONE the status, the
                            command and the count too, of an ENVCHANGE the type, and of others no more
    end                     or `cut`, or `fault NUMBER at AT`, as mouktelf.h numbers it
    (an empty line)"""

import sys

import headers

FAULTS = {"unknown token": 71, "no columns": 72, "unknown type": 73, "many columns": 74}
AGREED = {"": "nothing", "encryption": "encryption", "classification 2": "ranks", "classification": "nothing"}


def answers(name):
    """The name, what was agreed on, the bytes and the wanted lines of each answer of a file."""
    found, is_wanted = [], False
    with open(f"{headers.TOP}/tests/crates/test_wire/data/{name}.txt", encoding="utf-8") as it:
        for line in it.read().splitlines():
            if line.startswith("= "):
                title, _, agreed = line[2:].partition(" with ")
                found.append((title, AGREED[agreed], bytearray(), []))
                is_wanted = False
            elif not line or line[0] in "#:":
                continue
            elif line == "-":
                is_wanted = True
            elif is_wanted:
                found[-1][3].append(wanted(line))
            else:
                found[-1][2].extend(b"".join(map(field, line.split())))
    return found


def field(word):
    if word in "([{)]}":
        return b""
    digits, _, times = word.partition("*")
    return bytes.fromhex(digits) * int(times or 1)


def wanted(line):
    if not line.startswith("fault "):
        return line
    words, at = line[len("fault "):].split(" at ")
    return f"fault {FAULTS[words]} at {at}"


def main(out):
    with open(out, "w", encoding="utf-8") as it:
        for name, form in (("vectors", "short"), ("values", "full")):
            for title, agreed, data, lines in answers(name):
                it.write("\n".join([f"= {title} {form} {agreed}", f":{data.hex()}", *lines, "", ""]))


if __name__ == "__main__":
    main(sys.argv[1])
