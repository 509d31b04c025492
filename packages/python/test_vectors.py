"""Walks each answer of a release's examples/vectors.txt, whole and in single bytes, and looks at what is told of its tokens.

    python3 test_vectors.py vectors.txt"""

import sys

from mouktelf import Refused, Tells, Walk


def place(it):
    return f"{it.start} {it.length}"


def words(it):
    """All that is told of a token."""
    if it.tells == Tells.DONE:
        return f"{it.status:04X} {it.command} {it.value}"
    if it.tells == Tells.MESSAGE:
        return f"message {it.number} {it.state} {it.severity} {place(it.text)} {place(it.others)}"
    return {
        Tells.NOTHING: "",
        Tells.TRANSACTION: f"{it.change} transaction {it.value} {it.old_value}",
        Tells.RESET: f"{it.change} reset",
        Tells.PACKET_SIZE: f"{it.change} size {it.size}",
        Tells.VALUES: f"{it.change} values {place(it.text)} {place(it.others)}",
        Tells.OTHER_CHANGE: f"{it.change} other",
        Tells.RETURN_STATUS: f"value {it.number}",
        Tells.SESSION_STATE: f"state {it.size} {'recoverable' if it.is_recoverable else 'lost'} {place(it.text)}",
        Tells.UNCLEAR: "unclear",
    }[it.tells]


def line(it, form):
    told = words(it)
    if form == "short" and it.tells != Tells.DONE:
        told = str(it.change) if it.kind == 0xE3 else ""
    return f"{it.start} {it.kind:02X} {it.length} {told}".rstrip()


def walked(pieces, form, agreed):
    walk, lines = Walk(4096, agreed == "encryption", agreed == "ranks"), []
    try:
        for piece in pieces:
            for it in walk.tokens(piece):
                lines.append(line(it, form))
    except Refused as refused:
        return lines + [f"fault {refused.number} at {refused.at}"]
    return lines + ["end" if walk.is_between else "cut"]


def main(path):
    wrong = 0
    with open(path, encoding="utf-8") as it:
        answers = it.read().rstrip("\n").split("\n\n")
    for answer in answers:
        title, digits, *wanted = answer.split("\n")
        _, name, form, agreed = title.split()
        data = bytes.fromhex(digits[1:])
        for pieces in ([data], [data[at: at + 1] for at in range(len(data))]):
            told = walked(pieces, form, agreed)
            if told != wanted:
                wrong += 1
                print(f"{name} in {len(pieces)} pieces: {told}, and {wanted} is wanted", file=sys.stderr)
    print(f"{len(answers)} answers, whole and in single bytes, {wrong} wrong")
    return 1 if wrong else 0


if __name__ == "__main__":
    sys.exit(main(sys.argv[1]))
