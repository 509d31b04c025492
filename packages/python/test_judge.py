"""Judges recorded connections, and compares what is found with what the file says: test_judge.py FILE. The file is
examples/captures.txt, whose first lines say its form."""

import sys

from mouktelf import What, judge

KINDS = {">": What.TO_SERVER, "<": What.TO_CLIENT, "borrow": What.BORROWED, "close": What.CLOSED}


def main(path):
    count, wrong, name, pieces = 0, 0, "", []
    with open(path, encoding="utf-8") as lines:
        for line in lines:
            word, *more = line.split() or ["#"]
            if word == "=":
                count, name, pieces = count + 1, line[2:].strip(), []
            elif word == "found":
                found = [f"{it.number}@{it.offset}={it.value}" for it in judge(pieces, idle=5_000_000, columns=16)]
                if found != more:
                    wrong += 1
                    print(f"{name}: {found}, and the file has {more}")
            elif word in KINDS:
                pieces.append((int(more[0]), KINDS[word], bytes.fromhex(more[1] if more[1:] else "")))
    try:
        judge([], columns=4097)
    except ValueError:
        pass
    else:
        wrong += 1
        print("4097 columns aren't refused")
    print(f"{count} captures")
    return 1 if wrong else 0


if __name__ == "__main__":
    sys.exit(main(sys.argv[1]))
