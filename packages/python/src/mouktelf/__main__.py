"""python3 -m mouktelf FILE    plays a schedule, and prints its report."""

import sys

from . import NotPlayed, play

if len(sys.argv) != 2:
    sys.exit(__doc__)
with open(sys.argv[1], "rb") as file:
    text = file.read()
try:
    sys.stdout.write(play(text))
except (NotPlayed, NotImplementedError) as why:
    sys.exit(str(why))
