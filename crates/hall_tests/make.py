"""make.py: writes stdin and stdout of the program `hall_tests` from lent.py and model.py, and checks that the two agree."""
import os

from lent import cases
from model import configuration_bytes, lent_bytes, stepped

here = os.path.dirname(os.path.abspath(__file__))


def pairs(items):
    return "".join(f" {place}={value}" for place, value in items)


def lines_of(name, lent, said, expected):
    sent = f"{name}{pairs((i, b) for i, b in enumerate(lent_bytes(lent)) if b)}\n"
    number, port, moved = stepped(lent)
    if (number, port) != said:
        raise SystemExit(f"{name}: lent.py says {said}, and model.py says {(number, port)}")
    if configuration_bytes(lent) != configuration_bytes(expected):
        raise SystemExit(f"{name}: model.py leaves other slots than lent.py says")
    return sent, f"{name} {number} {port}{pairs(moved)}\n"


names = [name for name, _, _, _ in cases]
assert len(set(names)) == len(names) and max(map(len, names)) <= 64
lines = [lines_of(*case) for case in cases]
for file, column in ("stdin", 0), ("stdout", 1):
    with open(os.path.join(here, file), "w") as out:
        out.write("".join(line[column] for line in lines))
