"""make.py: writes args, stdin and stdout of the program `passlist`: a register with a row for each standing, and the list that the board's rule makes of it."""
import os

here = os.path.dirname(os.path.abspath(__file__))
HEAD = "candidate,outcome,number,port,line,accepted,next,program,mark\n"
PASS = 600

# name, outcome, the cells up to the program, mark
rows = [
    ("0001.txt", "done", "0,,,50,12,12", 851),
    ("0002.txt", "refused", "36,,32,29,11,12", 0),
    ("0003.txt", "refused", "34,1,22,19,6,12", 0),
    # nothing done, and a full mark
    ("0004.txt", "unfinished", "0,,,0,0,12", 1000),
    ("0005.txt", "fault", "2,,3,,,12", 0),
    ("0006.txt", "absent", ",,,,,", ""),
    # at the pass line, one below it, none, all
    ("at.txt", "done", "0,,,50,12,12", 600),
    ("one-below.txt", "done", "0,,,50,12,12", 599),
    ("none.txt", "done", "0,,,50,12,12", 0),
    ("\\x3dall\\x2c.txt", "done", "0,,,50,12,12", 1000),
    # a name that says done
    ("done", "unfinished", "0,,,49,12,12", 900),
    ("n" * 1000, "done", "0,,,50,12,12", 999),
]
passed = [name for name, outcome, _, mark in rows if outcome == "done" and mark >= PASS]
counts = {"passed": len(passed), "below": sum(outcome == "done" for _, outcome, _, _ in rows) - len(passed)}
for outcome in "unfinished", "refused", "fault", "absent":
    counts[outcome] = sum(row[1] == outcome for row in rows)
with open(os.path.join(here, "args"), "w") as file:
    file.write(f"told\n{PASS}\n")
with open(os.path.join(here, "stdin"), "w") as file:
    file.write(HEAD + "".join(f"{name},{outcome},{cells},{mark}\n" for name, outcome, cells, mark in rows))
with open(os.path.join(here, "stdout"), "w") as file:
    file.write("".join(f"candidate={name}\n" for name in passed) + "".join(f"{key}={count}\n" for key, count in counts.items()) + f"candidates={len(rows)}\n")
