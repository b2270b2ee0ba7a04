"""make.py: writes data/, args and stdout of the program `rewrite_tests`. What becomes of a sheet is said here by hand; what the judge must print of a rewritten sheet
is what the model of `judge_tests` prints of the old sheet under the old rule."""
import os
import shutil
import sys

here = os.path.dirname(os.path.abspath(__file__))
sys.dont_write_bytecode = True
sys.path.insert(0, os.path.join(here, "..", "judge_tests"))

import model
from notation import answer, move, nexts

model.DEFAULT_DEPTH = 4  # what 0 stood for under the old rule


def taken_from(*path):
    with open(os.path.join(here, "..", *path), encoding="ascii") as file:
        return file.read()


old = taken_from("..", "examples", "old-sheet", "sheet.txt")
longest = taken_from("read_tests", "data", "bytes_32768.sheet")
good = answer(nexts(5), move(0, 0, 0, 1), "finish,0", "next")
fifth = taken_from("..", "examples", "old-sheet", "answer.txt")
answers = {"none": "", "good": good, "fifth": fifth, "faulty": fifth.replace("step=next", "step=nxt", 1), "long": good + "#" * 32768}


def depth(written):
    return old.replace("depth=0", f"depth={written}")


def ticketed():
    """The old sheet with tickets, C-21: each push has the next one."""
    lines = old.replace("sheet=1", "sheet=2").splitlines()
    return "".join(f"{line},{n}\n" if line.startswith("do=pushb") else f"{line}\n" for n, line in enumerate(lines))


# a sheet, and the refusal's number and line; 0, 0 where it is rewritten
last = old.count("\n")
sheets = {"old": (old, 0, 0), "longest": (longest, 0, 0)}
sheets |= {f"depth_{d}": (depth(d), 0, 0) for d in range(1, 9)}
sheets |= {
    "tickets": (ticketed(), 0, 0),
    "tickets_missing": (old.replace("sheet=1", "sheet=2"), 2, old[: old.index("do=pushb")].count("\n") + 1),
    "sheet_3": (old.replace("sheet=1", "sheet=3"), 2, 1),
    "depth_9": (depth(9), 3, 2),
    "depth_00": (depth("00"), 2, 2),
    "empty": ("", 2, 1),
    "no_depth": (old.replace("depth=0\n", ""), 2, 2),
    "cut": (old[:-1], 2, last),
    "early": (old[: old.rindex("do=")], 2, last),
    "ends_alike": (old.replace("tran=0,1", "tran=0,0"), 4, old.split("\n").index("tran=0,1") + 1),
    "bytes_after": (old + "x", 5, last + 1),
    "too_long": (longest + "x", 1, 0),
    "too_long_of_nothing": ("\0" * 32769, 1, 0),
}
cases = [("old", a) for a in answers] + [(f"depth_{d}", "fifth") for d in range(1, 9)] + [("depth_4", "good"), ("longest", "good"), ("tickets", "good"), ("tickets", "fifth")]
cases += [(name, "good") for name, (_, refused, _) in sheets.items() if refused]
room = 32768


def expected(name, other):
    old, refused, line = sheets[name]
    new = "" if refused else old.replace("\ndepth=0\n", "\ndepth=4\n", 1)
    head = f"case={name}.sheet,{other}.answer\nrefused={refused}\nline={line}\nwritten={len(new)}\nfound={room - len(new)}\n"
    return head + ("" if refused else new + model.printed(old.encode(), answers[other].encode()))


def write(name, content):
    with open(os.path.join(here, name), "w", encoding="ascii") as file:
        file.write(content)


assert len(longest) == room and "#" not in longest and "#" not in old
shutil.rmtree(os.path.join(here, "data"), ignore_errors=True)
os.makedirs(os.path.join(here, "data"))
for name, (content, _, _) in sheets.items():
    write(f"data/{name}.sheet", content)
for name, content in answers.items():
    write(f"data/{name}.answer", content)
write("args", "".join(f"{name}.sheet\n{other}.answer\n" for name, other in cases))
write("stdout", "".join(expected(*case) for case in cases))
