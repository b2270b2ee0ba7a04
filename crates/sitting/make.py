"""make.py: writes data/, args, stdin and stdout of the program `sitting` from the model that stands beside `judge_tests`."""
import os
import shutil
import sys

here = os.path.dirname(os.path.abspath(__file__))
sys.dont_write_bytecode = True
sys.path.insert(0, os.path.join(here, "..", "judge_tests"))

from model import judge, printed, read_sheet
from pairs import pairs

texts = {name: (sheet, answer) for name, sheet, answer, _ in pairs}
# the pair, and then a `wait` for its provider
sheet, good = texts["pair"]
sheet = sheet.replace(b"program=5", b"program=6") + b"do=wait,0\n"
good = good.replace(b"steps=13", b"steps=14") + b"step=next\n"
program = read_sheet(sheet)[2]
steps = b"answer=1\nsteps=1\nstep="

# an answer file and what it holds
answers = {
    b"good.txt": good,
    b"finished_too_early.txt": texts["pair_finish_too_early"][1],
    b"nothing.txt": b"answer=1\nsteps=0\n",
    b"next_too_early.txt": b"answer=1\nsteps=6\n" + b"step=next\n" * 6,
    b"one_next_more.txt": good.replace(b"steps=14", b"steps=15") + b"step=next\n",
    b"queue_left.txt": b"answer=1\nsteps=10\n" + good.split(b"\n", 2)[2].replace(b"step=fire,1,0\nstep=end,1,0\nstep=enter,1,1\n", b"").replace(b"step=finish,1\n", b""),
    b"cut.txt": b"answer=1\nsteps=1\nstep=next",
    b"empty.txt": b"",
    b"every_byte.txt": steps + bytes(b for b in range(256) if b != 10) + b"\n",
    b"long_line.txt": steps + b"\\" * 1025 + b"\x7f" * 1023 + b"x\n",
    b"too_long.txt": good + b"x" * (32769 - len(good)),
    b"folder/deeper.txt": good + b"\x1b[2J",
}

# each answer, with its mark, and what can't be read: no plain file, a folder, a name that means more, one longer than any path, none
names = [b"+" + name for name in answers] + [
    b"-missing \x1b[31m\\name\xff.txt",
    b"-=cmd,<b>\"x\";'.txt",
    b"+missing.txt",
    b"+folder",
    b"-good.txt",
    b"+" + b"n" * 4095 + b"/" + b"n" * 10,
    b"-",
    b"+./good.txt",
]


def shown(text, more=b""):
    return "".join(chr(b) if 33 <= b <= 126 and b != 92 and b not in more else f"\\x{b:02x}" for b in text)


def cell(name):
    return shown(name[:1], b"=+-@&<>\"',;") + shown(name[1:], b"&<>\"',;")


def said(marked):
    name = marked[1:4097]
    head = f"candidate={cell(name)}\n"
    path = os.path.normpath(name)
    if marked[:1] != b"+" or path not in answers:
        return head + "unreadable=1\n"
    answer = answers[path]
    judgement = judge(sheet, answer)
    _, start, size = place = judgement.place
    line = answer[start : start + size]
    at, ended, instruction = "-", "-", "-"
    if judgement.text == "answer":
        outcome = "fault"
    elif judgement.refused:
        outcome = "refused"
    else:
        queues = {item.split(",")[5] for item in judgement.report.split("\n") if item.startswith("instance=")}
        outcome = "done" if judgement.next == len(program) and queues <= {"-"} else "unfinished"
    if judgement.refused > 1:
        at, ended = answer[:start].count(b"\n") + 1, "lf" if start + size < len(answer) else "end"
    if outcome == "refused" and line == b"step=next" and judgement.next < len(program):
        number = sheet.count(b"\n") - len(program) + judgement.next
        instruction = f"{judgement.next},{number + 1},{sheet.split(bytes([10]))[number].decode()}"
    end = f"place={','.join(map(str, place))}\noffending={shown(line[:200])}\nended={ended}\nleft={max(0, size - 200)}\ninstruction={instruction}\n"
    return f"{head}{printed(sheet, answer)}outcome={outcome}\nat={at}\n{end}"


shutil.rmtree(os.path.join(here, "data"), ignore_errors=True)
os.makedirs(os.path.join(here, "data", "folder"))
for name, content in {b"sheet.txt": sheet, **answers}.items():
    with open(os.path.join(here.encode(), b"data", name), "wb") as file:
        file.write(content)
with open(os.path.join(here, "args"), "wb") as file:
    file.write(b"-0\nsheet.txt\nstart.txt\ntimes.txt\n")
with open(os.path.join(here, "stdin"), "wb") as file:
    file.write(b"".join(name + b"\0" for name in names))
with open(os.path.join(here, "stdout"), "w") as file:
    file.write("".join(map(said, names)) + f"candidates={len(names)}\n")
