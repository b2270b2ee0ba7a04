"""make.py: writes data/, args, stdin and stdout of the program `register` from the models that stand beside `judge_tests` and `timing_tests`."""
import os
import shutil
import sys

here = os.path.dirname(os.path.abspath(__file__))
sys.dont_write_bytecode = True
sys.path[:0] = [os.path.join(here, "..", "judge_tests"), os.path.join(here, "..", "timing_tests")]

from clock import timed
from model import read_sheet

folder = os.path.join(here, "..", "..", "examples", "maintenance")


def example(name):
    with open(os.path.join(folder, name), "rb") as file:
        return file.read()


sheet, times = example("sheet.txt"), example("times.txt")
good = example("answer.txt")
answers = {
    b"0001.txt": good,
    b"0002.txt": example("stopped-under-its-client.txt"),
    b"0003.txt": example("started-before-its-server.txt"),
    b"0004.txt": b"answer=1\nsteps=0\n",
    b"0005.txt": b"answer=1\nsteps=1\nstep=next \n",
    b"0006.txt": b"",
    b"0007.txt": good + b"x" * (32769 - len(good)),
    # the last step is missing
    b"folder/=8,9.txt": b"answer=1\nsteps=49\n" + b"\n".join(good.split(b"\n")[2:51]) + b"\n",
}
# with its mark: a plain file, or another; what is missing, a folder, a name that means more, no name at all
names = [b"+" + name for name in answers] + [b"+missing.txt", b"+folder", b"-0001.txt", b"-in/+a,b;\"<c>\" \xff\n", b"-", b"+./0001.txt"]


def shown(text, more):
    return "".join(chr(b) if 33 <= b <= 126 and b != 92 and b not in more else f"\\x{b:02x}" for b in text)


def cell(name):
    return shown(name[:1], b"=+-@&<>\"',;") + shown(name[1:], b"&<>\"',;")


def row(name):
    shown_name = cell(name[1:].split(b"/")[-1])
    path = os.path.normpath(name[1:])
    if name[:1] != b"+" or path not in answers:
        return f"{shown_name},unreadable,,,,,,,\n"
    judgement, mark = timed(sheet, None, answers[path], times)
    program = len(read_sheet(sheet)[2])
    if judgement.text == "answer":
        return f"{shown_name},fault,{judgement.refused},,{judgement.line},,,{program},{mark}\n"
    port = "" if judgement.port == "-" else judgement.port
    if judgement.refused:
        outcome, line = "refused", judgement.accepted + 3
    else:
        queues = [item.split(",")[5] for item in judgement.report.split("\n") if item.startswith("instance=")]
        outcome, line = "done" if judgement.next == program and set(queues) <= {"-"} else "unfinished", ""
    return f"{shown_name},{outcome},{judgement.refused},{port},{line},{judgement.accepted},{judgement.next},{program},{mark}\n"


shutil.rmtree(os.path.join(here, "data"), ignore_errors=True)
for name, content in {b"sheet.txt": sheet, b"times.txt": times, **answers}.items():
    path = os.path.join(here.encode(), b"data", name)
    os.makedirs(os.path.dirname(path), exist_ok=True)
    with open(path, "wb") as file:
        file.write(content)
with open(os.path.join(here, "args"), "w") as file:
    file.write("-0\nsheet.txt\nstart.txt\ntimes.txt\n")
with open(os.path.join(here, "stdin"), "wb") as file:
    file.write(b"".join(name + b"\0" for name in names))
with open(os.path.join(here, "stdout"), "w") as file:
    file.write("candidate,outcome,number,port,line,accepted,next,program,mark\n" + "".join(map(row, names)))
