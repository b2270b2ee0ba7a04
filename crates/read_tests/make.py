#!/usr/bin/env python3
"""make.py FOLDER: writes the reading cases into FOLDER: data/ (one text for each), args (their names), stdout (what must come of each).

Each case is one text in which one thing is wrong, or stands at its last good value. What must come of it is said here with the case,
by hand and not by a reader: the refusal's number and the line at fault, counted from 1. The part of the text is that line, up to its LF
or the text's end. Where nothing is wrong the place is the text's end, and where the text is too long it is its start.
"""
import os
import sys

cases = []  # name, text, number, line, start, size


def put(kind, name, text, number=0, line=0):
    """A text of that kind and its outcome; line 0 is no line (numbers 0 and 1)."""
    if isinstance(text, str):
        text = text.encode()
    start = size = 0
    if number == 0:
        start = len(text)
    if line:
        lines = text.split(b"\n")
        start = sum(len(x) + 1 for x in lines[: line - 1])
        size = len(lines[line - 1])
    cases.append((name + "." + kind, text, number, line, start, size))


class Type:
    def __init__(self, places=2, initial="0", trans=("0,1", "1,0"), behaviors=("0", "1"), ports=("provide,1,-",)):
        self.places, self.initial, self.trans, self.behaviors, self.ports = places, initial, trans, behaviors, ports

    def lines(self, i):
        return (
            [f"type={i}", f"places={self.places}", f"initial={self.initial}", f"transitions={len(self.trans)}"]
            + [f"tran={x}" for x in self.trans]
            + [f"behaviors={len(self.behaviors)}"]
            + [f"behavior={x}" for x in self.behaviors]
            + [f"ports={len(self.ports)}"]
            + [f"port={x}" for x in self.ports]
        )


def sheet(types=None, program=("add,0,0",), depth=0):
    types = types if types is not None else [Type(), Type(ports=("use,1,0",))]
    out = ["sheet=1", f"depth={depth}", f"types={len(types)}"]
    for i, t in enumerate(types):
        out += t.lines(i)
    return out + [f"program={len(program)}"] + [f"do={x}" for x in program]


def answer(steps=("next",)):
    return ["answer=1", f"steps={len(steps)}"] + [f"step={x}" for x in steps]


def joined(lines):
    return "".join(x + "\n" for x in lines)


def key(line):
    return line.split("=")[0]


def with_line(lines, old, new):
    """The lines with the first line `old` replaced."""
    at = lines.index(old)
    return lines[:at] + [new] + lines[at + 1:]


def swap(kind, name, lines, old, new, number):
    """The first line `old` replaced by one that is read (number 0), or that is at fault."""
    put(kind, name, joined(with_line(lines, old, new)), number, lines.index(old) + 1 if number else 0)


P = sheet(program=("add,0,0", "add,1,1", "con,1,0,0,0", "pushb,0,0", "pushb,1,0"))
A = answer(("next",) * 5 + ("fire,0,0", "end,0,0", "enter,0,1", "fire,1,0", "end,1,0", "enter,1,1", "finish,0", "finish,1"))
put("sheet", "pair", joined(P))
put("answer", "pair", joined(A))

# ---- nothing at all, and texts that end early: the line at fault is one past the last
put("sheet", "empty", "", 2, 1)
put("answer", "empty", "", 2, 1)
for n in range(1, len(P)):
    put("sheet", f"ends_after_line_{n}", joined(P[:n]), 2, n + 1)
for n in range(1, len(A)):
    put("answer", f"ends_after_line_{n}", joined(A[:n]), 2, n + 1)

# ---- lengths


def exactly(size):
    """A sheet of so many bytes that is read: ports are taken away until it is too short, then instructions fill it up."""
    wide = "+".join(str(n) for n in range(32))
    half = "+".join(str(n) for n in range(16))
    types = [Type(16, "0", ("0,1",) * 32, (wide,) * 8, (f"provide,{half},{wide}",) * 16) for _ in range(10)]
    program = []

    def text():
        return joined(sheet(types=types + [Type() for _ in range(6)], program=program))

    while len(text()) > size:
        last = [t for t in types if t.ports][-1]
        last.ports = last.ports[:-1]
    while size - len(text()) > 40:
        program.append("del,1")
    for k in range(len(program)):
        for longer in ("del,11", "wait,11", "pushb,11,1", "con,1,1,1,1", "con,11,1,1,1", "con,11,11,1,1", "con,11,11,11,1"):
            old, program[k] = program[k], longer
            if len(text()) > size:
                program[k] = old
        if len(text()) == size:
            return text()
    raise SystemExit(f"no sheet of {size} bytes: {len(text())}")


put("sheet", "bytes_32768", exactly(32768))
put("sheet", "bytes_32769", exactly(32768) + "x", 1)
put("answer", "bytes_32768", joined(A) + "x" * (32768 - len(joined(A))), 5, len(A) + 1)
put("answer", "bytes_32769", joined(A) + "x" * (32769 - len(joined(A))), 1)
put("sheet", "bytes_32769_of_nothing", "\0" * 32769, 1)

# ---- the first lines and the numbers due
for kind, lines, first in (("sheet", P, "sheet=1"), ("answer", A, "answer=1")):
    word = key(first)
    for n, new in enumerate((f"{word}=3" if word == "sheet" else f"{word}=2", f"{word}=0", f"{word}=01", f"{word}=99999", f"{word}=", f"{word}=1 ", word.upper() + "=1", " " + first, first + "\r", "", f"{word}=-1", f"{word}=100000")):
        swap(kind, f"first_{n}", lines, first, new, 2)
for n, new in enumerate(("type=0", "type=2", "type=99999", "type=01", "type=-")):
    swap("sheet", f"type_due_{n}", P, "type=1", new, 2)

# ---- each count at its last good value and one past it; one line too many and one too few
for value, number in ((0, 0), (1, 0), (8, 0), (9, 3), (99999, 3)):
    swap("sheet", f"depth_{value}", P, "depth=0", f"depth={value}", number)
put("sheet", "types_16", joined(sheet(types=[Type()] * 16)))
for value in (0, 17):
    swap("sheet", f"types_{value}", P, "types=2", f"types={value}", 3)
# a type has 11 lines here: `type=1` stands where `program=` is due, and `program=` where `type=2` is
put("sheet", "types_too_many", joined(with_line(P, "types=2", "types=1")), 2, 3 + 11 + 1)
put("sheet", "types_too_few", joined(with_line(P, "types=2", "types=3")), 2, 3 + 22 + 1)
put("sheet", "places_16", joined(sheet(types=[Type(16, "15", ("15,14", "14,15"), ("0", "1"), ("provide,15,-",))])))
for value in (0, 17):
    swap("sheet", f"places_{value}", P, "places=2", f"places={value}", 3)
full = Type(2, "0", ("0,1",) * 32, ("31",) * 8, ("use,1,31",) * 16)
put("sheet", "transitions_32_behaviors_8_ports_16", joined(sheet(types=[full])))
put("sheet", "transitions_0_behaviors_0_ports_0", joined(sheet(types=[Type(1, "0", (), (), ())])))
F = sheet(types=[full])
swap("sheet", "transitions_33", F, "transitions=32", "transitions=33", 3)
swap("sheet", "behaviors_9", F, "behaviors=8", "behaviors=9", 3)
swap("sheet", "ports_17", F, "ports=16", "ports=17", 3)
# with one line more due the fault is past the lines of that key; with one fewer it is the last of them
for word, count in (("transitions", 2), ("behaviors", 2), ("ports", 1)):
    old = f"{word}={count}"
    line = P.index(old) + 1
    put("sheet", f"{word}_one_too_many", joined(with_line(P, old, f"{word}={count + 1}")), 2, line + count + 1)
    put("sheet", f"{word}_one_too_few", joined(with_line(P, old, f"{word}={count - 1}")), 2, line + count)
put("sheet", "program_0", joined(sheet(program=())))
put("sheet", "program_256", joined(sheet(program=("wait,0",) * 256)))
G = sheet(program=("wait,0",) * 257)
put("sheet", "program_257", joined(G), 3, G.index("program=257") + 1)
put("sheet", "program_one_too_many", joined(with_line(P, "program=5", "program=6")), 2, len(P) + 1)
put("sheet", "program_one_too_few", joined(with_line(P, "program=5", "program=4")), 5, len(P))
put("answer", "steps_0", joined(answer(())))
put("answer", "steps_1024", joined(answer(("finish,31",) * 1024)))
put("answer", "steps_1025", joined(answer(("next",) * 1025)), 3, 2)
put("answer", "steps_one_too_many", joined(with_line(A, "steps=13", "steps=14")), 2, len(A) + 1)
put("answer", "steps_one_too_few", joined(with_line(A, "steps=13", "steps=12")), 5, len(A))

# ---- inside a type
plain = str.maketrans({"+": "p", "-": "m", ",": "c", " ": "b"})
for new, number in (("0+1", 0), ("1", 0), ("2", 3), ("0+2", 3), ("-", 4), ("", 2), ("1+0", 2), ("1+1", 2), ("0+", 2), ("+0", 2), ("0++1", 2), ("99999+5", 2), ("-+1", 2), ("00", 2), ("99999", 3), ("100000", 2), ("0,1", 2), ("0 ", 2)):
    swap("sheet", "initial_" + new.translate(plain), P, "initial=0", "initial=" + new, number)
for new, number in (("0,1", 0), ("0,2", 3), ("2,0", 3), ("5,5", 3), ("1,1", 4), ("0,0", 4), ("0", 2), ("0,1,1", 2), ("0,", 2), (",1", 2), ("x,1", 2), ("99,x", 2), ("0,100000", 2)):
    swap("sheet", "tran_" + new.translate(plain), P, "tran=0,1", "tran=" + new, number)
for new, number in (("-", 0), ("0+1", 0), ("1", 0), ("2", 3), ("0+2", 3), ("1+0", 2), ("", 2), ("x", 2), ("-1", 2)):
    swap("sheet", "behavior_" + new.translate(plain), P, "behavior=0", "behavior=" + new, number)
for n, (new, number) in enumerate((
    ("use,1,0", 0), ("use,-,-", 0), ("use,1,0+1", 0), ("provide,0,0", 0), ("provide,0+1,-", 0), ("provide,-,-", 0), ("use,0,0", 4), ("use,0+1,-", 4), ("use,2,0", 3), ("use,1,2", 3),
    ("use,0+2,0", 3), ("provide,2,0", 3), ("provide,1,2", 3), ("use,1", 2), ("use,1,0,0", 2), ("use,1,", 2), ("use,,0", 2), ("Use,1,0", 2), ("offer,1,0", 2), ("use", 2), ("use1,0", 2), ("use,0,x", 2), ("use,2,1+0", 2),
)):
    swap("sheet", f"port_{n}", P, "port=use,1,0", "port=" + new, number)

# ---- do lines: each number at its last good value and one past it
for n, (new, number) in enumerate((
    ("add,31,1", 0), ("add,32,0", 3), ("add,0,2", 3), ("add,99,x", 2), ("add,99", 2), ("add,0,0,0", 2), ("add,0", 2), ("del,31", 0), ("del,32", 3), ("del,0,0", 2), ("del,", 2), ("pushb,31,7", 0), ("pushb,32,7", 3), ("pushb,31,8", 3),
    ("pushb,0", 2), ("con,31,15,31,15", 0), ("con,0,0,0,0", 0), ("con,32,0,0,0", 3), ("con,0,16,0,0", 3), ("con,0,0,32,0", 3), ("con,0,0,0,16", 3), ("con,0,0,0", 2), ("con,0,0,0,0,0", 2), ("dcon,31,15,31,15", 0), ("dcon,32,0,0,0", 3),
    ("dcon,0,16,0,0", 3), ("dcon,0,0,32,0", 3), ("dcon,0,0,0,16", 3), ("wait,31", 0), ("wait,32", 3), ("wait,31,0", 2), ("wait", 2), ("Add,0,0", 2), ("push,0,0", 2), ("", 2), ("add, 0,0", 2), ("add,00,0", 2), ("add,0,0\r", 2),
)):
    swap("sheet", f"do_{n}", P, "do=add,1,1", "do=" + new, number)

# ---- a sheet with tickets: its first line, and the do lines that it has others of
T = ["sheet=2"] + sheet(program=("add,0,0", "add,1,1", "con,1,0,0,0", "pushb,0,0,0", "pushb,1,0,255", "wait,0,255", "wait,1"))[1:]
put("sheet", "tickets", joined(T))
put("sheet", "tickets_and_no_program", joined(["sheet=2"] + sheet(program=())[1:]))
for n, new in enumerate(("sheet=3", "sheet=0", "sheet=02", "sheet=22", "sheet=2 ", "sheet=2,", "sheet=")):
    swap("sheet", f"tickets_first_{n}", T, "sheet=2", new, 2)
put("sheet", "tickets_where_none_is_due", joined(["sheet=1"] + T[1:]), 2, T.index("do=pushb,0,0,0") + 1)
put("sheet", "tickets_missing", joined(["sheet=2"] + P[1:]), 2, P.index("do=pushb,0,0") + 1)
for n, (new, number) in enumerate((
    ("pushb,31,7,255", 0), ("pushb,0,0,256", 3), ("pushb,0,8,0", 3), ("pushb,32,0,0", 3), ("pushb,0,0,99999", 3), ("pushb,0,0", 2), ("pushb,0,0,", 2), ("pushb,0,0,00", 2), ("pushb,0,0,0,0", 2), ("pushb,0,0,100000", 2), ("pushb,0,0:0", 2),
    ("pushb,32,8,x", 2), ("wait,31,255", 0), ("wait,31", 0), ("wait,0,0", 0), ("wait,0,256", 3), ("wait,32,0", 3), ("wait,32", 3), ("wait,0,", 2), ("wait,0,1,2", 2), ("wait,0,01", 2), ("wait,32,x", 2), ("wait,", 2), ("wait", 2), ("del,0,0", 2), ("add,0,0,0", 2),
)):
    swap("sheet", f"tickets_do_{n}", T, "do=pushb,0,0,0", "do=" + new, number)
# and of those lines none in a sheet without tickets
for n, new in enumerate(("pushb,0,0,0", "pushb,0,0,256", "wait,0,0", "wait,0,256")):
    swap("sheet", f"no_tickets_do_{n}", P, "do=add,1,1", "do=" + new, 2)

# ---- step lines
for n, (new, number) in enumerate((
    ("next", 0), ("next,", 2), ("next,0", 2), ("Next", 2), ("fire,31,15", 0), ("fire,32,0", 3), ("fire,0,16", 3), ("fire,0", 2), ("fire,0,0,0", 2), ("end,31,31", 0), ("end,32,0", 3), ("end,0,32", 3), ("end,0", 2), ("enter,31,15", 0), ("enter,32,0", 3),
    ("enter,0,16", 3), ("enter,99,x", 2), ("finish,31", 0), ("finish,32", 3), ("finish,0,0", 2), ("finish", 2), ("stop,0", 2), ("", 2), ("fire,0,00", 2), ("fire,0,0 ", 2), (" fire,0,0", 2),
)):
    swap("answer", f"step_{n}", A, "step=fire,0,0", "step=" + new, number)

for kind, lines in (("sheet", P), ("answer", A)):
    # ---- every line with its key in upper case, with a blank or a CR before its LF, and missing
    for at, old in enumerate(lines):
        for name, new in (("key_upper", [old[0].upper() + old[1:]]), ("blank", [old + " "]), ("return", [old + "\r"]), ("line_missing", [])):
            # of two lines with one key either may be missing: the fault then shows further on, as with one line too few above
            if name == "line_missing" and at + 1 < len(lines) and key(lines[at + 1]) == key(old):
                continue
            put(kind, f"{name}_{at + 1}", joined(lines[:at] + new + lines[at + 1:]), 2, at + 1)
    # ---- a missing LF at the very end, bytes after the end
    put(kind, "no_last_lf", joined(lines)[:-1], 2, len(lines))
    put(kind, "lf_after_end", joined(lines) + "\n", 5, len(lines) + 1)
    put(kind, "byte_after_end", joined(lines) + "x", 5, len(lines) + 1)
    put(kind, "line_after_end", joined(lines) + "more\nstill\n", 5, len(lines) + 1)

# ---- a line cut at each of its bytes
for kind, lines, old in (("sheet", P, "port=use,1,0"), ("sheet", P, "do=con,1,0,0,0"), ("answer", A, "step=fire,0,0")):
    at = lines.index(old)
    for cut in range(1, len(old) + 1):
        put(kind, f"cut_{at + 1}_{cut}", joined(lines[:at]) + old[:cut], 2, at + 1)

if __name__ == "__main__":
    folder = sys.argv[1]
    data = os.path.join(folder, "data")
    os.makedirs(data, exist_ok=True)
    for old in os.listdir(data):
        os.remove(os.path.join(data, old))
    assert len({c[0] for c in cases}) == len(cases), "a name stands twice"
    with open(os.path.join(folder, "args"), "w") as args, open(os.path.join(folder, "stdout"), "w") as out:
        for name, text, number, line, start, size in cases:
            with open(os.path.join(data, name), "wb") as f:
                f.write(text)
            args.write(name + "\n")
            out.write(f"{name} refused={number} line={line} start={start} size={size}\n")
    print(len(cases), "cases")
