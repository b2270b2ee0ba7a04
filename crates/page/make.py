"""make.py: writes data/, args, stdin and stdout of the program `page` from the models that stand beside `judge_tests` and `timing_tests`; the constant pieces are
read from the definitions in crates/page_spec."""
import os
import re
import shutil
import sys

here = os.path.dirname(os.path.abspath(__file__))
sys.dont_write_bytecode = True
sys.path[:0] = [os.path.join(here, "..", "judge_tests"), os.path.join(here, "..", "timing_tests")]

from clock import timed
from model import printed, read_sheet

folder = os.path.join(here, "..", "..", "examples", "maintenance")


def example(name):
    with open(os.path.join(folder, name), "rb") as file:
        return file.read()


sheet, times = example("sheet.txt"), example("times.txt")
good = example("answer.txt")
answers = {
    b"0001.txt": good,
    b"0002.txt": example("stopped-under-its-client.txt"),
    b"0003.txt": example("started-before-its-server.txt"),
    b"0004.txt": b"answer=1\nsteps=0\n",
    b"0005.txt": b"answer=1\nsteps=1\nstep=next \n",
    b"0006.txt": b"",
    b"0007.txt": good + b"x" * (32769 - len(good)),
    b"0008.txt": b"answer=1\nsteps=3\n" + b"step=<b>\"&'" * 20 + b"\nstep=next",
    b"0009.txt": b"answer=1\nsteps=13\n" + b"step=next\n" * 13,
    # the last step is missing
    b"folder/<i>.txt": b"answer=1\nsteps=49\n" + b"\n".join(good.split(b"\n")[2:51]) + b"\n",
}
# with its mark: a plain file, or another; what is missing, a folder, a name that means more, no name at all
names = [b"+" + name for name in answers] + [b"+missing.txt", b"+folder", b"-0001.txt", b"-in/+a,b;\"<c>\" \xff\n", b"-", b"+./0001.txt"]
words = ["-0", "sheet.txt", "start.txt", "times.txt", "<maintenance> & \"more\"", "a" * 64, "-", "b" * 64, "0123456789" * 4]


def constants(file):
    """The definitions of a file, each by its name as the list of its constants."""
    with open(os.path.join(here, "..", "page_spec", "specs", file), encoding="utf-8") as text:
        parts = re.split(r"^(?:unfoldable|abbrev) pub (\w+)", text.read(), flags=re.M)
    literal = re.compile(r'"((?:[^"\\]|\\.)*)"')
    turned = {"n": "\n", '"': '"', "\\": "\\"}
    return {name: [re.sub(r"\\(.)", lambda m: turned[m[1]], one) for one in literal.findall(body)] for name, body in zip(parts[1::2], parts[2::2])}


page, style = constants("Page.antt"), constants("Style.antt")
said = constants("Words.antt")["words_text"][0].split("\n")


def shown(text):
    return "".join(chr(b) if 33 <= b <= 126 and b not in b"\\&<>\"'" else f"\\x{b:02x}" for b in text)


def filled(pieces, *values):
    """Constants with values between them."""
    return "".join(piece + str(value) for piece, value in zip(pieces, list(values) + [""] * (len(pieces) - len(values))))


def row(at, number, line, last):
    left = len(line) - 120
    return (
        page["row_begin"][0 if at == number else 1]
        + str(number)
        + page["line_row"][0]
        + shown(line[:120])
        + (filled(page["left_note"], left) if left > 0 else "")
        + (page["end_note"][0] if last else "")
        + page["line_row"][1]
    )


def cells(report):
    turned = dict(zip("\n=,", (page["cell_piece"][i] for i in (1, 3, 5))))
    return "".join((page["report_byte"][0] if i == 0 or report[i - 1] == "\n" else "") + turned.get(byte, byte) for i, byte in enumerate(report))


def sides(answer, at, report):
    lines = answer.split(b"\n")
    from_line = max(at - 7, 0)
    rows = "".join(row(at, n + 1, lines[n], n + 1 == len(lines)) for n in range(from_line, min(from_line + 10, len(lines))))
    a, b, c, d, e = page["sides"]
    return a + str(at) + b + rows + c + d + cells(report) + e


def candidate(k, name):
    """A candidate's group and bytes."""
    path, base = os.path.normpath(name[1:]), shown(name[1:].split(b"/")[-1])
    opening = lambda group: filled(page["opening"], group, k, k, base, said[group])
    if name[:1] != b"+" or path not in answers:
        return 40, opening(40) + "".join(page["signs"])
    judgement, mark = timed(sheet, None, answers[path], times)
    program = len(read_sheet(sheet)[2])
    lines = sheet.split(b"\n")
    group, at, done = judgement.refused, judgement.accepted + 3, judgement.next
    report = printed(sheet, answers[path])
    if judgement.text == "answer":
        at, done = judgement.line, program
    elif not judgement.refused:
        queues = [item.split(",")[5] for item in report.split("\n") if item.startswith("instance=")]
        group, at = 0 if done == program and set(queues) <= {"-"} else 39, answers[path].count(b"\n") + 1
    text = opening(group) + filled(page["mark_line"], mark)
    if group == 0:
        return group, text + page["body"][0]
    if done < program:
        number = len(lines) - (program - done)
        text += filled(page["instruction_line"], done, program, number, shown(lines[number - 1][:120]))
    return group, text + sides(answers[path], at, report) + "".join(page["signs"])


def whole():
    found = [candidate(k, name) for k, name in enumerate(names)]
    groups = [group for group, _ in found]
    title, sums = shown(words[4].encode()), words[5:]
    text = filled(page["head_begin"][:4], "", "", "", title) + page["head_begin"][4]
    text += "".join(style["look_in_colour"] + style["look_of_text"])
    text += "".join(filled(page["filter_rule"], k, k) for k in range(41))
    text += "".join(style["look_of_candidates"] + style["look_of_parts"] + style["look_in_print"])
    text += title + filled(page["heading"], *sums)
    text += filled(page["counts"][:3], len(found))
    text += "".join(filled(page["count_row"], k, groups.count(k), k, said[k]) for k in range(41) if k in groups)
    return text + page["counts"][3] + "".join(one for _, one in found) + filled(page["foot"], len(found))


shutil.rmtree(os.path.join(here, "data"), ignore_errors=True)
for name, content in {b"sheet.txt": sheet, b"times.txt": times, **answers}.items():
    path = os.path.join(here.encode(), b"data", name)
    os.makedirs(os.path.dirname(path), exist_ok=True)
    with open(path, "wb") as file:
        file.write(content)
with open(os.path.join(here, "args"), "w") as file:
    file.write("".join(word + "\n" for word in words))
with open(os.path.join(here, "stdin"), "wb") as file:
    file.write(b"\0".join(names + [b""] + names) + b"\0")
with open(os.path.join(here, "stdout"), "w") as file:
    file.write(whole())
