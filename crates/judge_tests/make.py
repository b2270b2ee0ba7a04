"""make.py: writes data/, args and stdout of the program `judge_tests` from pairs.py, starts.py, tickets.py and model.py, and checks that they agree."""
import os
import shutil

from model import judge, printed
from pairs import pairs
from starts import check_cuts, starts
from tickets import tickets

here = os.path.dirname(os.path.abspath(__file__))


def write(name, content):
    with open(os.path.join(here, name), "wb") as file:
        file.write(content)


def expected(name, sheet, start, answer, said):
    judgement = judge(sheet, answer, start=start)
    found = judgement.refused, judgement.accepted, judgement.text, judgement.line, judgement.port
    if found != said:
        raise SystemExit(f"{name}: it says {said}, and model.py says {found}")
    return f"case={name}\n{printed(sheet, answer, start)}place={','.join(map(str, judgement.place))}\n"


papers = [(name, sheet, None, answer, said) for name, sheet, answer, said in pairs] + starts + tickets
names = [paper[0] for paper in papers]
assert len(set(names)) == len(names) and max(map(len, names)) <= 64
check_cuts()
output = "".join(expected(*paper) for paper in papers)
shutil.rmtree(os.path.join(here, "data"), ignore_errors=True)
os.makedirs(os.path.join(here, "data"))
for name, sheet, start, answer, _ in papers:
    for ending, text in ("sheet", sheet), ("start", start), ("answer", answer):
        if text is not None:
            write(f"data/{name}.{ending}", text)
write("args", "".join(name + "\n" for name in names).encode())
write("stdout", output.encode())
