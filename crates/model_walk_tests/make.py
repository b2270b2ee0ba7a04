"""make.py: writes data/, args and stdout of the program `model_walk_tests` from cases.py and walks.py, and checks that they agree."""
import os
import shutil

from walks import model, printed, walk  # first: it finds the model
from cases import cases

here = os.path.dirname(os.path.abspath(__file__))


def write(name, content):
    with open(os.path.join(here, name), "wb") as file:
        file.write(content)


def expected(name, sheet, start, said):
    judged = model.judge(sheet, b"answer=1\nsteps=0\n", start=start)
    if judged.text != "neither":
        found = judged.text, judged.line, judged.refused
    else:
        steps, ending = walk(sheet, start)
        found = len(steps), ending
    if found != said:
        raise SystemExit(f"{name}: cases.py says {said}, and walks.py says {found}")
    return f"case={name}\n{printed(sheet, start)}"


names = [name for name, _, _, _ in cases]
assert len(set(names)) == len(names) and max(map(len, names)) <= 64
output = "".join(expected(*paper) for paper in cases)
shutil.rmtree(os.path.join(here, "data"), ignore_errors=True)
os.makedirs(os.path.join(here, "data"))
for name, sheet, start, _ in cases:
    write(f"data/{name}.sheet", sheet)
    if start is not None:
        write(f"data/{name}.start", start)
write("args", "".join(name + "\n" for name in names).encode())
write("stdout", output.encode())
