"""make.py: writes data/, args and stdout of the program `timing_tests` from triples.py and clock.py, and checks that the two agree."""
import os
import shutil
import sys

here = os.path.dirname(os.path.abspath(__file__))
sys.dont_write_bytecode = True
sys.path.insert(0, os.path.join(here, "..", "judge_tests"))

from clock import timed, timed_print
from triples import triples


def write(name, content):
    with open(os.path.join(here, name), "wb") as file:
        file.write(content)


def expected(name, sheet, start, answer, times, said):
    judgement, mark = timed(sheet, start, answer, times or b"")
    found = judgement.refused, mark, judgement.text, judgement.line
    if found != said:
        raise SystemExit(f"{name}: triples.py says {said}, and clock.py says {found}")
    return f"case={name}\n{timed_print(judgement)}place={','.join(map(str, judgement.place))}\n"


names = [triple[0] for triple in triples]
assert len(set(names)) == len(names) and max(map(len, names)) <= 64
output = "".join(expected(*triple) for triple in triples)
shutil.rmtree(os.path.join(here, "data"), ignore_errors=True)
os.makedirs(os.path.join(here, "data"))
for name, sheet, start, answer, times, _ in triples:
    for ending, text in ("sheet", sheet), ("start", start), ("answer", answer), ("times", times):
        if text is not None:
            write(f"data/{name}.{ending}", text)
write("args", "".join(name + "\n" for name in names).encode())
write("stdout", output.encode())
