"""make.py: writes stdin and stdout of the program `compare_batch`: papers of `judge_tests` by the model beside them, and the cases of the Aeolus paper by
the judge in C of compare/ and by what each case says of itself. Needs a C compiler."""
import os
import subprocess
import sys
import tempfile

here = os.path.dirname(os.path.abspath(__file__))
sys.dont_write_bytecode = True
sys.path[:0] = [os.path.join(here, "..", name) for name in ("judge_tests", "aeolus")]

from cases import cases as plans
from model import judge
from pairs import pairs
from starts import starts
from tickets import tickets

# a paper of `judge_tests` and a room: no refusal, a refused step, a fault in the sheet, one in the answer, both texts empty, the report's very length, a byte less,
# none; then papers with a start: no refusal, a refused step, the report's very length, a byte less, and each number of a start; then papers with tickets: a queue of
# them, their own numbers, a push without one, and the same from a start
cases = [
    ("pair", 8192),
    ("pair_service_in_use", 16384),
    ("tran_of_one_place", 8192),
    ("unknown_step", 0),
    ("both_empty", 8192),
    ("pair", 123),
    ("pair", 122),
    ("pair_service_in_use", 0),
    ("start_of_a_running_pair", 8192),
    ("start_in_use", 8192),
    ("start_with_nothing_up", 123),
    ("start_and_no_steps", 0),
    ("start_too_long", 8192),
    ("start_of_an_empty_file", 8192),
    ("start_past_the_places", 0),
    ("start_id_twice", 8192),
    ("start_with_a_byte_after", 8192),
    ("start_unserved", 8192),
    ("start_good_and_answer_faulty", 8192),
    ("ticket_shown", 8192),
    ("ticket_equal", 8192),
    ("ticket_still_queued", 8192),
    ("ticket_skipped", 8192),
    ("ticket_push_without", 8192),
    ("ticket_sensor", 8192),
    ("ticket_start_shown", 8192),
    ("ticket_longest_report", 7574),
    ("ticket_longest_report", 7573),
    ("ticket_start_of_six_fields", 8192),
    ("ticket_start_past_255", 8192),
    ("ticket_start_that_falls", 8192),
]


def said(case, room):
    sheet, start, answer = texts[case]
    found = judge(sheet, answer, room, start)
    text = found.text if found.text != "neither" else "-"
    fields = found.refused, found.accepted, found.next, text, found.line, *found.place, len(found.report)
    return " ".join(map(str, fields)) + "\n" + found.report


def as_plan(sheet, answer, room=8192):
    return b"plan %d %d %d\n" % (len(sheet), len(answer), room) + sheet.encode() + answer.encode()


def judged_in_c(folder, case):
    return subprocess.run([os.path.join(folder, "batch")], input=case, stdout=subprocess.PIPE, check=True).stdout


def plans_judged():
    """What the judge in C answers, held to what each case says: refused, accepted, text, line."""
    with tempfile.TemporaryDirectory() as folder:
        sources = ["batch.c", "judge.c", "start.c", "state.c", "rules.c", "foretell.c", "walk.c", "aeolus_judge.c", "aeolus.c"]
        subprocess.run(["cc", "-std=c11", "-O1", "-o", os.path.join(folder, "batch"), *sources], cwd=os.path.join(here, "..", "..", "compare"), check=True)
        for name, sheet, answer, said_so in plans:
            out = judged_in_c(folder, as_plan(sheet, answer))
            fields = out.split(b"\n")[0].decode().split()
            found = int(fields[0]), int(fields[1]), fields[3], int(fields[4])
            if found != said_so:
                raise SystemExit(f"{name}: it says {said_so}, and the judge in C {found}")
            yield as_plan(sheet, answer), out
        _, sheet, answer, _ = plans[0]
        # the report's very length, and a byte less
        for room in 91, 90:
            yield as_plan(sheet, answer, room), judged_in_c(folder, as_plan(sheet, answer, room))


def as_case(case, room):
    sheet, start, answer = texts[case]
    length = b"-" if start is None else b"%d" % len(start)
    return b"case %d %s %d %d\n" % (len(sheet), length, len(answer), room) + sheet + (start or b"") + answer


texts = {name: (sheet, None, answer) for name, sheet, answer, _ in pairs}
texts |= {name: (sheet, start, answer) for name, sheet, start, answer, _ in starts + tickets}
planned = list(plans_judged())
with open(os.path.join(here, "stdin"), "wb") as file:
    file.write(b"".join(as_case(*case) for case in cases))
    file.write(b"".join(case for case, _ in planned) + b"case 1 - 0 00\nx")
with open(os.path.join(here, "stdout"), "wb") as file:
    file.write("".join(said(*case) for case in cases).encode() + b"".join(out for _, out in planned) + b"bad header\n")
