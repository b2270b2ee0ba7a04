"""Timing in Python, written from request C-14 of document 02 and not from the definitions; the judge is the model that stands beside `judge_tests`."""
import re
from fractions import Fraction

from model import LONGEST, Judgement, judge, read_answer, started

NUMBER = rb"(0|[1-9][0-9]{0,6})"


class Fault(Exception):
    """A line of the times that is refused: C-14's number and the place where the line starts, none for the length."""

    def __init__(self, number, place):
        self.number, self.place = number, place


def read_times(text):
    """The par, and the seconds of each pair that is listed."""
    if len(text) > LONGEST:
        raise Fault(40, None)
    place = 0

    def line(form, least, greatest, listed=()):
        nonlocal place
        end = text.find(b"\n", place)
        found = end >= 0 and re.fullmatch(form, text[place:end])
        if not found:
            raise Fault(40, place)
        values = [int(x) for x in found.groups()]
        if any(not a <= x <= b for a, x, b in zip(least, values, greatest)):
            raise Fault(41, place)
        if tuple(values[:2]) in listed:
            raise Fault(42, place)
        place = end + 1
        return values

    line(rb"times=1", [], [])
    (par,) = line(rb"par=" + NUMBER, [1], [1000000])
    (rows,) = line(rb"rows=" + NUMBER, [0], [1024])
    seconds = {}
    for _ in range(rows):
        identity, transition, value = line(rb"time=%s,%s,%s" % (NUMBER, NUMBER, NUMBER), [0, 0, 0], [31, 31, 86400], seconds)
        seconds[identity, transition] = value
    if place != len(text):
        raise Fault(40, place)
    return par, seconds


def clock_of(sheet, start, answer, seconds):
    """The clock after an answer in which every step is allowed; C-20: what runs at the start was noted at 0."""
    state, clock = started(sheet, start), 0
    noted = {(identity, transition): 0 for identity, instance in state.instances.items() for transition in instance.running}
    for word, values in read_answer(answer):
        if word == "fire":
            identity, place = values
            for transition in state.current(state.instances[identity], place, 0):
                noted[identity, transition] = clock
        if word == "end":
            clock = max(clock, noted[tuple(values)] + seconds.get(tuple(values), 0))
        state.next() if word == "next" else state.move(word, *values)
    return clock


def mark_of(par, clock):
    if clock == 0:
        return 1000
    share = Fraction(1000 * par, clock)
    whole = share.numerator // share.denominator
    return min(1000, whole + (share - whole > Fraction(1, 2)))


def timed(sheet, start, answer, times):
    """The judgement and the mark; `start` is None where there is none."""
    judgement = judge(sheet, answer, start=start)
    if judgement.text != "neither":
        return judgement, 0
    try:
        par, seconds = read_times(times)
    except Fault as fault:
        if fault.place is None:
            return Judgement(fault.number, text="times", place=("times", 0, 0)), 0
        size = len(times[fault.place :].split(b"\n")[0])
        return Judgement(fault.number, text="times", line=1 + times[: fault.place].count(b"\n"), place=("times", fault.place, size)), 0
    mark = 0 if judgement.refused else mark_of(par, clock_of(sheet, start, answer, seconds))
    judgement.report += f"mark={mark}\n"
    return judgement, mark


def timed_print(judgement):
    """What the `timing` program prints."""
    if judgement.text != "neither":
        return f"text={judgement.text}\nline={judgement.line}\nrefused={judgement.refused}\n"
    return judgement.report
