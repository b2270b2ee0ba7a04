"""The model walk in Python, written from the second paper's C-18 and not from the definitions: at each turn the first allowed step."""
import os
import sys

sys.dont_write_bytecode = True
sys.path.insert(0, os.path.join(os.path.dirname(os.path.abspath(__file__)), "..", "judge_tests"))

import model

ROOM = 17428
steps_on = [("finish", 1), ("enter", 16), ("end", 32), ("fire", 16)]


def taken(state):
    """The first allowed step, carried out; None where none is. A refused one changes nothing."""
    try:
        state.next()
        return "next"
    except model.Refused:
        pass
    for identity in range(32):
        for word, numbers in steps_on:
            for value in range(numbers):
                try:
                    state.move(word, identity, value)
                    return f"{word},{identity}" if word == "finish" else f"{word},{identity},{value}"
                except model.Refused:
                    pass
    return None


def walk(sheet, start=None):
    """The steps and how they end."""
    state, steps = model.started(sheet, start), []
    while len(steps) < 1024:
        step = taken(state)
        if step is None:
            break
        steps.append(step)
    done = state.done == len(state.program) and not any(x.queue for x in state.instances.values())
    return steps, "done" if done else "cut" if len(steps) == 1024 else "stuck"


def answered(refused, text, line, ending, steps, written):
    return f"refused={refused}\ntext={text}\nline={line}\nwalk={ending}\nsteps={steps}\nwritten={written}\nfound={ROOM - written}\n"


def printed(sheet, start=None):
    """What the program prints of a paper."""
    judged = model.judge(sheet, b"answer=1\nsteps=0\n", start=start)
    if judged.text != "neither":
        return answered(judged.refused, judged.text, judged.line, "-", 0, 0)
    steps, ending = walk(sheet, start)
    text = "".join(line + "\n" for line in ["answer=1", f"steps={len(steps)}"] + ["step=" + x for x in steps])
    judged = model.judge(sheet, text.encode(), start=start)
    assert (judged.refused, judged.accepted) == (0, len(steps)), "the judge allows all of it"
    whole = answered(0, "-", 0, ending, len(steps), len(text))
    return whole + text + f"room={len(text)}\n" + whole + f"room={len(text) - 1}\n" + answered(6, "-", 0, "-", 0, 0)
