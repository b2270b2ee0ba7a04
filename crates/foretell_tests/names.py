"""A program gone through on names alone, in Python, written from the second paper's C-19 and C-21 and not from the definitions."""
import os
import sys

sys.dont_write_bytecode = True
sys.path.insert(0, os.path.join(os.path.dirname(os.path.abspath(__file__)), "..", "judge_tests"))

import model


def fault(sheet, start):
    """The judge's own refusal of the sheet or the start, beside an answer of no steps; None where both are read."""
    judged = model.judge(sheet, b"answer=1\nsteps=0\n", start=start)
    return None if judged.text == "neither" else judged


def number(types, kinds, pushed, connections, word, values):
    """What the instruction gets by the names that are there, 11 to 18, and by the tickets pushed, 19 and 24, or 0."""
    if word == "add":
        return 12 if values[0] in kinds else 0
    if word in ("con", "dcon"):
        user, useport, provider, provideport = values
        if word == "dcon":
            return 0 if connections.get((user, useport)) == (provider, provideport) else 17
        if user not in kinds or provider not in kinds:
            return 11
        for identity, port, use in (user, useport, True), (provider, provideport, False):
            ports = types[kinds[identity]].ports
            if port >= len(ports) or ports[port][0] != use:
                return 13
        if user == provider:
            return 14
        if (user, useport) in connections:
            return 15
        return 16 if len(connections) >= model.CONNECTIONS else 0
    if values[0] not in kinds:
        return 11
    if word == "pushb":
        if values[1] >= len(types[kinds[values[0]]].behaviors):
            return 13
        return 19 if len(values) == 3 and values[2] <= max(pushed[values[0]], default=-1) else 0
    if word == "del":
        return 18 if any(values[0] in (user[0], provider[0]) for user, provider in connections.items()) else 0
    return 24 if len(values) == 2 and values[1] not in pushed[values[0]] else 0


def foretold(sheet, start=None):
    """How many instructions the names allow, the number of the one after them and its line in the sheet; 0 and 0 where there is none."""
    state = model.started(sheet, start)
    kinds = {identity: x.kind for identity, x in state.instances.items()}
    pushed = {identity: set(x.pushed) for identity, x in state.instances.items()}
    connections = dict(state.connections)
    for k, (word, values) in enumerate(state.program):
        refused = number(state.types, kinds, pushed, connections, word, values)
        if refused:
            lines = sheet.split(b"\n")
            return k, refused, [i for i, line in enumerate(lines, 1) if line.startswith(b"do=")][k]
        if word == "add":
            kinds[values[0]], pushed[values[0]] = values[1], set()
        elif word == "pushb":
            pushed[values[0]].update(values[2:])
        elif word == "del":
            del kinds[values[0]]
        elif word == "con":
            connections[values[0], values[1]] = values[2], values[3]
        elif word == "dcon":
            del connections[values[0], values[1]]
    return len(state.program), 0, 0


def printed(sheet, start=None):
    """What the `foretell` program prints."""
    refused = fault(sheet, start)
    if refused:
        return f"text={refused.text}\nline={refused.line}\nrefused={refused.refused}\n"
    return "next=%d\nrefused=%d\nline=%d\n" % foretold(sheet, start)
