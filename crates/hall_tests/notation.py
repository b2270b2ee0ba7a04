"""How lent.py says a case: a change is a row of `place=value`, as in `types.0.places=2 queue.8=1`; the places are those of model.py's `empty`."""
import copy

from model import server, slot_of


def changed(lent, changes):
    lent = copy.deepcopy(lent)
    for change in changes.split():
        place, value = change.split("=")
        *way, last = (int(p) if p.isdigit() else p for p in place.split("."))
        spot = lent
        for part in way:
            spot = spot[part]
        assert isinstance(spot[last], int), place
        spot[last] = int(value)
    return lent


def row(name, **values):
    return " ".join(f"{name}.{key}={value}" for key, value in values.items())


cases = []


def case(name, lent, changes, number, left="", port="-"):
    """The number of a step and the use port it is about; an allowed one leaves what `left` says and all else as it was, a refused one
    everything."""
    given = changed(lent, changes)
    cases.append((name, given, (number, port), changed(given, left)))


def instance(i, kind, marked, queued=0, running=0, ended=0):
    return row(f"instances.{i}", present=1, kind=kind, marked=marked, running=running, ended=ended, queued=queued)


def connection(user, useport, provider, provideport):
    return f"servers.{slot_of(user, useport)}={server(provider, provideport)}"


def unconnected(user, useport):
    return f"servers.{slot_of(user, useport)}=0"


def instruction(at, verb, identity, number=0, provider=0, provideport=0):
    return row(f"program.{at}", verb=verb, id=identity, number=number, provider=provider, provideport=provideport)


def step(verb, identity=0, number=0):
    return row("step", verb=verb, id=identity, number=number)


ADD, DEL, PUSHB, CON, DCON, WAIT = range(6)
NEXT, FIRE, END, ENTER, FINISH = range(5)
