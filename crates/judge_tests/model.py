"""The judge in Python, written from document 01 and not from the definitions: what the program `judge_tests` prints is held to it."""
import re
from dataclasses import dataclass, field, replace

LONGEST = 32768
LONGEST_START = 8192  # C-20
DEFAULT_DEPTH = 8  # the second paper, C-15
CONNECTIONS = 64
TICKETS = 256  # C-21


class Fault(Exception):
    """A line that is refused: the number, and the place of the line once it is known."""

    def __init__(self, number, place=None):
        self.number, self.place = number, place


class Refused(Exception):
    """A step that is refused; at 34 and 38 with the use port that fails."""

    def __init__(self, number, port="-"):
        self.number, self.port = number, port


# ---- the texts


class Lines:
    """The lines of a text in order; a fault gets the place of its line."""

    def __init__(self, text):
        self.text, self.at = text, 0

    def read(self, reader):
        end = self.text.find(b"\n", self.at)
        if end < 0:
            raise Fault(2, self.at)
        try:
            value = reader(self.text[self.at : end])
        except Fault as fault:
            raise Fault(fault.number, self.at)
        self.at = end + 1
        return value

    def end(self):
        if self.at != len(self.text):
            raise Fault(5, self.at)


def number(item):
    if not re.fullmatch(rb"0|[1-9][0-9]{0,4}", item):
        raise Fault(2)
    return int(item)


def members(item):
    if item == b"-":
        return []
    values = [number(x) for x in item.split(b"+")]
    if any(a >= b for a, b in zip(values, values[1:])):
        raise Fault(2)
    return values


def after(key, line):
    if not line.startswith(key):
        raise Fault(2)
    return line[len(key) :]


def below(values, limits):
    if any(value >= limit for value, limit in zip(values, limits)):
        raise Fault(3)


def due(key, value):
    def reader(line):
        if number(after(key, line)) != value:
            raise Fault(2)

    return reader


def count(key, least, greatest):
    def reader(line):
        value = number(after(key, line))
        if not least <= value <= greatest:
            raise Fault(3)
        return value

    return reader


def verb(key, *forms):
    """A line of a verb and its numbers; each form is a verb and, for each number, one more than the greatest."""

    def reader(line):
        word, *items = after(key, line).split(b",")
        found = [limits for name, limits in forms if name == word and len(limits) == len(items)]
        if not found:
            raise Fault(2)
        values = [number(x) for x in items]
        below(values, found[0])
        return word.decode(), values

    return reader


@dataclass
class Type:
    places: int
    initial: set
    transitions: list
    behaviors: list
    ports: list


def read_type(lines, due_number):
    lines.read(due(b"type=", due_number))
    places = lines.read(count(b"places=", 1, 16))

    def initial(line):
        values = members(after(b"initial=", line))
        below(values, [places] * len(values))
        if not values:
            raise Fault(4)
        return set(values)

    marked = lines.read(initial)
    transitions = lines.read(count(b"transitions=", 0, 32))

    def tran(line):
        items = after(b"tran=", line).split(b",")
        if len(items) != 2:
            raise Fault(2)
        source, destination = (number(x) for x in items)
        below([source, destination], [places, places])
        if source == destination:
            raise Fault(4)
        return source, destination

    ends = [lines.read(tran) for _ in range(transitions)]
    behaviors = lines.read(count(b"behaviors=", 0, 8))

    def behavior(line):
        values = members(after(b"behavior=", line))
        below(values, [transitions] * len(values))
        return set(values)

    sets = [lines.read(behavior) for _ in range(behaviors)]
    ports = lines.read(count(b"ports=", 0, 16))

    def port(line):
        items = after(b"port=", line).split(b",")
        if len(items) != 3 or items[0] not in (b"use", b"provide"):
            raise Fault(2)
        of_places, of_transitions = members(items[1]), members(items[2])
        below(of_places, [places] * len(of_places))
        below(of_transitions, [transitions] * len(of_transitions))
        if items[0] == b"use" and marked & set(of_places):
            raise Fault(4)
        return items[0] == b"use", set(of_places), set(of_transitions)

    return Type(places, marked, ends, sets, [lines.read(port) for _ in range(ports)])


def read_sheet(text):
    lines = Lines(text)

    def first(line):
        if number(after(b"sheet=", line)) not in (1, 2):
            raise Fault(2)
        return line == b"sheet=2"

    ticketed = lines.read(first)
    depth = lines.read(count(b"depth=", 0, 8))
    types = lines.read(count(b"types=", 1, 16))
    tables = [read_type(lines, i) for i in range(types)]
    ends = [32, 16, 32, 16]
    forms = [(b"add", [32, types]), (b"del", [32]), (b"con", ends), (b"dcon", ends), (b"wait", [32])]
    forms += [(b"pushb", [32, 8, TICKETS]), (b"wait", [32, TICKETS])] if ticketed else [(b"pushb", [32, 8])]
    instructions = lines.read(count(b"program=", 0, 256))
    program = [lines.read(verb(b"do=", *forms)) for _ in range(instructions)]
    lines.end()
    return depth or DEFAULT_DEPTH, tables, program, ticketed


def read_answer(text):
    lines = Lines(text)
    lines.read(due(b"answer=", 1))
    forms = (b"next", []), (b"fire", [32, 16]), (b"end", [32, 32]), (b"enter", [32, 16]), (b"finish", [32])
    steps = lines.read(count(b"steps=", 0, 1024))
    answer = [lines.read(verb(b"step=", *forms)) for _ in range(steps)]
    lines.end()
    return answer


# ---- the state and the step rules


@dataclass
class Instance:
    kind: int
    marked: set
    running: set = field(default_factory=set)
    ended: set = field(default_factory=set)
    queue: list = field(default_factory=list)  # pairs of a behavior and its ticket, None in a `sheet=1`
    pushed: list = field(default_factory=list)  # the tickets pushed since the `add`, or known of the start

    def held(self):
        return self.running | self.ended


class State:
    def __init__(self, depth, types, program, ticketed=False):
        self.depth, self.types, self.program, self.ticketed = depth, types, program, ticketed
        self.instances, self.connections, self.done = {}, {}, 0

    # -- what is said of an instance

    def active(self, instance, port):
        _, places, transitions = self.types[instance.kind].ports[port]
        return bool(places & instance.marked or transitions & instance.held())

    def current(self, instance, place, end):
        """The transitions of the current behavior whose source (end 0) or destination (end 1) is the place."""
        kind = self.types[instance.kind]
        behavior = kind.behaviors[instance.queue[0][0]] if instance.queue else set()
        return {x for x in behavior if kind.transitions[x][end] == place}

    def refusing(self, instance, port):
        if not self.active(instance, port):
            return False
        for place in instance.marked:
            leaving = self.current(instance, place, 0)
            if leaving and not leaving & instance.held():
                gone = replace(instance, marked=instance.marked - {place}, running=instance.running | leaving)
                if not self.active(gone, port):
                    return True
        for place in range(16):
            entering = self.current(instance, place, 1)
            if entering and entering <= instance.ended and place not in instance.marked:
                come = replace(instance, marked=instance.marked | {place}, running=instance.running - entering, ended=instance.ended - entering)
                if not self.active(come, port):
                    return True
        return False

    def served(self):
        """Whether each active use port is connected to an active provide port."""
        for identity, instance in self.instances.items():
            for port, (use, _, _) in enumerate(self.types[instance.kind].ports):
                if use and self.active(instance, port):
                    provider, provideport = self.connections.get((identity, port), (None, None))
                    if provider is None or not self.active(self.instances[provider], provideport):
                        return False
        return True

    def is_port(self, identity, port, use):
        ports = self.types[self.instances[identity].kind].ports
        return port < len(ports) and ports[port][0] == use

    def present(self, identity):
        if identity not in self.instances:
            raise Refused(11)
        return self.instances[identity]

    # -- program steps

    def next(self):
        if self.done >= len(self.program):
            raise Refused(10)
        word, values = self.program[self.done]
        getattr(self, word if word != "del" else "delete")(*values)
        self.done += 1

    def add(self, identity, kind):
        if identity in self.instances:
            raise Refused(12)
        self.instances[identity] = Instance(kind, set(self.types[kind].initial))

    def delete(self, identity):
        instance = self.present(identity)
        if any(identity in (user[0], provider[0]) for user, provider in self.connections.items()):
            raise Refused(18)
        if instance.queue:
            raise Refused(21)
        del self.instances[identity]

    def pushb(self, identity, behavior, ticket=None):
        instance = self.present(identity)
        if behavior >= len(self.types[instance.kind].behaviors):
            raise Refused(13)
        if ticket is not None and any(ticket <= other for other in instance.pushed):
            raise Refused(19)
        if len(instance.queue) >= self.depth:
            raise Refused(20)
        instance.queue.append((behavior, ticket))
        if ticket is not None:
            instance.pushed.append(ticket)

    def con(self, user, useport, provider, provideport):
        self.present(user), self.present(provider)
        if not self.is_port(user, useport, True) or not self.is_port(provider, provideport, False):
            raise Refused(13)
        if user == provider:
            raise Refused(14)
        if (user, useport) in self.connections:
            raise Refused(15)
        if len(self.connections) >= CONNECTIONS:
            raise Refused(16)
        self.connections[user, useport] = provider, provideport

    def dcon(self, user, useport, provider, provideport):
        if self.connections.get((user, useport)) != (provider, provideport):
            raise Refused(17)
        if self.active(self.instances[user], useport):
            raise Refused(22)
        del self.connections[user, useport]

    def wait(self, identity, ticket=None):
        instance = self.present(identity)
        if ticket is None and instance.queue:
            raise Refused(21)
        if ticket is not None and any(ticket == other for _, other in instance.queue):
            raise Refused(23)
        if ticket is not None and ticket not in instance.pushed:
            raise Refused(24)

    # -- moves

    def move(self, word, identity, value=None):
        before = self.present(identity)
        if not before.queue:
            raise Refused(30)
        self.instances[identity] = getattr(self, word)(identity, before, value)

    def fire(self, identity, before, place):
        leaving = self.current(before, place, 0)
        if not leaving:
            raise Refused(32)
        if place not in before.marked:
            raise Refused(31)
        if leaving & before.held():
            raise Refused(33)
        return self.tested(identity, before, replace(before, marked=before.marked - {place}, running=before.running | leaving))

    def end(self, identity, before, transition):
        if transition not in before.running:
            raise Refused(31)
        return replace(before, running=before.running - {transition}, ended=before.ended | {transition})

    def enter(self, identity, before, place):
        entering = self.current(before, place, 1)
        if not entering:
            raise Refused(32)
        if not entering <= before.ended:
            raise Refused(31)
        if place in before.marked:
            raise Refused(33)
        return self.tested(identity, before, replace(before, marked=before.marked | {place}, running=before.running - entering, ended=before.ended - entering))

    def finish(self, identity, before, _):
        if before.held() or any(self.current(before, place, 0) for place in before.marked):
            raise Refused(37)
        return replace(before, queue=before.queue[1:])

    def tested(self, identity, before, moved):
        """The port checks of a fire or an enter, each over all ports before the next."""
        ports = list(enumerate(self.types[before.kind].ports))
        used = [q for q, (use, _, _) in ports if use and self.active(moved, q)]
        for port in used:
            if (identity, port) not in self.connections:
                raise Refused(38, port)
        for port in used:
            provider, provideport = self.connections[identity, port]
            if not self.active(self.instances[provider], provideport):
                raise Refused(34, port)
        for port in used:
            provider, provideport = self.connections[identity, port]
            if not self.active(before, port) and self.refusing(self.instances[provider], provideport):
                raise Refused(35)
        for port, (use, _, _) in ports:
            if not use and self.active(before, port) and not self.active(moved, port):
                users = [user for user, provider in self.connections.items() if provider == (identity, port)]
                if any(self.active(self.instances[user], useport) for user, useport in users):
                    raise Refused(36)
        return moved

    # -- the report

    def report(self, accepted, refused, port):
        def joined(values):
            return "+".join(map(str, values)) or "-"

        lines = [f"accepted={accepted}", f"refused={refused}", f"port={port}", f"next={self.done}", f"instances={len(self.instances)}"]
        for identity, x in sorted(self.instances.items()):
            sets = ",".join(joined(sorted(values)) for values in (x.marked, x.running, x.ended))
            queue = [f"{behavior}:{ticket}" if self.ticketed else behavior for behavior, ticket in x.queue]
            lines.append(f"instance={identity},{x.kind},{sets},{joined(queue)}")
        lines.append(f"connections={len(self.connections)}")
        for user, provider in sorted(self.connections.items()):
            lines.append("connection=%d,%d,%d,%d" % (user + provider))
        return "".join(line + "\n" for line in lines)


# ---- a start: the second paper, C-20


def queued(item, ticketed):
    """Pairs of a behavior and its ticket, C-21's `behavior:ticket`; None stands for the ticket in a `sheet=1`."""
    if item == b"-":
        return []
    parts = [x.split(b":") for x in item.split(b"+")]
    if any(len(x) != 1 + ticketed for x in parts):
        raise Fault(2)
    return [(number(x[0]), number(x[1]) if ticketed else None) for x in parts]


def read_start(text, state):
    """Fills the state from a start; `state` has the sheet's depth and types."""
    lines = Lines(text)
    lines.read(due(b"start=", 1))

    def instance(line):
        items = after(b"instance=", line).split(b",")
        if len(items) != 6 + state.ticketed:
            raise Fault(2)
        identity, kind = number(items[0]), number(items[1])
        marked, running, ended = (members(x) for x in items[2:5])
        queue = queued(items[5], state.ticketed)
        # the last ticket pushed, "`-` for none"
        last = None if not state.ticketed or items[6] == b"-" else number(items[6])
        behaviors, tickets = [x for x, _ in queue], [x for _, x in queue if x is not None]
        pushed = tickets or ([] if last is None else [last])
        below([identity, kind], [32, len(state.types)])
        own = state.types[kind]
        below(marked, [own.places] * len(marked))
        below(running + ended, [len(own.transitions)] * len(running + ended))
        below(behaviors + [len(queue)], [len(own.behaviors)] * len(queue) + [state.depth + 1])
        below(tickets + ([] if last is None else [last]), [TICKETS] * (len(queue) + 1))
        held = set(running) | set(ended)
        if any(identity <= other for other in state.instances):
            raise Fault(4)
        if set(running) & set(ended) or not held <= (own.behaviors[behaviors[0]] if queue else set()):
            raise Fault(4)
        if tickets and (tickets != sorted(set(tickets)) or last != tickets[-1]):
            raise Fault(4)
        state.instances[identity] = Instance(kind, set(marked), set(running), set(ended), queue, pushed)

    for _ in range(lines.read(count(b"instances=", 0, 32))):
        lines.read(instance)

    def connection(line):
        items = after(b"connection=", line).split(b",")
        if len(items) != 4:
            raise Fault(2)
        user, useport, provider, provideport = (number(x) for x in items)
        below([user, useport, provider, provideport], [32, 16, 32, 16])
        ends = (user, useport, True), (provider, provideport, False)
        for identity, port, _ in ends:
            if identity in state.instances:
                below([port], [len(state.types[state.instances[identity].kind].ports)])
        if any((user, useport) <= other for other in state.connections):
            raise Fault(4)
        if user == provider or not all(identity in state.instances and state.is_port(identity, port, use) for identity, port, use in ends):
            raise Fault(4)
        state.connections[user, useport] = provider, provideport

    for _ in range(lines.read(count(b"connections=", 0, CONNECTIONS))):
        lines.read(connection)
    lines.end()
    if not state.served():
        raise Fault(50)


# ---- the whole


@dataclass
class Judgement:
    refused: int
    accepted: int = 0
    next: int = 0
    text: str = "neither"
    line: int = 0
    place: tuple = ("answer", 0, 0)
    report: str = ""
    port: object = "-"


def at_fault(name, text, fault):
    if fault.number in (1, 50):
        return Judgement(fault.number, text=name, place=(name, 0, 0))
    size = len(text[fault.place :].split(b"\n")[0])
    return Judgement(fault.number, text=name, line=1 + text[: fault.place].count(b"\n"), place=(name, fault.place, size))


def started(sheet, start):
    """The state that the steps begin in; nothing is up without a start (None)."""
    state = State(*read_sheet(sheet))
    if start is not None:
        read_start(start, state)
    return state


def judge(sheet, answer, room=8192, start=None):
    for name, text, longest in ("sheet", sheet, LONGEST), ("start", start or b"", LONGEST_START), ("answer", answer, LONGEST):
        if len(text) > longest:
            return at_fault(name, text, Fault(1))
    try:
        read_sheet(sheet)
    except Fault as fault:
        return at_fault("sheet", sheet, fault)
    try:
        state = started(sheet, start)
    except Fault as fault:
        return at_fault("start", start, fault)
    try:
        steps = read_answer(answer)
    except Fault as fault:
        return at_fault("answer", answer, fault)
    accepted, refused, port, place = 0, 0, "-", ("answer", len(answer), 0)
    for word, values in steps:
        try:
            state.next() if word == "next" else state.move(word, *values)
        except Refused as step:
            refused, port = step.number, step.port
            lines = answer.split(b"\n")
            place = "answer", sum(len(line) + 1 for line in lines[: 2 + accepted]), len(lines[2 + accepted])
            break
        accepted += 1
    report = state.report(accepted, refused, port)
    if len(report) > room:
        return Judgement(6)
    return Judgement(refused, accepted, state.done, place=place, report=report, port=port)


def printed(sheet, answer, start=None):
    """What the `judge` program prints."""
    judgement = judge(sheet, answer, start=start)
    if judgement.text != "neither":
        return f"text={judgement.text}\nline={judgement.line}\nrefused={judgement.refused}\n"
    return judgement.report
