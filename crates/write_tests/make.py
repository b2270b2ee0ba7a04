#!/usr/bin/env python3
"""make.py FOLDER: writes the writing cases into FOLDER: data/, args (their names), stdout (what must come of each).

A case of words is lines `PLACE,HIGH,LOW` of what is lent, each word by its halves; what must come of it is said here: the number of the refusal with the case, by hand, and the text
by `sheet` and `answer` below, which write it from the same numbers without looking at the program. The other cases are texts of `judge_tests`, and some of
answers, that must come out as they went in.
"""
import os
import sys

HERE = os.path.dirname(os.path.abspath(__file__))
TEXTS = os.path.join(HERE, "..", "judge_tests", "data")
ROOM = 40000
VERBS = {"add": 0, "del": 1, "pushb": 2, "con": 3, "dcon": 4, "wait": 5}
TICKETED = {6: ("pushb", 3), 7: ("wait", 2)}  # the verbs of a sheet with tickets: the word, how many numbers
MOVES = {"next": 0, "fire": 1, "end": 2, "enter": 3, "finish": 4}
cases = []  # name, file, lines of stdout


def members(*xs):
    return sum(1 << x for x in xs)


def joined(mask):
    return "+".join(str(i) for i in range(32) if mask >> i & 1) or "-"


class Type:
    def __init__(self, places=2, initial=1, trans=((0, 1), (1, 0)), behaviors=(1, 2), ports=((0, 2, 0),)):
        self.places, self.initial, self.trans, self.behaviors, self.ports = places, initial, list(trans), list(behaviors), list(ports)

    def text(self, i):
        return "".join(
            [f"type={i}\nplaces={self.places}\ninitial={joined(self.initial)}\ntransitions={len(self.trans)}\n"]
            + [f"tran={a},{b}\n" for a, b in self.trans]
            + [f"behaviors={len(self.behaviors)}\n"]
            + [f"behavior={joined(m)}\n" for m in self.behaviors]
            + [f"ports={len(self.ports)}\n"]
            + [f"port={'use' if u else 'provide'},{joined(a)},{joined(b)}\n" for u, a, b in self.ports]
        )


def sheet(types, program, depth=0, edition=1):
    def line(x):
        if x[0] in TICKETED:
            verb, n = TICKETED[x[0]]
            return f"do={verb}," + ",".join(str(v) for v in x[1:1 + n]) + "\n"
        verb = [v for v in VERBS if VERBS[v] == x[0]][0]
        return f"do={verb}," + ",".join(str(n) for n in x[1:1 + {"add": 2, "pushb": 2, "con": 4, "dcon": 4}.get(verb, 1)]) + "\n"

    return (
        f"sheet={edition}\ndepth={depth}\ntypes={len(types)}\n" + "".join(t.text(i) for i, t in enumerate(types))
        + f"program={len(program)}\n" + "".join(line(x) for x in program)
    )


def answer(steps):
    def line(x):
        verb = [v for v in MOVES if MOVES[v] == x[0]][0]
        return f"step={verb}" + "".join(f",{n}" for n in x[1:1 + {"next": 0, "finish": 1}.get(verb, 2)]) + "\n"

    return f"answer=1\nsteps={len(steps)}\n" + "".join(line(x) for x in steps)


def table_words(types, program, depth=0, edition=1):
    w = {2000: depth, 2001: len(types), 2002 + 1280: len(program), 2002 + 1281: edition}
    for i, t in enumerate(types):
        for f, v in enumerate((t.places, t.initial, len(t.trans), len(t.behaviors), len(t.ports))):
            w[1920 + i * 5 + f] = v
        for x, ends in enumerate(t.trans):
            for f, v in enumerate(ends):
                w[(i * 32 + x) * 2 + f] = v
        for x, m in enumerate(t.behaviors):
            w[1792 + i * 8 + x] = m
        for x, port in enumerate(t.ports):
            for f, v in enumerate(port):
                w[1024 + (i * 16 + x) * 3 + f] = v
    for j, line in enumerate(program):
        for f, v in enumerate(line):
            w[2002 + j * 5 + f] = v
    return w


def step_words(steps):
    w = {3283 + 3072: len(steps), 6357: 1}
    for j, line in enumerate(steps):
        for f, v in enumerate(line):
            w[3283 + j * 3 + f] = v
    return w


def put(name, words, text, refused=0, room=ROOM):
    """What is lent, the text that is written where nothing is wrong, and the number of the refusal."""
    words = dict(words)
    words[6356] = room
    out = text if refused == 0 else ""
    shown = [f"{name}.words refused={refused} bytes={len(out)} read={0 if refused == 0 else 2} beside={room - len(out)}\n"]
    if refused == 0 and len(out) < 1000:
        shown.append(out)
    data = "".join(f"{p},{v >> 16},{v & 65535}\n" for p, v in sorted(words.items()) if v)
    cases.append((f"{name}.words", data, "".join(shown)))


def tables(name, types, program, depth=0, refused=0, room=ROOM, more=None, edition=1):
    text = sheet(types, program, depth, edition) if refused == 0 else ""
    put(name, {**table_words(types, program, depth, edition), **(more or {})}, text, refused, room)


def steps(name, lines, refused=0, room=ROOM, more=None):
    text = answer(lines) if refused == 0 else ""
    put(name, {**step_words(lines), **(more or {})}, text, refused, room)


def same(name):
    with open(os.path.join(TEXTS, name)) as f:
        cases.append((name, f.read(), f"{name} same\n"))


# ---- each number of a sheet at its last good value and one past
pair = [Type(), Type(ports=[(1, 2, 1)])]
P = [(0, 0, 0), (0, 1, 1), (3, 1, 0, 0, 0), (2, 0, 0), (2, 1, 0)]
wide = Type(16, 1 << 15, [(0, 15), (15, 0)], [], [])
long = Type(2, 1, [(0, 1)] * 32, [1 << 31], [(0, 2, 1 << 31)])
tables("pair", pair, P)
tables("depth_8", pair, P, 8)
tables("depth_9", pair, P, 9, 3)
tables("depth_of_six_digits", pair, P, 100000, 3)
tables("types_16", [Type()] * 16, [(0, 0, 15)])
tables("types_17", [Type()] * 16, [], refused=3, more={2001: 17})
tables("no_type", [], P, refused=3)
tables("places_16", [wide], [])
tables("places_17", [Type(17, 1, [], [], [])], [], refused=3)
tables("no_place", [Type(0, 0, [], [], [])], [], refused=3)
tables("initial_past_the_places", [Type(2, 4, [], [], [])], [], refused=3)
tables("no_initial_place", [Type(2, 0, [], [], [])], [], refused=4)
tables("transitions_32", [long], [])
tables("transitions_33", [long], [], refused=3, more={1920 + 2: 33})
tables("end_past_the_places", [Type(2, 1, [(0, 2)], [], [])], [], refused=3)
tables("start_past_the_places", [Type(2, 1, [(2, 0)], [], [])], [], refused=3)
tables("end_of_seven_digits", [Type(2, 1, [(0, 9999999)], [], [])], [], refused=3)
tables("ends_equal", [Type(2, 1, [(1, 1)], [], [])], [], refused=4)
tables("ends_equal_past_the_places", [Type(2, 1, [(2, 2)], [], [])], [], refused=3)
tables("behaviors_8", [Type(behaviors=[0] * 7 + [3])], [])
tables("behaviors_9", [Type(behaviors=[0] * 8)], [], refused=3, more={1920 + 3: 9})
tables("behavior_past_the_transitions", [Type(behaviors=[4])], [], refused=3)
tables("ports_16", [Type(ports=[(0, 0, 0)] * 15 + [(1, 2, 3)])], [])
tables("ports_17", [Type(ports=[(0, 0, 0)] * 16)], [], refused=3, more={1920 + 4: 17})
tables("port_past_the_places", [Type(ports=[(0, 4, 0)])], [], refused=3)
tables("port_past_the_transitions", [Type(ports=[(0, 0, 4)])], [], refused=3)
tables("port_of_kind_2", [Type(ports=[(2, 0, 0)])], [], refused=2)
tables("port_of_kind_2_past_the_places", [Type(ports=[(2, 4, 0)])], [], refused=2)
tables("use_port_on_an_initial_place", [Type(ports=[(1, 1, 0)])], [], refused=4)
tables("use_port_past_the_places_on_an_initial_place", [Type(ports=[(1, 5, 0)])], [], refused=3)
tables("provide_port_on_an_initial_place", [Type(ports=[(0, 1, 0)])], [])
tables("program_256", pair, [(5, 31)] * 256)
tables("program_257", pair, [(5, 31)] * 256, refused=3, more={2002 + 1280: 257})
tables("program_of_six_digits", pair, [(5, 31)] * 256, refused=3, more={2002 + 1280: 100000})
for verb, good, bad in (
    ("add", (31, 1), ((32, 0), (0, 2), (100000, 0))),
    ("del", (31,), ((32,),)),
    ("pushb", (31, 7), ((32, 0), (0, 8))),
    ("con", (31, 15, 31, 15), ((32, 0, 0, 0), (0, 16, 0, 0), (0, 0, 32, 0), (0, 0, 0, 16))),
    ("dcon", (31, 15, 31, 15), ((32, 0, 0, 0), (0, 16, 0, 0), (0, 0, 32, 0), (0, 0, 0, 16))),
    ("wait", (31,), ((32,),)),
):
    tables(f"{verb}_at_its_greatest", pair, [(VERBS[verb],) + good])
    for i, numbers in enumerate(bad):
        tables(f"{verb}_past_it_{i}", pair, [(VERBS[verb],) + numbers], refused=3)
tables("verb_8", pair, [(8, 99)], refused=2)

# ---- a sheet with tickets: its verbs at their greatest and past it, and each verb in the other kind of sheet
tickets = [(0, 0, 0), (6, 0, 0, 0), (6, 0, 1, 255), (7, 0, 0), (5, 0)]
tables("tickets", pair, tickets, edition=2)
tables("push_with_ticket_at_its_greatest", pair, [(6, 31, 7, 255)], edition=2)
for i, numbers in enumerate(((32, 0, 0), (0, 8, 0), (0, 0, 256), (0, 0, 100000))):
    tables(f"push_with_ticket_past_it_{i}", pair, [(6,) + numbers], refused=3, edition=2)
tables("wait_for_one_at_its_greatest", pair, [(7, 31, 255)], edition=2)
for i, numbers in enumerate(((32, 0), (0, 256))):
    tables(f"wait_for_one_past_it_{i}", pair, [(7,) + numbers], refused=3, edition=2)
tables("push_without_ticket_where_all_have_one", pair, [(2, 99, 99)], refused=2, edition=2)
tables("push_with_ticket_where_none_has_one", pair, [(6, 99, 99, 999)], refused=2)
tables("wait_for_one_where_none_has_one", pair, [(7, 99, 999)], refused=2)
for edition in (0, 3, 100000):
    tables(f"edition_{edition}", pair, P, 9, refused=2, edition=edition)
tables("first_fault_of_two", [Type(2, 1, [(1, 1)], [], [])], [], 9, 3)
tables("second_type_at_fault", [Type(), Type(2, 0, [], [], [])], [(8, 0)], refused=4)

# ---- what no line says is not looked at
free = {**{p: 7777777 for p in range(3283)}, **table_words(pair, P)}
for j, line in enumerate(P):
    for f in range(len(line), 5):
        free[2002 + j * 5 + f] = 7777777
put("free_slots", free, sheet(pair, P))

# ---- the room and the length
size = len(sheet(pair, P))
tables("room_for_it", pair, P, room=size)
tables("one_byte_short", pair, P, refused=6, room=size - 1)
tables("no_room", pair, P, refused=6, room=0)
tables("at_fault_and_no_room", pair, P, 9, 3, 0)
every = members(*range(32))
full = Type(16, members(*range(16)), [(i % 16, (i + 1) % 16) for i in range(32)], [every] * 8, [(0, 65535, every)] * 16)
some = Type(2, 1, [(0, 1)] * 32, [0] * 8, [])
least = Type(1, 1, [], [], [])


def of_length(n):
    """Tables whose sheet has n bytes: full types, and then behaviors and instructions that add the rest."""
    types, program = [full] * 7 + [some] * 8 + [least], []
    while len(sheet(types, program)) + 40 < n and len(program) < 256:
        program.append((3, 31, 15, 31, 15))
    lists = [0] * 64
    for k in range(64):
        left = n - len(sheet(types, program))
        short = [m for m in ([0] + [members(*range(a), *range(10, 10 + b)) for a in range(11) for b in range(23)]) if len(joined(m)) - 1 <= left]
        lists[k] = max(short, key=lambda m: len(joined(m)))
        types = [full] * 7 + [Type(2, 1, [(0, 1)] * 32, lists[i * 8:i * 8 + 8], []) for i in range(8)] + [least]
    assert len(sheet(types, program)) == n, len(sheet(types, program))
    return types, program


types, program = of_length(32768)
tables("greatest_length", types, program)
tables("greatest_length_and_room", types, program, room=32768)
tables("greatest_length_and_short", types, program, refused=6, room=32767)
types, program = of_length(32769)
tables("too_long", types, program, refused=1)
tables("too_long_and_no_room", types, program, refused=1, room=0)
tables("too_long_and_at_fault", types, program, 9, 3)

# ---- answers
run = [(0,)] * 5 + [(1, 0, 0), (2, 0, 0), (3, 0, 1), (4, 0)]
steps("answer", run)
steps("no_step", [])
steps("steps_1024", [(3, 31, 15)] * 1024)
steps("steps_1025", [(0,)] * 1024, 3, more={3283 + 3072: 1025})
steps("steps_of_six_digits", [(0,)] * 1024, 3, more={3283 + 3072: 100000})
for verb, good, bad in (("fire", (31, 15), ((32, 0), (0, 16))), ("end", (31, 31), ((32, 0), (0, 32))), ("enter", (31, 15), ((32, 0), (0, 16))), ("finish", (31,), ((32,),))):
    steps(f"{verb}_at_its_greatest", [(MOVES[verb],) + good])
    for i, numbers in enumerate(bad):
        steps(f"{verb}_past_it_{i}", [(MOVES[verb],) + numbers], 3)
steps("step_of_verb_5", [(5, 99, 99)], 2)
free = {**{p: 7777777 for p in range(3283, 6356)}, **step_words(run)}
for j, line in enumerate(run):
    for f in range(len(line), 3):
        free[3283 + j * 3 + f] = 7777777
put("free_steps", free, answer(run))
size = len(answer(run))
steps("room_for_the_answer", run, room=size)
steps("one_byte_short_of_the_answer", run, 6, size - 1)
steps("answer_at_fault_and_no_room", [(5,)], 2, 0)

# ---- texts of `judge_tests`, read and written back
for name in """all_busy concerto_d_taken_down concerto_deleted_while_linked concerto_disconnected_from_the_ip concerto_maintain concerto_name_not_unique
concerto_update concerto_update_with_a_barrier connection_64 connection_65 counts_at_their_greatest del_of_connected_with_queue head_goes_rest_moves_up
in_use_at_enter last_token_refuses list_and_port_empty madeus_check_before_the_service madeus_without_docks old_marks_gone one_of_two_tokens_leaves
provide_port_serves_many second_push_at_depth_1 steps_at_their_greatest use_port_connected_twice ticket_256_pushes ticket_no_push_at_all ticket_sensor""".split():
    same(name + ".sheet")
    same(name + ".answer")

folder = sys.argv[1]
os.makedirs(os.path.join(folder, "data"), exist_ok=True)
for name, data, _ in cases:
    with open(os.path.join(folder, "data", name), "w") as f:
        f.write(data)
with open(os.path.join(folder, "args"), "w") as f:
    f.write("".join(name + "\n" for name, _, _ in cases))
with open(os.path.join(folder, "stdout"), "w") as f:
    f.write("".join(shown for _, _, shown in cases))
