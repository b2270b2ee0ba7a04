"""The screen in the hall in Python, written from documents 01 and 02 and not from the definitions: what is lent as bytes, number 7, and what
an allowed step leaves in every slot. The rules 10 to 38 are those of the model beside the program `judge_tests`."""
import importlib.util
import os
import struct

path = os.path.join(os.path.dirname(os.path.abspath(__file__)), "..", "judge_tests", "model.py")
spec = importlib.util.spec_from_file_location("rules", path)
rules = importlib.util.module_from_spec(spec)
spec.loader.exec_module(rules)

WORDS = ["add", "del", "pushb", "con", "dcon", "wait"]
MOVES = ["next", "fire", "end", "enter", "finish"]

# ---- what is lent, as the bytes that the program reads


def empty():
    def record(**fields):
        return fields

    return {
        "depth": 0,
        "count": 0,
        "types": [record(places=0, initial=0, transitions=0, behaviors=0, ports=0) for _ in range(16)],
        "source": [0] * 512,
        "destination": [0] * 512,
        "behaviors": [0] * 128,
        "uses": [0] * 256,
        "places": [0] * 256,
        "transitions": [0] * 256,
        "program": [record(verb=0, id=0, number=0, provider=0, provideport=0) for _ in range(256)],
        "instructions": 0,
        "instances": [record(present=0, kind=0, marked=0, running=0, ended=0, queued=0) for _ in range(32)],
        "queue": [0] * 256,
        "servers": [0] * 512,
        "done": 0,
        "step": record(verb=0, id=0, number=0),
    }


def packed(form, values):
    return struct.pack("<" + form, *values)


def table_bytes(x):
    out = bytes([x["depth"], x["count"]])
    out += b"".join(packed("BIBBB", v.values()) for v in x["types"])
    out += bytes(x["source"]) + bytes(x["destination"]) + packed("128I", x["behaviors"])
    return out + bytes(x["uses"]) + packed("256I", x["places"]) + packed("256I", x["transitions"])


def configuration_bytes(x):
    out = b"".join(packed("BBIIIB", v.values()) for v in x["instances"]) + bytes(x["queue"])
    return out + packed("512H", x["servers"]) + packed("I", [x["done"]])


def lent_bytes(x):
    program = b"".join(bytes(n.values()) for n in x["program"]) + packed("I", [x["instructions"]])
    out = table_bytes(x) + program + configuration_bytes(x) + bytes(x["step"].values())
    assert len(out) == 7021
    return out


def slot_of(user, useport):
    return user * 16 + useport


def server(provider, provideport):
    return 1 + provider * 16 + provideport


def connections(x):
    """Those that stand: (user, useport) and (provider, provideport) of each."""
    return [(divmod(at, 16), divmod(v - 1, 16)) for at, v in enumerate(x["servers"]) if v != 0]


# ---- number 7


def members(mask):
    return {i for i in range(32) if mask >> i & 1}


def below(mask, n):
    return all(i < n for i in members(mask))


def type_is_lawful(x, k):
    v = x["types"][k]
    ends = [(x["source"][k * 32 + t], x["destination"][k * 32 + t]) for t in range(v["transitions"]) if v["transitions"] <= 32]
    ports = [k * 16 + q for q in range(v["ports"]) if v["ports"] <= 16]
    return (
        1 <= v["places"] <= 16
        and v["initial"] != 0
        and below(v["initial"], v["places"])
        and v["transitions"] <= 32
        and all(a < v["places"] and b < v["places"] and a != b for a, b in ends)
        and v["behaviors"] <= 8
        and all(below(x["behaviors"][k * 8 + b], v["transitions"]) for b in range(v["behaviors"]))
        and v["ports"] <= 16
        and all(x["uses"][q] in (0, 1) for q in ports)
        and all(below(x["places"][q], v["places"]) and below(x["transitions"][q], v["transitions"]) for q in ports)
        and not any(x["uses"][q] == 1 and x["places"][q] & v["initial"] for q in ports)
    )


def instruction_is_lawful(x, n):
    if n["verb"] > 5 or n["id"] > 31:
        return False
    word = WORDS[n["verb"]]
    if word == "add":
        return n["number"] < x["count"]
    if word == "pushb":
        return n["number"] <= 7
    if word in ("con", "dcon"):
        return n["number"] <= 15 and n["provider"] <= 31 and n["provideport"] <= 15
    return True


def step_is_lawful(s):
    if s["verb"] > 4:
        return False
    limit = {"next": (256, 256), "fire": (32, 16), "end": (32, 32), "enter": (32, 16), "finish": (32, 256)}[MOVES[s["verb"]]]
    return s["id"] < limit[0] and s["number"] < limit[1]


def instance_is_lawful(x, i):
    v = x["instances"][i]
    if v["kind"] >= x["count"]:
        return False
    kind = x["types"][v["kind"]]
    return (
        below(v["marked"], kind["places"])
        and below(v["running"] | v["ended"], kind["transitions"])
        and v["queued"] <= (x["depth"] or rules.DEFAULT_DEPTH)
        and all(b < kind["behaviors"] for b in x["queue"][i * 8 : i * 8 + v["queued"]])
    )


def connections_are_lawful(x):
    def is_port(i, q, use):
        if i > 31 or not x["instances"][i]["present"]:
            return False
        k = x["instances"][i]["kind"]
        return q < x["types"][k]["ports"] and x["uses"][k * 16 + q] == use

    standing = connections(x)
    return len(standing) <= 64 and all(is_port(*use, 1) and is_port(*provide, 0) and use[0] != provide[0] for use, provide in standing)


def is_lawful(x):
    """No clause of number 7 applies; a clause is tested only where those before it hold."""
    return (
        x["depth"] <= 8
        and 1 <= x["count"] <= 16
        and all(type_is_lawful(x, k) for k in range(x["count"]))
        and x["instructions"] <= 256
        and all(instruction_is_lawful(x, n) for n in x["program"][: x["instructions"]])
        and step_is_lawful(x["step"])
        and x["done"] <= x["instructions"]
        and all(instance_is_lawful(x, i) for i in range(32) if x["instances"][i]["present"])
        and connections_are_lawful(x)
    )


# ---- the rules 10 to 38, on what is lent


def state_of(x):
    types = []
    for k in range(x["count"]):
        v = x["types"][k]
        ends = [(x["source"][k * 32 + t], x["destination"][k * 32 + t]) for t in range(v["transitions"])]
        behaviors = [members(m) for m in x["behaviors"][k * 8 : k * 8 + v["behaviors"]]]
        ports = [(x["uses"][q] == 1, members(x["places"][q]), members(x["transitions"][q])) for q in range(k * 16, k * 16 + v["ports"])]
        types.append(rules.Type(v["places"], members(v["initial"]), ends, behaviors, ports))
    fields = {"del": ["id"], "wait": ["id"], "add": ["id", "number"], "pushb": ["id", "number"]}
    four = ["id", "number", "provider", "provideport"]
    program = [(WORDS[n["verb"]], [n[f] for f in fields.get(WORDS[n["verb"]], four)]) for n in x["program"][: x["instructions"]]]
    state = rules.State(x["depth"] or rules.DEFAULT_DEPTH, types, program)
    for i, v in enumerate(x["instances"]):
        if v["present"]:
            queue = [(b, None) for b in x["queue"][i * 8 : i * 8 + v["queued"]]]
            state.instances[i] = rules.Instance(v["kind"], members(v["marked"]), members(v["running"]), members(v["ended"]), queue)
    state.connections.update(connections(x))
    state.done = x["done"]
    return state


def answer_of(x):
    """The number, and the use port that it is about."""
    if not is_lawful(x):
        return 7, "-"
    word, state = MOVES[x["step"]["verb"]], state_of(x)
    try:
        if word == "next":
            state.next()
        else:
            state.move(word, x["step"]["id"], x["step"]["number"])
    except rules.Refused as step:
        return step.number, step.port
    return 0, "-"


# ---- what an allowed step leaves in every slot


def mask(values):
    return sum(1 << i for i in values)


def carry_out(x, n):
    """An instruction that is allowed, on the slots of x."""
    word, i = WORDS[n["verb"]], n["id"]
    v, own = x["instances"][i], slice(i * 8, i * 8 + 8)
    if word == "add":
        v.update(present=1, kind=n["number"], marked=x["types"][n["number"]]["initial"], running=0, ended=0, queued=0)
        x["queue"][own] = [0] * 8
    if word == "del":
        v.update(present=0, kind=0, marked=0, running=0, ended=0, queued=0)
        x["queue"][own] = [0] * 8
    if word == "pushb":
        x["queue"][i * 8 + v["queued"]] = n["number"]
        v["queued"] += 1
    if word == "con":
        x["servers"][slot_of(i, n["number"])] = server(n["provider"], n["provideport"])
    if word == "dcon":
        x["servers"][slot_of(i, n["number"])] = 0
    x["done"] += 1


def make_move(x, word, i, number):
    """A move that is allowed, on the slots of x."""
    v, at = x["instances"][i], i * 8
    kind = x["types"][v["kind"]]
    behavior = members(x["behaviors"][v["kind"] * 8 + x["queue"][at]])
    ends = {"fire": x["source"], "enter": x["destination"]}.get(word)
    those = mask(t for t in behavior if ends and t < kind["transitions"] and ends[v["kind"] * 32 + t] == number)
    if word == "fire":
        v.update(marked=v["marked"] & ~(1 << number), running=v["running"] | those)
    if word == "end":
        v.update(running=v["running"] & ~(1 << number), ended=v["ended"] | 1 << number)
    if word == "enter":
        v.update(marked=v["marked"] | 1 << number, running=v["running"] & ~those, ended=v["ended"] & ~those)
    if word == "finish":
        x["queue"][at : at + v["queued"]] = x["queue"][at + 1 : at + v["queued"]] + [0]
        v["queued"] -= 1


def stepped(x):
    """The number and the use port it is about, and the bytes of the configuration that move; x itself is moved on."""
    before, (number, port) = configuration_bytes(x), answer_of(x)
    if number == 0:
        word = MOVES[x["step"]["verb"]]
        if word == "next":
            carry_out(x, x["program"][x["done"]])
        else:
            make_move(x, word, x["step"]["id"], x["step"]["number"])
    after = configuration_bytes(x)
    return number, port, [(i, b) for i, (a, b) in enumerate(zip(before, after)) if a != b]
