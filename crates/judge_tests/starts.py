"""The papers with a start that the program `judge_tests` runs, C-20. What a paper must come to is said beside it, as in pairs.py; a paper whose walk is cut in
two comes to what the whole walk comes to."""
from model import judge
from notation import answer, example, move, nexts, sheet
from pairs import A, P, Plus, five, pair, pairs

starts = []


def start(instances=(), connections=()):
    lines = ["start=1", f"instances={len(instances)}"] + [f"instance={x}" for x in instances]
    lines += [f"connections={len(connections)}"] + [f"connection={x}" for x in connections]
    return "".join(x + "\n" for x in lines)


def start_from(report):
    return "start=1\n" + report[report.index("instances=") :]


def encoded(text):
    return None if text is None else text.encode()


def case(name, text, first, steps, accepted, refused, port="-"):
    steps = steps if isinstance(steps, str) else answer(*steps)
    starts.append((name, text.encode(), encoded(first), steps.encode(), (refused, accepted, "neither", 0, port)))


def fault(name, first, line, refused, text=P, steps=answer(), which="start"):
    starts.append((name, text.encode(), encoded(first), steps.encode(), (refused, 0, which, line, "-")))


# ---- the pair up and connected
both = sheet(pair, ["pushb,0,1", "pushb,1,1", "dcon,1,0,0,0", "del,1"])
served = start(["0,0,1,-,-,-", "1,1,1,-,-,-"], ["1,0,0,0"])
down0, down1 = move(0, 1, 1, 0), move(1, 1, 1, 0)
case("start_of_a_running_pair", both, served, [nexts(2), down1, "finish,1", down0, "finish,0", nexts(2)], 12, 0)
case("start_and_no_steps", both, served, [], 0, 0)
case("start_with_nothing_up", P, start(), A, 13, 0)
case("start_without_a_file", P, None, A, 13, 0)
fault("start_of_an_empty_file", "", 1, 2)
case("start_in_use", both, served, [nexts(2), "fire,0,1"], 2, 36)
case("start_in_use_at_dcon", sheet(pair, ["dcon,1,0,0,0"]), served, ["next"], 0, 22)
case("start_connected_at_del", sheet(pair, ["del,0"]), served, ["next"], 0, 18)
case("start_adds_an_id_that_is_up", sheet(pair, ["add,1,0"]), served, ["next"], 0, 12)
case("start_adds_an_id_that_is_not", sheet(pair, ["add,2,1", "con,2,0,0,0", "pushb,2,0"]), served, [nexts(3), move(2, 0, 0, 1), "finish,2"], 7, 0)
case("start_connects_a_port_that_is", sheet(pair, ["con,1,0,0,0"]), served, ["next"], 0, 15)
case("start_deletes_one_that_is_up", sheet(pair, ["del,3", "add,3,1"]), start(["3,0,0+1,-,-,-"]), [nexts(2)], 2, 0)
case("start_deletes_one_with_a_queue", sheet(pair, ["del,3"]), start(["3,0,0,-,-,1"]), ["next"], 0, 21)
case("start_waits_for_its_queue", sheet(pair, ["wait,3"]), start(["3,0,0,-,-,1"]), ["finish,3", "next", "next"], 2, 10)
case("start_begins_at_the_first_line", sheet(pair, five), served, ["next"], 0, 12)

# ---- midway: running, ended, a queue of two
fork = (4, "0", ["0,1", "0,2", "1,3", "2,3"], ["0+1+2+3", "2"], [])
midway = start(["7,0,-,1,0,0+1"])
case("start_midway", sheet([fork], []), midway, ["enter,7,1", "end,7,1", "enter,7,2", "fire,7,1", "fire,7,2", "end,7,2", "end,7,3", "enter,7,3", "finish,7", "finish,7"], 10, 0)
case("start_midway_not_yet_ended", sheet([fork], []), midway, ["enter,7,2"], 0, 31)
case("start_midway_fired_too_soon", sheet([fork], []), start(["7,0,0,1,0,0+1"]), ["fire,7,0"], 0, 33)
case("start_midway_finished_too_early", sheet([fork], []), midway, ["finish,7"], 0, 37)
case("start_with_an_empty_queue", sheet([fork], []), start(["7,0,0,-,-,-"]), ["fire,7,0"], 0, 30)
case("start_with_no_token", sheet([fork], ["del,7"]), start(["7,0,-,-,-,0"]), ["fire,7,0"], 0, 31)
case("start_with_no_token_finishes", sheet([fork], ["del,7"]), start(["7,0,-,-,-,0"]), ["finish,7", "next"], 2, 0)
case("start_with_all_places_marked", sheet([fork], []), start(["7,0,0+1+2+3,-,-,0"]), ["fire,7,0", "end,7,0", "enter,7,1"], 2, 33)
case("start_of_a_queue_that_does_not_ascend", sheet([fork], ["pushb,7,0"]), start(["7,0,3,-,-,1+0+1"]), ["next", "finish,7"], 2, 0)
case("start_served_by_one_that_refuses", Plus, start(["0,0,1,-,-,1", "1,1,0,-,-,0"], ["1,0,0,0"]), ["fire,1,0"], 0, 35)
case("start_in_use_by_one_that_refuses", Plus, start(["0,0,1,-,-,1", "1,1,1,-,-,1"], ["1,0,0,0"]), [down1, "finish,1", down0, "finish,0"], 8, 0)
case("start_held_in_a_use_port", P, start(["0,0,1,-,-,-", "1,1,-,-,0,0"], ["1,0,0,0"]), ["enter,1,1", "finish,1"], 2, 0)
case("start_unconnected", P, start(["1,1,0,-,-,0"]), ["fire,1,0"], 0, 38, 0)
case("start_served_by_an_inactive_port", P, start(["0,0,0,-,-,-", "1,1,0,-,-,0"], ["1,0,0,0"]), ["fire,1,0"], 0, 34, 0)

# ---- the limits
idle = "0,-,-,-,-"
case("start_of_id_31", P, start(["31," + idle]), [], 0, 0)
fault("start_of_id_32", start(["32," + idle]), 3, 3)
case("start_of_32_instances", P, start([f"{i},{idle}" for i in range(32)]), [], 0, 0)
fault("start_of_33_instances", start([f"{i},{idle}" for i in range(33)]), 2, 3)
many = (2, "0", ["0,1"], ["0"], ["use,1,-"] * 15 + ["provide,0,-"])
six = [f"{i},0,0,-,-,-" for i in (0, 1, 2, 3, 4, 31)]
ends = [f"{i},{q},31,15" for i in range(5) for q in range(15)]
full = sheet([many], ["dcon,4,3,31,15", "con,4,4,31,15", "con,4,5,31,15"])
case("start_of_64_connections", full, start(six, ends[:64]), [nexts(3)], 2, 16)
fault("start_of_65_connections", start(six, ends[:65]), 9, 3, text=full)
for depth, count in (0, 8), (3, 3), (1, 1):
    text = sheet(pair, ["pushb,5,1"], depth)
    case(f"start_of_a_queue_of_{count}_at_depth_{depth}", text, start(["5,0,0,-,-," + "+".join("1" * count)]), ["next"], 0, 20)
    fault(f"start_of_a_queue_of_{count + 1}_at_depth_{depth}", start(["5,0,0,-,-," + "+".join("1" * (count + 1))]), 3, 3, text=text)

# ---- the text as a whole
filled = served + "#" * (8192 - len(served))
long_start, long_text = filled + "#", "#" * 32769
fault("start_of_the_greatest_length", filled, 7, 5)
fault("start_too_long", long_start, 0, 1)
fault("start_far_too_long", long_start * 3, 0, 1)
left = 8192 - len(start(["0,0,0,-,-,"]))
queue = "+".join("0" * ((left + 1) // 2)) if left % 2 else "10+" + "+".join("0" * ((left - 2) // 2))
fault("start_of_one_long_queue", start(["0,0,0,-,-," + queue]), 3, 3)
fault("start_of_one_queue_too_long", start(["0,0,0,-,-,1" + queue]), 0, 1)
fault("sheet_and_start_too_long", long_start, 0, 1, text=long_text, which="sheet")
fault("start_and_answer_too_long", long_start, 0, 1, steps=long_text)
fault("sheet_and_answer_too_long", served, 0, 1, text=long_text, steps=long_text, which="sheet")
fault("all_three_too_long", long_start, 0, 1, text=long_text, steps=long_text, which="sheet")
fault("start_too_long_and_faulty_sheet", long_start, 0, 1, text="", steps="")
fault("start_faulty_and_answer_too_long", "", 0, 1, steps=long_text, which="answer")
fault("sheet_and_start_faulty", "start=2\n", 1, 2, text="sheet=3\n", which="sheet")
fault("sheet_going_on_and_start_faulty", "start=2\n", 1 + P.count("\n"), 5, text=P + "#", which="sheet")
fault("start_and_answer_faulty", "start=2\n", 1, 2, steps="")
fault("start_good_and_answer_faulty", served, 1, 2, steps="answer=2\n", which="answer")
fault("start_ended_early", served[: served.index("connections=")], 5, 2)
fault("start_ended_before_an_instance", "start=1\ninstances=1\n", 3, 2)
fault("start_ended_in_a_line", served[:-1], 6, 2)
fault("start_with_a_byte_after", served + "#", 7, 5)
fault("start_with_an_empty_line_after", served + "\n", 7, 5)
fault("start_with_a_connection_after", served + "connection=1,0,0,0\n", 7, 5)
fault("start_that_is_a_report", judge(P.encode(), answer(A).encode()).report, 1, 2)

# ---- an active use port that is not served: 50
alone, inactive = start(["1,1,1,-,-,-"]), start(["0,0,0,-,-,-", "1,1,1,-,-,-"], ["1,0,0,0"])
fault("start_unserved", inactive, 0, 50)
fault("start_unserved_and_unconnected", alone, 0, 50)
fault("start_unserved_while_running", start(["0,0,0,-,-,-", "1,1,-,0,-,0"], ["1,0,0,0"]), 0, 50)
fault("start_unserved_while_ended", start(["1,1,-,-,0,0"]), 0, 50)
fault("start_unserved_by_the_last_of_three", start(["0,0,1,-,-,-", "1,1,1,-,-,-", "2,1,1,-,-,-"], ["1,0,0,0"]), 0, 50)
last = (1, "0", [], [], ["provide,0,-"] * 15 + ["use,-,-"]), (2, "0", [], [], ["provide,0,-"] * 15 + ["use,1,-"])
fault("start_unserved_at_its_last_id_and_port", start(["0,0,0,-,-,-", "31,1,1,-,-,-"]), 0, 50, text=sheet(last, []))
case("start_served_at_its_last_id_and_port", sheet(last, []), start(["0,0,0,-,-,-", "31,1,1,-,-,-"], ["31,15,0,14"]), [], 0, 0)
fault("start_going_on_and_unserved", alone + "#", 5, 5)
fault("start_unserved_and_answer_faulty", alone, 0, 50, steps="answer=2\n")
fault("start_unserved_and_answer_going_on", alone, 0, 50, steps=answer(A) + "#")
fault("start_unserved_and_sheet_faulty", alone, 1, 2, text="", which="sheet")
fault("start_unserved_and_answer_too_long", alone, 0, 1, steps=long_text, which="answer")
case("start_of_an_idle_use_port", P, start(["1,1,0,-,-,-"]), [], 0, 0)

# ---- one line changed: the number, at that line. The instances are of the types 0 (provider), 1 (user) and 2, which has a use and a provide port
third = (3, "0", ["0,1", "1,2"], ["0", "1"], ["use,1,-", "provide,0,-"])
house = sheet(pair + [third], [])
seen = start(["0,0,1,-,-,0", "1,1,1,-,-,-", "4,2,0,0,-,0+1"], ["1,0,0,0", "4,0,0,0"])
case("start_of_three", house, seen, ["end,4,0", "enter,4,1", "finish,4"], 2, 37)
for name, old, new, refused in (
    ("first_line_of_another_number", "start=1", "start=2", 2),
    ("first_line_left_out", "start=1\ninstances=3", "instances=3", 2),
    ("instances_left_out", "instances=3\ninstance=0,0,1,-,-,0", "instance=0,0,1,-,-,0", 2),
    ("instances_of_six_digits", "instances=3", "instances=100000", 2),
    ("carriage_return", "instances=3", "instances=3\r", 2),
    ("instance_of_five_fields", "instance=1,1,1,-,-,-", "instance=1,1,1,-,-", 2),
    ("instance_of_seven_fields", "instance=1,1,1,-,-,-", "instance=1,1,1,-,-,-,-", 2),
    ("instance_of_another_key", "instance=1,1,1,-,-,-", "instances=1,1,1,-,-,-", 2),
    ("list_that_descends", "instance=1,1,1,-,-,-", "instance=1,1,1+0,-,-,-", 2),
    ("list_missing", "instance=1,1,1,-,-,-", "instance=1,1,1,,-,-", 2),
    ("queue_missing", "instance=1,1,1,-,-,-", "instance=1,1,1,-,-,", 2),
    ("queue_with_a_plus_after", "instance=1,1,1,-,-,-", "instance=1,1,1,-,-,0+", 2),
    ("queue_of_a_leading_zero", "instance=1,1,1,-,-,-", "instance=1,1,1,-,-,00", 2),
    ("empty_queue_and_a_member", "instance=1,1,1,-,-,-", "instance=1,1,1,-,-,-+0", 2),
    ("bad_form_before_a_type", "instance=1,1,1,-,-,-", "instance=1,3,1,-,-,x", 2),
    ("queue_in_place_of_a_list", "instance=4,2,0,0,-,0+1", "instance=4,2,0,0+0,-,0+1", 2),
    ("connection_of_three_numbers", "connection=1,0,0,0", "connection=1,0,0", 2),
    ("connection_of_bad_form_before_past_the_ids", "connection=1,0,0,0", "connection=32,0,0,x", 2),
    ("connections_of_bad_form", "connections=2", "connections=+2", 2),
    ("past_the_types", "instance=1,1,1,-,-,-", "instance=1,3,1,-,-,-", 3),
    ("past_the_places", "instance=1,1,1,-,-,-", "instance=1,1,1+2,-,-,-", 3),
    ("past_the_running", "instance=1,1,1,-,-,-", "instance=1,1,1,2,-,0", 3),
    ("past_the_ended", "instance=1,1,1,-,-,-", "instance=1,1,1,-,2,0", 3),
    ("past_the_behaviors", "instance=1,1,1,-,-,-", "instance=1,1,1,-,-,0+2", 3),
    ("past_the_users", "connection=1,0,0,0", "connection=32,0,0,0", 3),
    ("past_the_use_ports", "connection=1,0,0,0", "connection=1,1,0,0", 3),
    ("past_the_providers", "connection=1,0,0,0", "connection=1,0,32,0", 3),
    ("past_the_provide_ports", "connection=1,0,0,0", "connection=1,0,0,1", 3),
    ("port_16_of_an_absent_user", "connection=1,0,0,0", "connection=9,16,0,0", 3),
    ("port_past_the_type_beside_an_absent_user", "connection=1,0,0,0", "connection=9,0,0,1", 3),
    ("port_past_the_type_beside_an_absent_provider", "connection=1,0,0,0", "connection=1,1,9,0", 3),
    ("id_twice", "instance=1,1,1,-,-,-", "instance=0,1,1,-,-,-", 4),
    ("id_that_falls", "instance=4,2,0,0,-,0+1", "instance=0,2,0,0,-,0+1", 4),
    ("running_and_ended", "instance=4,2,0,0,-,0+1", "instance=4,2,0,0,0,0+1", 4),
    ("running_outside_the_head", "instance=4,2,0,0,-,0+1", "instance=4,2,0,1,-,0+1", 4),
    ("ended_outside_the_head", "instance=4,2,0,0,-,0+1", "instance=4,2,0,-,0,1+0", 4),
    ("running_without_a_queue", "instance=4,2,0,0,-,0+1", "instance=4,2,0,0,-,-", 4),
    ("ended_without_a_queue", "instance=4,2,0,0,-,0+1", "instance=4,2,0,-,0,-", 4),
    ("absent_user", "connection=1,0,0,0", "connection=9,15,0,0", 4),
    ("absent_provider", "connection=1,0,0,0", "connection=1,0,9,15", 4),
    ("both_absent", "connection=1,0,0,0", "connection=9,15,8,15", 4),
    ("provide_port_as_user", "connection=1,0,0,0", "connection=0,0,4,1", 4),
    ("use_port_as_provider", "connection=1,0,0,0", "connection=1,0,4,0", 4),
    ("both_ends_one_instance", "connection=4,0,0,0", "connection=4,0,4,1", 4),
    ("use_port_twice", "connection=4,0,0,0", "connection=1,0,4,1", 4),
    ("users_that_fall", "connection=1,0,0,0\nconnection=4,0,0,0", "connection=4,0,0,0\nconnection=1,0,0,0", 4),
    ("id_twice_and_past_the_types", "instance=1,1,1,-,-,-", "instance=0,3,1,-,-,-", 3),
    ("running_and_ended_past_the_transitions", "instance=4,2,0,0,-,0+1", "instance=4,2,0,2,2,0+1", 3),
    ("outside_the_head_and_past_the_behaviors", "instance=4,2,0,0,-,0+1", "instance=4,2,0,1,-,0+2", 3),
    ("without_a_queue_and_past_the_places", "instance=4,2,0,0,-,0+1", "instance=4,2,3,0,-,-", 3),
    ("use_port_twice_and_past_the_ports", "connection=4,0,0,0", "connection=1,0,4,2", 3),
    ("one_instance_and_past_the_ports", "connection=4,0,0,0", "connection=4,0,4,2", 3),
    ("wrong_kind_and_past_the_ports", "connection=1,0,0,0", "connection=0,0,4,2", 3),
    ("first_of_two_faults_decides", "instance=1,1,1,-,-,-\ninstance=4,2,0,0,-,0+1", "instance=0,1,1,-,-,-\ninstance=4,2,0,9,-,0+1", 4),
):
    assert seen.count("\n" + old + "\n") == 1 or seen.startswith(old + "\n")
    at = ("\n" + seen).index("\n" + old + "\n")
    changed = seen[:at] + new + seen[at + len(old) :]
    line = seen[:at].count("\n") + 1 + (name == "users_that_fall")
    fault("start_" + name, changed, line, refused, text=house)

# ports of a type that has both kinds rise within one user too
double = (2, "0", ["0,1"], ["0"], ["provide,0,-", "use,1,-", "use,1,-"])
doubled = sheet([double], [])
two = ["0,0,0,-,-,-", "1,0,0,-,-,-"]
case("start_of_ports_that_rise", doubled, start(two, ["0,1,1,0", "0,2,1,0", "1,1,0,0"]), [], 0, 0)
fault("start_of_ports_that_fall", start(two, ["0,2,1,0", "0,1,1,0", "1,1,0,0"]), 7, 4, text=doubled)


# ---- the example of a second-year paper, which starts where the answer of the first-year one ends
second, running = example("sheet", "second-year"), example("start", "second-year")
assert running == start_from(judge(example("sheet").encode(), example("answer").encode()).report)
case("second_year", second, running, example("answer", "second-year"), 37, 0)
case("second_year_disconnected_in_use", second, running, example("disconnected-in-use", "second-year"), 3, 22)
case("second_year_started_before_its_server", second, running, example("started-before-its-server", "second-year"), 18, 34, 1)


# ---- the report of a walk fed back as a start
def cut(text, steps, first):
    """The walk in two: the sheet, the start and the answer of what is left after the first steps."""
    lines = steps.decode().splitlines()[2:]
    reached = start_from(judge(text, answer(*(x[5:] for x in lines[:first])).encode()).report)
    whole = text.decode()
    program = whole.index("program=")
    left = whole[program:].splitlines()[1 + lines[:first].count("step=next") :]
    rest = whole[:program] + f"program={len(left)}\n" + "".join(x + "\n" for x in left)
    return rest.encode(), reached.encode(), answer(*(x[5:] for x in lines[first:])).encode()


def cut_comes_to_the_same(text, steps, first):
    whole, (rest, reached, left) = judge(text, steps), cut(text, steps, first)
    found = judge(rest, left, start=reached)
    same = whole.refused, whole.accepted - first, whole.port, start_from(whole.report)
    return same == (found.refused, found.accepted, found.port, start_from(found.report))


def check_cuts():
    """Every walk of pairs.py, cut at each of some forty places."""
    for name, text, steps, said in walked:
        for first in range(0, said[1] + 1, 1 + said[1] // 40):
            if not cut_comes_to_the_same(text, steps, first):
                raise SystemExit(f"{name}: cut after {first} steps it comes to something else")


walked = [(name, text, steps, said) for name, text, steps, said in pairs if said[2] == "neither" and said[1] > 0]
for name, text, steps, said in walked:
    if name.split("_")[0] in ("pair", "maintenance", "all") or name in ("midway", "join", "connection_65", "ended_still_holds", "concerto_maintain", "concerto_update", "concerto_d_two_listeners", "madeus_commissioning"):
        first = said[1] * 2 // 3
        starts.append((f"cut_{name}", *cut(text, steps, first), (said[0], said[1] - first, "neither", 0, said[4])))
