"""The pairs of texts that the program `judge_tests` runs. What a pair must come to is said beside it: the steps accepted, the number and at 34 and 38 the
use port, or the text, the line and the number of a fault."""
from notation import answer, example, flat, move, nexts, sheet
from papers import papers

provider = (2, "0", ["0,1", "1,0"], ["0", "1"], ["provide,1,-"])
user = (2, "0", ["0,1", "1,0"], ["0", "1"], ["use,1,0"])
pair = [provider, user]
five = ["add,0,0", "add,1,1", "con,1,0,0,0", "pushb,0,0", "pushb,1,0"]
P = sheet(pair, five)
Plus = sheet(pair, five + ["pushb,0,1"])
up0, up1 = move(0, 0, 0, 1), move(1, 0, 0, 1)
A = [nexts(5), up0, up1, "finish,0", "finish,1"]

pairs = []


def case(name, text, steps, accepted, refused, port="-"):
    """Two texts that are read: the steps accepted, the number or 0, and the use port of a 34 or 38."""
    steps = steps if isinstance(steps, str) else answer(*steps)
    pairs.append((name, text.encode(), steps.encode(), (refused, accepted, "neither", 0, port)))


def fault(name, text, steps, which, line, refused):
    """A text that is refused: which one, the line from 1 (0 for number 1), and the number."""
    pairs.append((name, text.encode(), steps.encode(), (refused, 0, which, line, "-")))


# ---- the pair's cases
case("pair", P, A, 13, 0)
case("pair_finish_earlier", P, [nexts(5), up0, "finish,0", up1, "finish,1"], 13, 0)
case("pair_provider_inactive", P, [nexts(5), "fire,1,0"], 5, 34, 0)
case("pair_provider_refusing", Plus, [nexts(6), up0, "finish,0", "fire,1,0"], 10, 35)
case("pair_service_in_use", Plus, [nexts(6), up0, "fire,1,0", "finish,0", "fire,0,1"], 11, 36)
case("pair_no_instruction_left", P, [nexts(6)], 5, 10)
for name, step, number in (("finish_too_early", "finish,1", 37), ("fire_of_absent", "fire,2,0", 11), ("end_not_running", "end,0,0", 31), ("enter_not_ended", "enter,0,1", 31), ("enter_no_transition", "enter,0,0", 32)):
    case("pair_" + name, P, [nexts(5), step], 5, number)
case("pair_second_finish", P, [A, "finish,0"], 13, 30)
case("pair_no_steps", P, [], 0, 0)

# ---- queues
pushes = ["add,0,0"] + ["pushb,0,0"] * 9
case("eight_pushes_at_depth_0", sheet(pair, pushes), [nexts(9)], 9, 0)
case("ninth_push_at_depth_0", sheet(pair, pushes), [nexts(10)], 9, 20)
case("four_pushes_at_depth_4", sheet(pair, pushes, 4), [nexts(5)], 5, 0)
case("fifth_push_at_depth_4", sheet(pair, pushes, 4), [nexts(6)], 5, 20)
case("second_push_at_depth_1", sheet(pair, ["add,0,0", "pushb,0,0", "pushb,0,1"], 1), [nexts(3)], 2, 20)
eight = sheet(pair, ["add,0,0"] + ["pushb,0,1"] * 9, 8)
case("eighth_push_at_depth_8", eight, [nexts(9)], 9, 0)
case("ninth_push_at_depth_8", eight, [nexts(10)], 9, 20)
case("queue_does_not_ascend", sheet(pair, ["add,0,0", "pushb,0,1", "pushb,0,0", "pushb,0,1"]), [nexts(4)], 4, 0)
case("head_goes_rest_moves_up", sheet(pair, ["add,0,0", "pushb,0,1", "pushb,0,0", "pushb,0,1"]), [nexts(4), "finish,0"], 5, 0)
case("push_of_no_such_behavior", sheet(pair, ["add,0,0", "pushb,0,2"]), [nexts(2)], 1, 13)
case("push_to_absent", sheet(pair, ["pushb,0,0"]), [nexts(1)], 0, 11)
case("wait_for_queue", sheet(pair, ["add,0,0", "pushb,0,0", "wait,0"]), [nexts(3)], 2, 21)
case("wait_of_absent", sheet(pair, ["wait,0"]), [nexts(1)], 0, 11)
case("wait_after_finish", sheet(pair, ["add,0,0", "pushb,0,0", "wait,0"]), [nexts(2), up0, "finish,0", "next"], 7, 0)

# ---- instances
case("add_twice", sheet(pair, ["add,0,0", "add,0,1"]), [nexts(2)], 1, 12)
case("del_of_absent", sheet(pair, ["del,0"]), [nexts(1)], 0, 11)
case("del_with_queue", sheet(pair, ["add,0,0", "pushb,0,0", "del,0"]), [nexts(3)], 2, 21)
case("del_of_connected_with_queue", sheet(pair, five + ["del,0"]), [nexts(6)], 5, 18)
case("del_of_connected_user", sheet(pair, five[:3] + ["del,1"]), [nexts(4)], 3, 18)
case("old_marks_gone", sheet(pair, ["add,0,0", "pushb,0,0", "del,0", "add,0,1"]), [nexts(2), up0, "finish,0", nexts(2)], 8, 0)

# ---- connections
case("both_ends_one_instance", sheet([(2, "0", ["0,1"], ["0"], ["use,1,-", "provide,1,-"])], ["add,0,0", "con,0,0,0,1"]), [nexts(2)], 1, 14)
case("con_of_absent_provider_and_wrong_port", sheet(pair, ["add,1,1", "con,1,9,0,0"]), [nexts(2)], 1, 11)
case("con_wrong_kind_of_use_port", sheet(pair, ["add,0,0", "add,2,0", "con,0,0,2,0"]), [nexts(3)], 2, 13)
case("con_wrong_kind_of_provide_port", sheet(pair, ["add,1,1", "add,3,1", "con,1,0,3,0"]), [nexts(3)], 2, 13)
case("con_no_such_port", sheet(pair, ["add,0,0", "add,1,1", "con,1,1,0,0"]), [nexts(3)], 2, 13)
case("use_port_connected_twice", sheet(pair, ["add,0,0", "add,2,0", "add,1,1", "con,1,0,0,0", "con,1,0,2,0"]), [nexts(5)], 4, 15)
case("provide_port_serves_many", sheet(pair, ["add,0,0", "add,2,1", "add,1,1", "con,2,0,0,0", "con,1,0,0,0"]), [nexts(5)], 5, 0)
many = (2, "0", ["0,1"], ["0"], ["use,1,-"] * 15 + ["provide,0,-"])
lines = ["add,31,0"] + [f"add,{i},0" for i in range(5)] + [f"con,{i},{q},31,15" for i in range(5) for q in range(15)]
case("connection_64", sheet([many], lines[: 6 + 64]), [nexts(70)], 70, 0)
case("connection_65", sheet([many], lines[: 6 + 65]), [nexts(71)], 70, 16)
falling = ["add,31,0"] + [f"add,{i},0" for i in range(4, -1, -1)] + [f"con,{i},{q},31,15" for i in range(4, -1, -1) for q in range(14, -1, -1)]
case("connections_in_falling_order", sheet([many], falling[: 6 + 64]), [nexts(70)], 70, 0)
case("connections_in_falling_order_one_gone", sheet([many], falling[: 6 + 64] + ["dcon,3,7,31,15", "con,0,0,31,15", "dcon,4,14,31,15"]), [nexts(73)], 73, 0)
last = (2, "0", ["0,1"], ["0"], ["provide,0,-"] + ["use,1,-"] * 15)
case("first_and_last_slot", sheet([last], ["add,31,0", "add,0,0", "con,31,15,0,0", "con,0,1,31,0", "con,31,1,0,0", "con,0,15,31,0"]), [nexts(6)], 6, 0)
case("con_dcon_con_of_one_port", sheet(pair, ["add,0,0", "add,2,0", "add,1,1", "con,1,0,0,0", "dcon,1,0,0,0", "con,1,0,2,0"]), [nexts(6)], 6, 0)
case("del_of_a_mere_provider", sheet(pair, five[:3] + ["del,0"]), [nexts(4)], 3, 18)
case("del_after_its_last_user", sheet(pair, five[:3] + ["dcon,1,0,0,0", "del,0"]), [nexts(5)], 5, 0)
case("dcon_of_absent", sheet(pair, ["dcon,7,0,8,0"]), [nexts(1)], 0, 17)
case("dcon_of_another_provider", sheet(pair, five[:3] + ["add,2,0", "dcon,1,0,2,0"]), [nexts(5)], 4, 17)
case("dcon_of_active_use_port", sheet(pair, five + ["dcon,1,0,0,0"]), [nexts(5), up0, up1, "next"], 11, 22)
case("dcon_closes_the_gap", sheet(pair, ["add,0,0", "add,2,1", "add,1,1", "add,3,1", "con,2,0,0,0", "con,1,0,0,0", "con,3,0,0,0", "dcon,1,0,0,0"]), [nexts(8)], 8, 0)

# ---- moves
fork = (4, "0", ["0,1", "0,2", "1,3", "2,3"], ["0+1+2+3"], [])
forked = sheet([fork], ["add,0,0", "pushb,0,0"])
both = [nexts(2), "fire,0,0", "end,0,0", "enter,0,1", "end,0,1", "enter,0,2", "fire,0,1", "fire,0,2", "end,0,2"]
case("fork", forked, [nexts(2), "fire,0,0"], 3, 0)
case("join_too_early", forked, [both, "enter,0,3"], 10, 31)
case("join", forked, [both, "end,0,3", "enter,0,3", "finish,0"], 13, 0)
case("fire_not_marked", forked, [nexts(2), "fire,0,1"], 2, 31)
case("fire_of_no_such_place", forked, [nexts(2), "fire,0,15"], 2, 32)
case("end_of_no_such_transition", forked, [nexts(2), "end,0,31"], 2, 31)
case("move_with_empty_queue", sheet([fork], ["add,0,0"]), [nexts(1), "fire,0,0"], 1, 30)
case("end_with_empty_queue", sheet([fork], ["add,0,0"]), [nexts(1), "end,0,0"], 1, 30)
cycle = (3, "0+2", ["0,1", "2,0", "1,2"], ["0+1+2"], [])
turned = sheet([cycle], ["add,0,0", "pushb,0,0"])
case("leaving_transition_held", turned, [nexts(2), "fire,0,0", "fire,0,2", "end,0,1", "enter,0,0", "fire,0,0"], 6, 33)
case("place_already_marked", turned, [nexts(2), "fire,0,2", "end,0,1", "enter,0,0"], 4, 33)
case("leaving_transition_ended", turned, [nexts(2), "fire,0,0", "end,0,0", "fire,0,2", "end,0,1", "enter,0,0", "fire,0,0"], 7, 33)

# ---- ports
only = (2, "0", ["0,1", "1,0"], ["0", "1"], ["provide,-,0"])
case("group_is_a_transition", sheet([only, user], five), [nexts(5), "fire,0,0", "fire,1,0", "end,0,0", "enter,0,1"], 8, 36)
case("group_is_a_transition_too_soon", sheet([only, user], five), [nexts(5), "fire,1,0"], 5, 34, 0)
two = (3, "0+1", ["0,2", "1,2"], ["0", "1"], ["provide,0+1,-"])
stays = sheet([two, user], ["add,0,0", "add,1,1", "con,1,0,0,0", "pushb,0,0", "pushb,1,0", "pushb,0,1"])
case("one_of_two_tokens_leaves", stays, [nexts(6), up1, "fire,0,0", "end,0,0", "enter,0,2", "finish,0", "fire,0,1"], 13, 36)
case("two_tokens_do_not_refuse", sheet([(3, "0+1", ["0,2", "1,2"], ["0+1"], ["provide,0+1,-"]), user], five), [nexts(5), "fire,1,0"], 6, 0)
case("last_token_refuses", sheet([(3, "0+1", ["0,2", "1,2"], ["0+1"], ["provide,0+1,-"]), user], five), [nexts(5), "fire,0,0", "fire,1,0"], 6, 35)
ended0 = [nexts(5), "fire,0,0", "end,0,0"]
case("about_to_enter_refuses", sheet([only, user], five), [ended0, "fire,1,0"], 7, 35)
case("still_running_does_not_refuse", sheet([only, user], five), [nexts(5), "fire,0,0", "fire,1,0"], 7, 0)
case("about_to_enter_its_group_does_not_refuse", sheet([(2, "0", ["0,1", "1,0"], ["0", "1"], ["provide,1,0"]), user], five), [ended0, "fire,1,0"], 8, 0)
case("about_to_enter_a_marked_place_does_not_refuse", sheet([(2, "0+1", ["0,1"], ["0"], ["provide,-,0"]), user], five), [ended0, "fire,1,0"], 8, 0)
case("about_to_enter_one_of_two_does_not_refuse", sheet([(3, "0", ["0,1", "0,2"], ["0+1"], ["provide,-,0+1"]), user], five), [ended0, "end,0,1", "fire,1,0"], 9, 0)
case("about_to_enter_the_last_of_two_refuses", sheet([(3, "0", ["0,1", "0,2"], ["0+1"], ["provide,-,0+1"]), user], five), [ended0, "end,0,1", "enter,0,1", "fire,1,0"], 9, 35)
joins = sheet([(3, "0+1", ["0,2", "1,2"], ["0+1"], ["provide,-,0+1"]), user], five)
case("half_a_join_does_not_refuse", joins, [ended0, "fire,0,1", "fire,1,0"], 9, 0)
case("a_whole_join_refuses", joins, [ended0, "fire,0,1", "end,0,1", "fire,1,0"], 9, 35)
case("about_to_enter_refuses_who_enters", sheet([only, (2, "0", ["0,1"], ["0"], ["use,1,-"])], five), [ended0, "fire,1,0", "end,1,0", "enter,1,1"], 9, 35)
case("user_already_in_stays_though_about_to_enter", sheet([only, user], five), [nexts(5), "fire,0,0", "fire,1,0", "end,0,0", "end,1,0", "enter,1,1"], 10, 0)
leaves = (3, "0", ["0,1", "1,2"], ["0", "1"], ["provide,0,0"])
case("in_use_at_enter", sheet([leaves, user], five), [nexts(5), "fire,0,0", up1, "end,0,0", "enter,0,1"], 10, 36)
case("unconnected", sheet(pair, ["add,0,0", "add,1,1", "pushb,1,0"]), [nexts(3), "fire,1,0"], 3, 38, 0)
case("entered_unserved", sheet([provider, (2, "0", ["0,1"], ["0"], ["use,1,-"])], five), [nexts(5), "fire,1,0", "end,1,0", "enter,1,1"], 7, 34, 0)
case("user_already_in_stays_though_refusing", Plus, [nexts(6), up0, "fire,1,0", "finish,0", "end,1,0", "enter,1,1"], 13, 0)
case("ended_still_holds", Plus, [nexts(6), up0, "fire,1,0", "end,1,0", "finish,0", "fire,0,1"], 12, 36)
case("fire_blocked_so_no_finish", Plus, [nexts(6), up0, up1, "finish,0", "finish,0"], 13, 37)
case("refusing_gone_with_the_queue", sheet(pair, five), [nexts(5), up0, "finish,0", "fire,1,0"], 10, 0)
case("lowest_check_over_all_ports_first", sheet([provider, (3, "0", ["0,1"], ["0"], ["provide,0,-", "use,1,0"]), (2, "0", ["0,1"], ["0"], ["use,1,0"])], ["add,0,0", "add,1,1", "add,2,2", "con,2,0,1,0", "pushb,2,0", "pushb,1,0"]), [nexts(6), "fire,1,0"], 6, 38, 1)
up = (1, "0", [], [], ["provide,0,-"])
between = (3, "0", ["0,1"], ["0"], ["provide,0,-", "use,1,0"])
goes = (2, "0", ["0,1"], ["0"], ["use,1,0"])
chain = ["add,0,0", "add,1,1", "add,2,2", "con,2,0,1,0", "pushb,2,0", "pushb,1,0"]
case("unconnected_before_in_use", sheet([provider, between, goes], chain), [nexts(5), "fire,2,0", "next", "fire,1,0"], 7, 38, 1)
case("unserved_before_in_use", sheet([provider, between, goes], chain + ["con,1,1,0,0"]), [nexts(5), "fire,2,0", nexts(2), "fire,1,0"], 8, 34, 1)


def wired(ports, *connections):
    """Instance 0 provides, 1 is to provide, 2 uses by ports that its fire makes active."""
    return sheet([up, provider, (2, "0", ["0,1"], ["0"], ports)], ["add,0,0", "add,1,1", "add,2,2", "pushb,2,0"] + list(connections))


three = ["use,1,0"] * 3
case("unconnected_before_a_lower_unserved", wired(three, "con,2,0,0,0", "con,2,1,1,0"), [nexts(6), "fire,2,0"], 6, 38, 2)
case("the_lower_of_two_unconnected", wired(three, "con,2,0,0,0"), [nexts(5), "fire,2,0"], 5, 38, 1)
case("the_lower_of_two_unserved", wired(three, "con,2,0,0,0", "con,2,1,1,0", "con,2,2,1,0"), [nexts(7), "fire,2,0"], 7, 34, 1)
case("idle_and_provide_ports_are_not_concerned", wired(["use,-,-", "provide,0,-", "use,1,-", "use,-,0"]), [nexts(4), "fire,2,0"], 4, 38, 3)
case("the_last_port_is_concerned", wired(["use,-,-"] * 15 + ["use,1,0"], "con,2,15,1,0"), [nexts(5), "fire,2,0"], 5, 34, 15)
case("unconnected_at_enter", wired(["use,1,-"]), [nexts(4), "fire,2,0", "end,2,0", "enter,2,1"], 6, 38, 0)
case("midway", sheet(pair, ["add,0,0", "add,2,1", "add,1,1", "con,2,0,0,0", "con,1,0,0,0", "pushb,0,0", "pushb,0,1", "pushb,0,0", "add,3,0", "pushb,3,0", "wait,1"]), [nexts(10), "fire,0,0", "fire,3,0", "end,3,0"], 13, 0)

# ---- a long walk over all instances and connections
busy = (3, "0", ["0,1", "1,2", "2,1", "1,0"], ["0+1", "2+3"], ["provide,0+1+2,0+1+2+3"] + ["use,1+2,0+1+2"] * 2)
adds = [f"add,{i},0" for i in range(32)] + [f"con,{i},{q},{(i + q) % 32},0" for i in range(32) for q in (1, 2)]
queues = [f"pushb,{i},{b}" for b in (0, 1, 0, 1) for i in range(32)]
ways = (((0, 0, 1), (1, 1, 2)), ((2, 2, 1), (3, 1, 0)))
turns = [nexts(32 + 64)] + [nexts(32) + [y for i in range(32) for x, a, b in ways[k % 2] for y in move(i, x, a, b)] + [f"finish,{i}" for i in range(32)] for k in range(4)]
case("all_busy", sheet([busy], adds + queues, 8), [list(flat(turns))[:1024]], 1024, 0)

# ---- the example of the README
case("maintenance", example("sheet"), example("answer"), 50, 0)
case("maintenance_started_before_its_server", example("sheet"), example("started-before-its-server"), 19, 34, 1)
case("maintenance_stopped_under_its_client", example("sheet"), example("stopped-under-its-client"), 29, 36)

# ---- an old sheet that relies on 4, and the same sheet rewritten
old = example("sheet", "old-sheet")
case("old_sheet", old, example("answer", "old-sheet"), 6, 0)
case("old_sheet_rewritten", old.replace("depth=0", "depth=4"), example("answer", "old-sheet"), 5, 20)

# ---- the worked examples of the source papers
for row in papers:
    case(*row)

# ---- the two texts as wholes
good = answer(A)
last = P.count("\n")
filled = P + "#" * (32768 - len(P))
fault("empty_sheet", "", good, "sheet", 1, 2)
fault("empty_answer", P, "", "answer", 1, 2)
fault("both_empty", "", "", "sheet", 1, 2)
fault("sheet_of_the_greatest_length", filled, good, "sheet", last + 1, 5)
fault("sheet_too_long", filled + "#", good, "sheet", 0, 1)
fault("sheet_far_too_long", filled + filled, good, "sheet", 0, 1)
fault("answer_of_the_greatest_length", P, good + "#" * (32768 - len(good)), "answer", 16, 5)
fault("answer_too_long", P, good + "#" * (32769 - len(good)), "answer", 0, 1)
fault("both_too_long", filled + "#", filled + "#", "sheet", 0, 1)
fault("answer_too_long_and_faulty_sheet", "", filled + "#", "answer", 0, 1)
fault("both_faulty", "sheet=3\n", "answer=2\n", "sheet", 1, 2)
fault("sheet_ended_early", P[: P.index("program=")], good, "sheet", 26, 2)
fault("sheet_ended_in_a_line", P[:-1], good, "sheet", last, 2)
fault("sheet_with_a_byte_after", P + "#", good, "sheet", last + 1, 5)
fault("sheet_with_an_empty_line_after", P + "\n", good, "sheet", last + 1, 5)
fault("sheet_with_lines_after", P + "do=wait,0\ndo=wait,1\n", good, "sheet", last + 1, 5)
fault("answer_ended_early", P, "answer=1\nsteps=2\nstep=next\n", "answer", 4, 2)
fault("answer_ended_in_a_line", P, "answer=1\nsteps=1\nstep=next", "answer", 3, 2)
fault("answer_with_a_step_after", P, "answer=1\nsteps=0\nstep=next\n", "answer", 3, 5)

# ---- one line of a sheet or of an answer changed: the number, at that line
example_answer = answer(nexts(5), up0, "finish,0")


def changed(name, text, old, new, refused):
    """The first line `old` becomes `new` in the sheet P or in the answer."""
    whole, start = (P if text == "sheet" else example_answer), 0
    place = ("\n" + whole).index("\n" + old + "\n", start)
    line = 1 + whole[:place].count("\n")
    texts = {"sheet": P, "answer": example_answer, text: whole[:place] + new + whole[place + len(old) :]}
    fault(name, texts["sheet"], texts["answer"], text, line, refused)


for name, old, new, refused in (
    ("first_line_of_another_number", "sheet=1", "sheet=3", 2),
    ("first_line_of_a_great_number", "sheet=1", "sheet=99999", 2),
    ("key_in_upper_case", "depth=0", "Depth=0", 2),
    ("line_left_out", "depth=0\ntypes=2", "types=2", 2),
    ("line_empty", "depth=0", "", 2),
    ("blank_before_a_key", "depth=0", " depth=0", 2),
    ("blank_after_a_number", "depth=0", "depth=0 ", 2),
    ("carriage_return", "depth=0", "depth=0\r", 2),
    ("number_missing", "depth=0", "depth=", 2),
    ("number_with_a_sign", "depth=0", "depth=+1", 2),
    ("number_with_a_leading_zero", "depth=0", "depth=01", 2),
    ("number_zero_twice", "depth=0", "depth=00", 2),
    ("number_of_six_digits", "depth=0", "depth=100000", 2),
    ("number_of_five_digits", "depth=0", "depth=99999", 3),
    ("depth_past_8", "depth=0", "depth=9", 3),
    ("types_none", "types=2", "types=0", 3),
    ("types_past_16", "types=2", "types=17", 3),
    ("type_not_the_one_due", "type=0", "type=1", 2),
    ("type_of_a_great_number", "type=1", "type=99999", 2),
    ("places_none", "places=2", "places=0", 3),
    ("places_past_16", "places=2", "places=17", 3),
    ("initial_empty", "initial=0", "initial=-", 4),
    ("initial_past_the_places", "initial=0", "initial=0+2", 3),
    ("list_of_equal_members", "initial=0", "initial=0+0", 2),
    ("list_that_descends", "initial=0", "initial=1+0", 2),
    ("list_that_descends_past_the_limit", "initial=0", "initial=99999+5", 2),
    ("list_with_a_plus_after", "initial=0", "initial=0+", 2),
    ("list_with_a_plus_before", "initial=0", "initial=+0", 2),
    ("list_empty_and_a_member", "initial=0", "initial=-0", 2),
    ("list_missing", "initial=0", "initial=", 2),
    ("transitions_past_32", "transitions=2", "transitions=33", 3),
    ("tran_of_one_place", "tran=0,1", "tran=0,0", 4),
    ("tran_past_the_places", "tran=0,1", "tran=0,2", 3),
    ("tran_past_the_places_before_one_place", "tran=0,1", "tran=2,2", 3),
    ("tran_of_bad_form_before_past_the_places", "tran=0,1", "tran=2,x", 2),
    ("tran_of_three_numbers", "tran=0,1", "tran=0,1,1", 2),
    ("tran_of_one_number", "tran=0,1", "tran=0", 2),
    ("behaviors_past_8", "behaviors=2", "behaviors=9", 3),
    ("behavior_past_the_transitions", "behavior=1", "behavior=0+2", 3),
    ("ports_past_16", "ports=1", "ports=17", 3),
    ("port_of_another_kind", "port=provide,1,-", "port=serve,1,-", 2),
    ("port_past_the_places", "port=provide,1,-", "port=provide,2,-", 3),
    ("port_past_the_transitions", "port=provide,1,-", "port=provide,1,2", 3),
    ("port_in_use_with_an_initial_place", "port=use,1,0", "port=use,0+1,0", 4),
    ("port_past_the_places_before_an_initial_place", "port=use,1,0", "port=use,0+2,0", 3),
    ("port_of_bad_form_before_past_the_places", "port=use,1,0", "port=use,0+2,", 2),
    ("port_of_two_fields", "port=use,1,0", "port=use,1", 2),
    ("program_past_256", "program=5", "program=257", 3),
    ("unknown_instruction", "do=pushb,0,0", "do=push,0,0", 2),
    ("instruction_of_too_few_numbers", "do=pushb,0,0", "do=pushb,0", 2),
    ("instruction_of_too_many_numbers", "do=pushb,0,0", "do=pushb,0,0,0", 2),
    ("instruction_of_bad_form_before_past_the_ids", "do=add,0,0", "do=add,99,x", 2),
    ("add_past_the_ids", "do=add,0,0", "do=add,32,0", 3),
    ("add_past_the_types", "do=add,0,0", "do=add,0,2", 3),
    ("del_past_the_ids", "do=add,0,0", "do=del,32", 3),
    ("wait_past_the_ids", "do=add,0,0", "do=wait,32", 3),
    ("pushb_past_the_ids", "do=pushb,0,0", "do=pushb,32,0", 3),
    ("pushb_past_the_behaviors", "do=pushb,0,0", "do=pushb,0,8", 3),
    ("con_past_the_users", "do=con,1,0,0,0", "do=con,32,0,0,0", 3),
    ("con_past_the_use_ports", "do=con,1,0,0,0", "do=con,1,16,0,0", 3),
    ("con_past_the_providers", "do=con,1,0,0,0", "do=con,1,0,32,0", 3),
    ("con_past_the_provide_ports", "do=con,1,0,0,0", "do=con,1,0,0,16", 3),
    ("dcon_past_the_provide_ports", "do=con,1,0,0,0", "do=dcon,1,0,0,16", 3),
):
    changed(name, "sheet", old, new, refused)

for name, old, new, refused in (
    ("answer_of_another_number", "answer=1", "answer=7", 2),
    ("answer_without_its_first_line", "answer=1\nsteps=9", "steps=9", 2),
    ("steps_past_1024", "steps=9", "steps=1025", 3),
    ("steps_of_bad_form", "steps=9", "steps=9x", 2),
    ("unknown_step", "step=fire,0,0", "step=jump,0,0", 2),
    ("next_with_a_number", "step=next", "step=next,0", 2),
    ("fire_of_one_number", "step=fire,0,0", "step=fire,0", 2),
    ("fire_of_bad_form_before_past_the_ids", "step=fire,0,0", "step=fire,99,x", 2),
    ("fire_past_the_ids", "step=fire,0,0", "step=fire,32,0", 3),
    ("fire_past_the_places", "step=fire,0,0", "step=fire,0,16", 3),
    ("end_past_the_transitions", "step=end,0,0", "step=end,0,32", 3),
    ("enter_past_the_places", "step=enter,0,1", "step=enter,0,16", 3),
    ("finish_past_the_ids", "step=finish,0", "step=finish,32", 3),
    ("finish_of_two_numbers", "step=finish,0", "step=finish,0,0", 2),
):
    changed(name, "answer", old, new, refused)

# ---- every number at its greatest, read and then met by the step rules
all16, all32 = "+".join(map(str, range(16))), "+".join(map(str, range(32)))
greatest = (16, all16, [f"{i % 16},{(i + 1) % 16}" for i in range(32)], [all32] * 8, [f"provide,{all16},{all32}"] * 16)
least = (1, "0", [], [], [])
case("counts_at_their_greatest", sheet([greatest] * 4 + [least] * 12, ["add,31,15", "del,31"] * 128, 8), [nexts(257)], 256, 10)
case("steps_at_their_greatest", sheet([greatest], ["add,31,0", "pushb,31,7"]), [nexts(2), "fire,31,15", "end,31,31", "end,31,15", nexts(1019)], 5, 10)
case("counts_at_their_least", sheet([least], []), [], 0, 0)
case("use_and_provide_ports_at_their_greatest", sheet([greatest, (1, "0", [], [], ["use,-,-"] * 16)], ["add,31,0", "add,30,1", "con,30,15,31,15", "dcon,30,15,31,15"]), [nexts(4)], 4, 0)
case("list_and_port_empty", sheet([(1, "0", [], ["-"], ["use,-,-", "provide,-,-"])], ["add,0,0", "pushb,0,0"]), [nexts(2), "finish,0"], 3, 0)
