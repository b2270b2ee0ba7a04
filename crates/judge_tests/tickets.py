"""The papers with tickets that the program `judge_tests` runs, C-21: sheets that open with `sheet=2`. What a paper must come to is said beside it, as in pairs.py
and starts.py."""
from notation import answer, example, move, nexts
from notation import sheet as sheet_of
from pairs import P, pair, provider, up0, up1
from papers import cps, deployed, all_up, restarting, updating
from starts import encoded, start

tickets = []


def sheet(types, program, depth=0):
    return sheet_of(types, program, depth, first=2)


def case(name, text, steps, accepted, refused, port="-", first=None):
    steps = steps if isinstance(steps, str) else answer(*steps)
    tickets.append(("ticket_" + name, text.encode(), encoded(first), steps.encode(), (refused, accepted, "neither", 0, port)))


def fault(name, text, line, refused, which="sheet", first=None, steps=answer()):
    tickets.append(("ticket_" + name, text.encode(), encoded(first), steps.encode(), (refused, 0, which, line, "-")))


def alone(*program, depth=0):
    """One provider, 0, and what is done with it."""
    return sheet([provider], ["add,0,0", *program], depth)


up, down = [up0, "finish,0"], [move(0, 1, 1, 0), "finish,0"]

# ---- the queue shows its tickets, the last ticket it doesn't
case("shown", alone("pushb,0,0,0", "pushb,0,1,255"), [nexts(3)], 3, 0)
case("shown_of_one", alone("pushb,0,1,7"), [nexts(2)], 2, 0)
case("shown_of_one_left", alone("pushb,0,0,10", "pushb,0,1,11", "pushb,0,0,100"), [nexts(4), up], 8, 0)
case("not_shown_of_an_empty_queue", alone("pushb,0,0,10"), [nexts(2), up], 6, 0)
case("refused_step_shows_them", alone("pushb,0,0,3", "pushb,0,1,4"), [nexts(3), "finish,0"], 3, 37)
case("of_the_pair", sheet(pair, ["add,0,0", "add,1,1", "con,1,0,0,0", "pushb,0,0,4", "pushb,1,0,4"]), [nexts(5), up0, up1, "finish,0", "finish,1"], 13, 0)
case("no_push_at_all", sheet(pair, ["add,0,0", "add,1,1", "con,1,0,0,0", "wait,0"]), [nexts(4)], 4, 0)

# ---- tickets rise on one instance: 19
case("equal", alone("pushb,0,0,5", "pushb,0,1,5"), [nexts(3)], 2, 19)
case("lower", alone("pushb,0,0,5", "pushb,0,1,4"), [nexts(3)], 2, 19)
case("zero_after_zero", alone("pushb,0,0,0", "pushb,0,1,0"), [nexts(3)], 2, 19)
case("one_higher", alone("pushb,0,0,5", "pushb,0,1,6"), [nexts(3)], 3, 0)
case("nothing_above_255", alone("pushb,0,0,255", "pushb,0,1,255"), [nexts(3)], 2, 19)
case("equal_to_one_that_is_finished", alone("pushb,0,0,5", "pushb,0,1,5"), [nexts(2), up, "next"], 6, 19)
case("lower_than_one_that_is_finished", alone("pushb,0,0,5", "pushb,0,1,0"), [nexts(2), up, "next"], 6, 19)
case("between_two_pushes", alone("pushb,0,0,3", "pushb,0,1,5", "pushb,0,0,4"), [nexts(4)], 3, 19)
case("two_instances_with_one", sheet([provider], ["add,0,0", "add,1,0", "pushb,0,0,9", "pushb,1,0,9", "pushb,1,1,10", "pushb,0,1,10"]), [nexts(6)], 6, 0)
case("lower_on_another_instance", sheet([provider], ["add,0,0", "add,31,0", "pushb,0,0,9", "pushb,31,0,8", "pushb,0,0,10", "pushb,31,0,8"]), [nexts(6)], 5, 19)
case("refused_push_leaves_the_last", alone("pushb,0,0,5", "pushb,0,7,200"), [nexts(3)], 2, 13)

# ---- in one push: 11, 13, 19, 20
case("no_such_behavior_before_19", alone("pushb,0,0,5", "pushb,0,2,5"), [nexts(3)], 2, 13)
case("absent_before_all", sheet([provider], ["pushb,0,7,0"]), ["next"], 0, 11)
case("not_above_before_full", alone("pushb,0,0,5", "pushb,0,1,5", depth=1), [nexts(3)], 2, 19)
case("full", alone("pushb,0,0,5", "pushb,0,1,6", depth=1), [nexts(3)], 2, 20)
case("eight_queued", alone(*(f"pushb,0,0,{n}" for n in range(8))), [nexts(9)], 9, 0)
case("ninth_pushed", alone(*(f"pushb,0,0,{n}" for n in range(9))), [nexts(10)], 9, 20)

# ---- a wait for one push: 11, then 23 or 24, never 21
case("still_queued", alone("pushb,0,0,5", "wait,0,5"), [nexts(3)], 2, 23)
case("queued_behind_another", alone("pushb,0,0,5", "pushb,0,1,6", "wait,0,6"), [nexts(3), up, "next"], 7, 23)
case("queued_last_of_eight", alone(*(f"pushb,0,0,{n}" for n in range(248, 256)), "wait,0,255"), [nexts(10)], 9, 23)
case("finished", alone("pushb,0,0,5", "wait,0,5"), [nexts(2), up, "next"], 7, 0)
case("finished_under_a_later_one", alone("pushb,0,0,5", "pushb,0,1,6", "wait,0,5"), [nexts(3), up, "next"], 8, 0)
case("finished_under_a_later_one_that_runs", alone("pushb,0,0,5", "pushb,0,1,6", "wait,0,5", "wait,0,6"), [nexts(3), up, "fire,0,1", "next", "end,0,1", "next"], 10, 23)
case("finished_long_ago", alone("pushb,0,0,5", "pushb,0,1,6", "pushb,0,0,7", "wait,0,5", "wait,0,6", "wait,0,7"), [nexts(4), up, down, up, nexts(3)], 19, 0)
case("finished_waited_for_twice", alone("pushb,0,0,5", "wait,0,5", "wait,0,5"), [nexts(2), up, nexts(2)], 8, 0)
case("skipped", alone("pushb,0,0,3", "pushb,0,1,5", "wait,0,4"), [nexts(4)], 3, 24)
case("skipped_though_both_are_finished", alone("pushb,0,0,3", "pushb,0,1,5", "wait,0,4"), [nexts(3), up, down, "next"], 11, 24)
case("never_pushed", alone("wait,0,0"), [nexts(2)], 1, 24)
case("above_the_last", alone("pushb,0,0,5", "wait,0,6"), [nexts(3)], 2, 24)
case("below_the_first", alone("pushb,0,0,5", "wait,0,4"), [nexts(3)], 2, 24)
case("that_comes_later", alone("wait,0,5", "pushb,0,0,5"), [nexts(2)], 1, 24)
case("of_another_instance", sheet([provider], ["add,0,0", "add,1,0", "pushb,0,0,5", "pushb,1,0,6", "wait,1,5"]), [nexts(5)], 4, 24)
case("of_absent", sheet([provider], ["wait,0,5"]), ["next"], 0, 11)
case("of_an_instance_deleted", alone("pushb,0,0,5", "del,0", "wait,0,5"), [nexts(2), up, nexts(2)], 7, 11)
case("of_id_31", sheet([provider], ["add,31,0", "pushb,31,0,255", "wait,31,255"]), [nexts(2), move(31, 0, 0, 1), "finish,31", "next"], 7, 0)

# ---- a plain wait and a del ask for an empty queue
case("plain_wait", alone("pushb,0,0,5", "wait,0"), [nexts(3)], 2, 21)
case("plain_wait_once_empty", alone("pushb,0,0,5", "wait,0"), [nexts(2), up, "next"], 7, 0)
case("plain_wait_under_a_later_one", alone("pushb,0,0,5", "pushb,0,1,6", "wait,0"), [nexts(3), up, "next"], 7, 21)
case("del_with_a_queue", alone("pushb,0,0,5", "del,0"), [nexts(3)], 2, 21)

# ---- a new life: "since its `add`"
again = ["pushb,0,0,5", "del,0", "add,0,0"]
case("rises_anew_after_an_add", alone(*again, "pushb,0,0,5"), [nexts(2), up, nexts(3)], 9, 0)
case("rises_anew_from_0", alone("pushb,0,0,255", "del,0", "add,0,0", "pushb,0,0,0"), [nexts(2), up, nexts(3)], 9, 0)
case("of_an_earlier_life", alone(*again, "wait,0,5"), [nexts(2), up, nexts(3)], 8, 24)
case("of_an_earlier_life_below_the_last", alone(*again, "pushb,0,0,9", "wait,0,5"), [nexts(2), up, nexts(4)], 9, 24)
case("of_this_life_and_an_earlier", alone(*again, "pushb,0,0,5", "wait,0,5"), [nexts(2), up, nexts(3), "next"], 9, 23)
case("of_this_life_and_an_earlier_finished", alone(*again, "pushb,0,0,5", "wait,0,5"), [nexts(2), up, nexts(3), up, "next"], 14, 0)
case("refused_del_keeps_the_life", alone("pushb,0,0,5", "del,0", "pushb,0,0,5"), [nexts(3), "next"], 2, 21)
kept = sheet(pair, ["add,0,0", "add,1,1", "con,1,0,0,0", "pushb,0,0,5", "dcon,1,0,0,0", "con,1,0,0,0", "pushb,0,1,5"])
case("kept_over_connections", kept, [nexts(7)], 6, 19)

# ---- the sheet's lines
two = alone("pushb,0,0,0", "wait,0,0", "wait,0")
one = two.replace("sheet=2", "sheet=1").replace("pushb,0,0,0", "pushb,0,0").replace("wait,0,0", "wait,0")
at = two[: two.index("do=pushb")].count("\n") + 1
case("sheet_2", two, [nexts(3)], 2, 23)
case("sheet_1", one, [nexts(3)], 2, 21)
for name, old, new, line, refused in (
    ("push_without", "do=pushb,0,0,0", "do=pushb,0,0", at, 2),
    ("push_with_two", "do=pushb,0,0,0", "do=pushb,0,0,0,1", at, 2),
    ("push_with_an_empty_one", "do=pushb,0,0,0", "do=pushb,0,0,", at, 2),
    ("push_with_none", "do=pushb,0,0,0", "do=pushb,0,0,-", at, 2),
    ("push_joined_by_a_colon", "do=pushb,0,0,0", "do=pushb,0,0:0", at, 2),
    ("push_with_a_leading_zero", "do=pushb,0,0,0", "do=pushb,0,0,00", at, 2),
    ("push_of_six_digits", "do=pushb,0,0,0", "do=pushb,0,0,000256", at, 2),
    ("push_of_six_digits_past_it", "do=pushb,0,0,0", "do=pushb,0,0,100000", at, 2),
    ("push_past_255", "do=pushb,0,0,0", "do=pushb,0,0,256", at, 3),
    ("push_far_past_255", "do=pushb,0,0,0", "do=pushb,0,0,99999", at, 3),
    ("push_past_the_behaviors", "do=pushb,0,0,0", "do=pushb,0,8,0", at, 3),
    ("push_past_the_ids", "do=pushb,0,0,0", "do=pushb,32,0,0", at, 3),
    ("push_of_bad_form_before_past_255", "do=pushb,0,0,0", "do=pushb,0,x,256", at, 2),
    ("wait_with_an_empty_one", "do=wait,0,0", "do=wait,0,", at + 1, 2),
    ("wait_with_two", "do=wait,0,0", "do=wait,0,1,2", at + 1, 2),
    ("wait_with_a_leading_zero", "do=wait,0,0", "do=wait,0,01", at + 1, 2),
    ("wait_past_255", "do=wait,0,0", "do=wait,0,256", at + 1, 3),
    ("wait_past_the_ids", "do=wait,0,0", "do=wait,32,0", at + 1, 3),
    ("wait_plain_past_the_ids", "do=wait,0\n", "do=wait,32\n", at + 2, 3),
    ("wait_of_bad_form_before_past_the_ids", "do=wait,0,0", "do=wait,32,x", at + 1, 2),
    ("del_with_one", "do=wait,0\n", "do=del,0,0\n", at + 2, 2),
    ("add_with_one", "do=add,0,0", "do=add,0,0,0", at - 1, 2),
    ("con_with_one", "do=wait,0\n", "do=con,0,0,0,0,0\n", at + 2, 2),
    ("sheet_02", "sheet=2", "sheet=02", 1, 2),
    ("sheet_3", "sheet=2", "sheet=3", 1, 2),
    ("sheet_0", "sheet=2", "sheet=0", 1, 2),
    ("sheet_12", "sheet=2", "sheet=12", 1, 2),
    ("sheet_2_and_a_blank", "sheet=2", "sheet=2 ", 1, 2),
    ("sheet_of_no_number", "sheet=2", "sheet=", 1, 2),
):
    assert two.count(old) >= 1
    fault(name, two.replace(old, new, 1), line, refused)
for name, old, new, line in (
    ("push_in_sheet_1", "do=pushb,0,0", "do=pushb,0,0,0", at),
    ("wait_in_sheet_1", "do=wait,0", "do=wait,0,0", at + 1),
    ("push_in_sheet_1_past_255", "do=pushb,0,0", "do=pushb,0,0,256", at),
):
    fault(name, one.replace(old, new, 1), line, 2)
fault("sheet_of_1_with_another_first_line", P.replace("sheet=1", "sheet=2"), P[: P.index("do=pushb")].count("\n") + 1, 2)
case("greatest_numbers_of_a_line", sheet([provider], ["add,31,0", "pushb,31,7,255", "wait,31,255"]), [nexts(2)], 1, 13)
fault("answer_stays_1", two, 1, 2, which="answer", steps="answer=2\nsteps=0\n")

# ---- the limits: 256 instructions, the longest report
shut = (1, "0", [], ["-"], [])
case("256_pushes", sheet([shut], [f"add,{i},0" for i in range(32)] + [f"pushb,{i},0,{n}" for n in range(100, 107) for i in range(32)]), [nexts(256)], 256, 0)
turns = [[f"pushb,0,0,{n}", f"wait,0,{n}"] for n in range(128)]
case("pushed_and_waited_for_in_turn", sheet([shut], ["add,0,0"] + [x for turn in turns for x in turn][:255]), ["next", [["next", "finish,0", "next"]] * 127, "next"], 383, 0)
every = ["add,0,0"] + [f"pushb,0,0,{n}" for n in range(255)]
case("255_pushes_of_one", sheet([shut], every), ["next", [["next", "finish,0"]] * 255], 511, 0)
full = "+".join(map(str, range(16))), "+".join(map(str, range(32)))
wide = (16, full[0], [f"{t % 16},{(t + 1) % 16}" for t in range(32)], [full[1]] * 8, ["provide,-,-"] * 13 + ["use,-,-"] * 3)
sets = [f"{i},15,{full[0]},-,{full[1]}," + "+".join(f"7:{n}" for n in range(248, 256)) + ",255" for i in range(32)]
ends = [f"{i},{q},{10 + i % 10},12" for i in range(10, 32) for q in (13, 14, 15) if i != 10 + i % 10] + [f"{i},{q},31,12" for i in range(10, 20) for q in (13, 14, 15)]
ends = sorted(ends, key=lambda x: [int(n) for n in x.split(",")])[:64]
case("longest_report", sheet([shut] * 15 + [wide], []), ["finish,31"], 0, 37, first=start(sets, ends))
lines = [f"add,{i},0" for i in range(32)] + [f"pushb,{i},7,{n}" for n in range(249, 256) for i in range(32)]
case("32_queues_of_seven", sheet([wide], lines), [nexts(256), [f"fire,{i},{p}" for i in range(32) for p in range(15)]], 736, 0)

# ---- starts
idle, empty = "0,-,-,-", "0,0,0,-,-,-"


def began(*lines):
    return start([f"{i},0,0,-,-,{line}" for i, line in enumerate(lines)])


def program(*lines, depth=0):
    return sheet([provider], list(lines), depth)


case("start_shown", program(), [], 0, 0, first=began("0:0+1:255,255", "-,-", "-,7", "1:0,0"))
case("start_in_a_sheet_1", sheet_of([provider], []), [], 0, 0, first=began("0+1", "-"))
case("start_rises_from_the_tail", program("pushb,0,1,8"), ["next"], 1, 0, first=began("0:7,7"))
case("start_equal_to_the_tail", program("pushb,0,1,7"), ["next"], 0, 19, first=began("0:7,7"))
case("start_lower_than_the_tail", program("pushb,0,1,6"), ["next"], 0, 19, first=began("0:3+1:7,7"))
case("start_rises_from_the_last", program("pushb,0,1,8"), ["next"], 1, 0, first=began("-,7"))
case("start_equal_to_the_last", program("pushb,0,1,7"), ["next"], 0, 19, first=began("-,7"))
case("start_lower_than_the_last", program("pushb,0,1,0"), ["next"], 0, 19, first=began("-,7"))
case("start_with_none_rises_from_0", program("pushb,0,1,0"), ["next"], 1, 0, first=began("-,-"))
case("start_of_last_0_is_not_none", program("pushb,0,1,0"), ["next"], 0, 19, first=began("-,0"))
case("start_of_last_255", program("pushb,0,1,255"), ["next"], 0, 19, first=began("-,255"))
case("start_19_before_20", program("pushb,0,1,7", depth=1), ["next"], 0, 19, first=began("0:7,7"))
case("start_full", program("pushb,0,1,8", depth=1), ["next"], 0, 20, first=began("0:7,7"))
case("start_waits_for_the_tail", program("wait,0,7"), ["next"], 0, 23, first=began("0:3+1:7,7"))
case("start_waits_for_the_head", program("wait,0,3"), ["next"], 0, 23, first=began("0:3+1:7,7"))
case("start_waits_for_the_head_finished", program("wait,0,3", "wait,0,7"), [up, nexts(2)], 5, 23, first=began("0:3+1:7,7"))
case("start_waits_for_all_finished", program("wait,0,3", "wait,0,7"), [up, down, nexts(2)], 10, 0, first=began("0:3+1:7,7"))
case("start_waits_below_the_queue", program("wait,0,2"), ["next"], 0, 24, first=began("0:3+1:7,7"))
case("start_waits_between_its_queue", program("wait,0,5"), ["next"], 0, 24, first=began("0:3+1:7,7"))
case("start_waits_between_its_queue_finished", program("wait,0,5"), [up, down, "next"], 8, 24, first=began("0:3+1:7,7"))
case("start_waits_above_its_queue", program("wait,0,8"), ["next"], 0, 24, first=began("0:3+1:7,7"))
case("start_waits_for_the_last", program("wait,0,7"), ["next"], 1, 0, first=began("-,7"))
case("start_waits_below_the_last", program("wait,0,6"), ["next"], 0, 24, first=began("-,7"))
case("start_waits_above_the_last", program("wait,0,8"), ["next"], 0, 24, first=began("-,7"))
case("start_waits_for_none", program("wait,0,0"), ["next"], 0, 24, first=began("-,-"))
case("start_waits_for_last_0", program("wait,0,0"), ["next"], 1, 0, first=began("-,0"))
case("start_waits_for_the_last_after_a_push", program("pushb,0,0,9", "wait,0,7", "wait,0,9"), [nexts(3)], 2, 23, first=began("-,7"))
case("start_waits_for_a_push_between", program("pushb,0,0,9", "wait,0,8"), [nexts(2)], 1, 24, first=began("-,7"))
case("start_waits_plainly", program("wait,0"), ["next"], 0, 21, first=began("0:7,7"))
case("start_waits_for_another_one_s", program("wait,1,7"), ["next"], 0, 24, first=began("0:7,7", "1:6,6"))
case("start_and_a_new_life", program("del,0", "add,0,0", "wait,0,7"), [nexts(3)], 2, 24, first=began("-,7"))
case("start_and_a_new_life_rises_anew", program("del,0", "add,0,0", "pushb,0,0,7"), [nexts(3)], 3, 0, first=began("-,7"))
case("start_absent_and_added", program("add,1,0", "pushb,1,0,0", "wait,1,0"), [nexts(3)], 2, 23, first=began("-,7"))
case("start_of_eight_queued", program("pushb,0,0,255"), ["next"], 0, 20, first=began("+".join(f"0:{n}" for n in range(8)) + ",7"))
case("start_midway", program("wait,0,4"), ["end,0,0", "enter,0,1", "finish,0", "next"], 4, 0, first=start(["0,0,-,0,-,0:4+1:5,5"]))
fault("start_too_many_queued", program(), 3, 3, which="start", first=began("+".join(f"0:{n}" for n in range(9)) + ",8"))
fault("start_unserved", sheet(pair, []), 0, 50, which="start", first=start(["1,1,1,-,-,-,-"]))
for name, line, refused in (
    ("of_six_fields", "-", 2),
    ("of_six_fields_and_a_queue", "0:7", 2),
    ("of_eight_fields", "-,-,-", 2),
    ("of_an_empty_last", "-,", 2),
    ("of_a_last_that_is_a_list", "-,1+2", 2),
    ("of_a_last_with_a_leading_zero", "-,07", 2),
    ("of_a_last_of_six_digits", "-,100000", 2),
    ("of_an_item_without_ticket", "0,7", 2),
    ("of_a_second_item_without_ticket", "0:6+1,7", 2),
    ("of_a_first_item_without_ticket", "0+1:7,7", 2),
    ("of_an_item_with_an_empty_ticket", "0:,7", 2),
    ("of_an_item_with_two_tickets", "0:7:8,8", 2),
    ("of_an_item_without_behavior", ":7,7", 2),
    ("of_an_empty_queue_with_a_ticket", "-:7,7", 2),
    ("of_a_plus_after", "0:7+,7", 2),
    ("of_a_ticket_with_a_leading_zero", "0:07,7", 2),
    ("of_bad_form_before_past_255", "0:256,x", 2),
    ("past_255", "0:256,256", 3),
    ("past_255_in_the_queue", "0:256,255", 3),
    ("past_255_before_the_tail", "0:256+1:3,3", 3),
    ("past_255_in_the_last", "0:255,256", 3),
    ("past_255_in_the_last_alone", "-,256", 3),
    ("past_the_behaviors", "2:7,7", 3),
    ("past_the_behaviors_and_not_rising", "0:7+2:7,7", 3),
    ("that_stands_still", "0:7+1:7,7", 4),
    ("that_falls", "0:7+1:6,6", 4),
    ("that_falls_in_the_middle", "0:5+1:4+0:7,7", 4),
    ("of_a_last_above_the_tail", "0:7,8", 4),
    ("of_a_last_below_the_tail", "0:6+1:7,6", 4),
    ("of_no_last_beside_a_queue", "0:7,-", 4),
    ("of_no_last_beside_ticket_0", "0:0,-", 4),
):
    fault("start_" + name, program(), 3, refused, which="start", first=began(line))
    fault("start_second_" + name, program(), 4, refused, which="start", first=began("-,-", line))
for name, line in (("of_seven_fields_in_sheet_1", "-,-"), ("of_a_ticket_in_sheet_1", "0:7"), ("of_a_ticket_and_a_last_in_sheet_1", "0:7,7"), ("of_a_last_in_sheet_1", "0,7")):
    fault("start_" + name, sheet_of([provider], []), 3, 2, which="start", first=began(line))
fault("start_is_1_too", program(), 1, 2, which="start", first=began("-,-").replace("start=1", "start=2"))

# ---- Concerto-D, Listings 1 and 2 with their own tickets: the wait is for update alone, though deploy is in the queue behind it
listed = ["pushb,0,1,2", "pushb,0,0,3", "pushb,1,1,0", "wait,0,2", "pushb,1,0,1"]
sensor, running = example("sheet", "sensor"), example("start", "sensor")
assert sensor == sheet(cps, listed)
paused, back = updating(0, 1), restarting(0, 1)
early = [nexts(3), paused[:4], "next", paused[4], "next", back]
assert example("answer", "sensor") == answer(nexts(3), paused, nexts(2), back)
assert example("waited-too-early", "sensor") == answer(*early)
case("sensor", sensor, example("answer", "sensor"), 30, 0, first=running)
case("sensor_waited_too_early", sensor, example("waited-too-early", "sensor"), 9, 23, first=running)
case("sensor_waits_for_another_listener_s", sensor.replace("wait,0,2", "wait,0,4"), example("answer", "sensor"), 11, 24, first=running)
case("sensor_waits_plainly", sensor.replace("wait,0,2", "wait,0"), example("answer", "sensor"), 11, 21, first=running)
brought_up = [x + ",0" if x.startswith("pushb") else x for x in deployed(0, 1)]
from_nothing = brought_up + ["pushb,0,1,2", "pushb,0,0,3", "pushb,1,1,1", "wait,0,2", "pushb,1,0,2"]
case("sensor_from_nothing", sheet(cps, from_nothing), [nexts(6), all_up(0, 1), nexts(3), paused, nexts(2), back], 61, 0)
