"""The papers that the program `model_walk_tests` runs. What a walk comes to is said beside each: how many steps it has and how it ends, or the text, the line and the
number of a fault."""
from walks import model
from notation import example, sheet

provider = (2, "0", ["0,1", "1,0"], ["0", "1"], ["provide,1,-"])
user = (2, "0", ["0,1", "1,0"], ["0", "1"], ["use,1,0"])
pair = [provider, user]
alone = [(2, "0", ["0,1", "1,0"], ["0", "1", "0+1"], [])]
five = ["add,0,0", "add,1,1", "con,1,0,0,0", "pushb,0,0", "pushb,1,0"]
cases = []


def case(name, types, program, steps, ending, start=None, depth=0, first=1):
    """A program of these types: the steps of its walk and how it ends, after the start's lines where there is one."""
    text = program if isinstance(program, str) else sheet(types, program, depth, first)
    cases.append((name, text.encode(), None if start is None else f"start=1\n{start}".encode(), (steps, ending)))


def fault(name, text, start, which, line, refused):
    """A paper that is refused: the text, the line and the number."""
    cases.append((name, text.encode(), None if start is None else start.encode(), (which, line, refused)))


def turns(n):
    """An instance that goes up and down, n behaviors in all: an instruction and four moves each."""
    return ["add,0,0"] + [f"pushb,0,{k % 2}" for k in range(n)]


# ---- done
case("pair", pair, five, 13, "done")
case("no_program", pair, [], 0, "done")
case("only_added", pair, ["add,0,0", "add,31,1"], 2, "done")
case("added_and_deleted", pair, ["add,0,0", "pushb,0,0", "del,0"], 7, "done")
case("with_a_wait", pair, five[:4] + ["wait,0", "pushb,1,0", "wait,1"], 15, "done")
fork = [(5, "0+3", ["0,1", "0,2", "3,4"], ["0+1+2"], [])]
case("fork", fork, ["add,1,0", "add,0,0", "pushb,1,0", "pushb,0,0"], 22, "done")
case("join", [(4, "0+1", ["0,2", "1,2", "2,3"], ["0+1+2"], [])], ["add,5,0", "pushb,5,0"], 11, "done")
case("two_instances", alone, ["add,3,0", "add,2,0", "pushb,3,0", "pushb,2,0", "pushb,3,1", "pushb,2,1"], 22, "done")
case("ids_0_and_31", alone, ["add,31,0", "add,0,0", "pushb,31,0", "pushb,0,0"], 12, "done")
case("place_15_and_transition_31", [(16, "0", ["0,1"] * 31 + ["0,15"], ["31"], [])], ["add,0,0", "pushb,0,0"], 6, "done")
case("a_ninth_push_waits", alone, turns(9), 46, "done")
case("depth_1", alone, turns(4), 21, "done", depth=1)
case("an_empty_behavior", [(1, "0", [], ["-"], [])], ["add,0,0", "pushb,0,0"], 3, "done")

# ---- stuck
case("pair_and_down_again", pair, five + ["pushb,0,1"], 14, "stuck")
case("not_connected", pair, ["add,1,1", "pushb,1,0"], 2, "stuck")
case("not_served", pair, ["add,0,0", "add,1,1", "con,1,0,0,0", "pushb,1,0"], 4, "stuck")
case("at_a_wait", pair, ["add,1,1", "pushb,1,0", "wait,1"], 2, "stuck")
case("at_a_foretold_number", pair, ["add,0,0", "con,1,0,0,0"], 1, "stuck")
case("never_added", None, example("sheet", "never-added"), 7, "stuck")
case("maintenance", None, example("sheet"), 41, "stuck")
case("in_use", pair, five + ["wait,1", "pushb,0,1"], 15, "stuck")

# ---- 1,024 steps
case("goes_round_for_ever", alone, ["add,0,0", "pushb,0,2"], 1024, "cut")
case("two_go_round", alone, ["add,0,0", "add,1,0", "pushb,0,2", "pushb,1,2"], 1024, "cut")
case("1024_and_done", alone, turns(204) + ["wait,0"] * 3, 1024, "done")
case("1023_and_done", alone, turns(204) + ["wait,0"] * 2, 1023, "done")
case("1023_and_stuck", alone, turns(204) + ["wait,0"] * 2 + ["wait,1"], 1023, "stuck")
case("1024_and_cut_where_no_step_is_left", alone, turns(204) + ["wait,0"] * 3 + ["wait,1"], 1024, "cut")
case("1024_and_cut_with_one_step_left", alone, turns(204) + ["wait,0"] * 4, 1024, "cut")

# ---- papers with a start
up = "instances=2\ninstance=0,0,1,-,-,-\ninstance=1,1,1,-,-,-\nconnections=1\nconnection=1,0,0,0\n"
case("up_and_nothing_to_do", pair, [], 0, "done", up)
case("up_and_down", pair, ["pushb,1,1", "pushb,0,1"], 10, "done", up)
case("up_and_in_use", pair, ["pushb,0,1"], 1, "stuck", up)
case("up_empty", pair, five, 13, "done", "instances=0\nconnections=0\n")
case("up_ended", pair, [], 6, "done", "instances=1\ninstance=0,0,-,-,1,1+0\nconnections=0\n")
case("up_running", pair, ["wait,2"], 4, "done", "instances=1\ninstance=2,0,-,0,-,0\nconnections=0\n")
case("up_added_again", pair, ["pushb,0,1", "add,0,0"], 1, "stuck", up)
case("up_and_round", alone, [], 1024, "cut", "instances=1\ninstance=0,0,0,-,-,2\nconnections=0\n")
case("up_with_no_token", alone, ["wait,7"], 2, "done", "instances=1\ninstance=7,0,-,-,-,0\nconnections=0\n")

# ---- with tickets, C-21: at 23 the moves go on, no move helps at 19 nor at 24


def ticketed(name, types, program, steps, ending, start=None, depth=0):
    case("ticket_" + name, types, program, steps, ending, start, depth, first=2)


ticketed("pair", pair, five[:3] + ["pushb,0,0,4", "pushb,1,0,4"], 13, "done")
ticketed("waited_for", alone, ["add,0,0", "pushb,0,0,5", "wait,0,5"], 7, "done")
ticketed("waited_for_under_a_later_one", alone, ["add,0,0", "pushb,0,0,5", "pushb,0,1,6", "wait,0,5", "add,31,0"], 13, "done")
ticketed("waited_for_one_after_the_other", alone, ["add,0,0", "pushb,0,0,0", "pushb,0,1,255", "wait,0,0", "wait,0,255", "wait,0,0"], 14, "done")
ticketed("both_waits", alone, ["add,0,0", "pushb,0,0,5", "wait,0", "pushb,0,1,6", "wait,0,6"], 13, "done")
ticketed("of_two_instances", alone, ["add,0,0", "add,1,0", "pushb,0,0,9", "pushb,1,0,9", "wait,1,9"], 13, "done")
ticketed("rises_anew", alone, ["add,0,0", "pushb,0,0,5", "del,0", "add,0,0", "pushb,0,0,5", "wait,0,5"], 14, "done")
ticketed("a_full_queue", alone, ["add,0,0", "pushb,0,0,1", "pushb,0,1,2", "wait,0,2"], 12, "done", depth=1)
ticketed("held_back", pair, ["add,1,1", "pushb,1,0,3", "wait,1,3"], 2, "stuck")
ticketed("not_above", alone, ["add,0,0", "pushb,0,0,5", "pushb,0,1,5"], 6, "stuck")
ticketed("never_pushed", alone, ["add,0,0", "pushb,0,0,5", "wait,0,4"], 6, "stuck")
ticketed("that_comes_later", alone, ["add,0,0", "wait,0,5", "pushb,0,0,5"], 1, "stuck")
ticketed("of_an_earlier_life", alone, ["add,0,0", "pushb,0,0,5", "del,0", "add,0,0", "wait,0,5"], 8, "stuck")
ticketed("waited_for_for_ever", alone, ["add,0,0", "pushb,0,2,0", "wait,0,0"], 1024, "cut")

one_up = "instances=1\ninstance=0,0,0,-,-,%s\nconnections=0\n"
ticketed("up_the_last", alone, ["wait,0,7", "pushb,0,0,8", "wait,0,8"], 7, "done", one_up % "-,7")
ticketed("up_below_the_last", alone, ["wait,0,7", "wait,0,6"], 1, "stuck", one_up % "-,7")
ticketed("up_none_pushed", alone, ["pushb,0,0,0", "wait,0,0"], 6, "done", one_up % "-,-")
ticketed("up_and_queued", alone, ["wait,0,2", "wait,0,5"], 10, "done", one_up % "0:2+1:5,5")
ticketed("up_between_the_queued", alone, ["wait,0,3"], 8, "stuck", one_up % "0:2+1:5,5")
ticketed("up_not_above_the_tail", alone, ["pushb,0,0,6", "pushb,0,1,6"], 13, "stuck", one_up % "0:2+1:5,5")
ticketed("up_and_added_again", alone, ["del,0", "add,0,0", "pushb,0,0,7", "wait,0,7"], 8, "done", one_up % "-,7")
case("ticket_sensor", None, example("sheet", "sensor"), 30, "done", example("start", "sensor").removeprefix("start=1\n"))

# ---- texts at fault: the sheet's, then the start's, as the judge gives them
P = sheet(pair, five)
long_sheet, long_start = "x" * 32769, "y" * 8193
fault("fault_empty_sheet", "", None, "sheet", 1, 2)
fault("fault_sheet_in_the_program", P.replace("con,1", "con,32"), None, "sheet", 29, 3)
fault("fault_bytes_after_the_sheet", P + "do=wait,9\n", None, "sheet", 32, 5)
fault("fault_long_sheet", long_sheet, long_start, "sheet", 0, 1)
fault("fault_long_start_before_the_sheet", "", long_start, "start", 0, 1)
fault("fault_sheet_before_the_start", P[:-1], "", "sheet", 31, 2)
fault("fault_empty_start", P, "", "start", 1, 2)
fault("fault_start_ids_fall", P, "start=1\ninstances=2\ninstance=1,1,0,-,-,-\ninstance=0,0,0,-,-,-\nconnections=0\n", "start", 4, 4)
fault("fault_start_not_served", P, "start=1\n" + up.replace("0,0,1,-", "0,0,0,-"), "start", 0, 50)
two = sheet(alone, ["add,0,0", "pushb,0,0,5"], first=2)
fault("fault_ticket_in_sheet_1", two.replace("sheet=2", "sheet=1"), None, "sheet", 17, 2)
fault("fault_no_ticket_in_sheet_2", two.replace("0,5", "0"), None, "sheet", 17, 2)
fault("fault_ticket_256", two.replace("0,5", "0,256"), None, "sheet", 17, 3)
fault("fault_start_without_the_last", two, "start=1\n" + one_up % "-", "start", 3, 2)
fault("fault_start_of_another_last", two, "start=1\n" + one_up % "0:2+1:5,6", "start", 3, 4)
fault("fault_start_with_a_last_in_sheet_1", P, "start=1\n" + one_up % "-,7", "start", 3, 2)
