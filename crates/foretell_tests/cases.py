"""The papers that the program `foretell_tests` runs. What is foretold is said beside each: the instructions that the names allow and the number of the one after
them, or the text, the line and the number of a fault."""
from names import model
from notation import example, sheet

provider = (2, "0", ["0,1", "1,0"], ["0", "1"], ["provide,1,-"])
user = (2, "0", ["0,1", "1,0"], ["0", "1"], ["use,1,0"])
both = (2, "0", ["0,1"], ["0"], ["provide,1,-", "use,1,0"])
pair = [provider, user]
five = ["add,0,0", "add,1,1", "con,1,0,0,0", "pushb,0,0", "pushb,1,0"]
# sixteen use ports, and one to serve them all
many = [(1, "0", [], [], ["use,-,-"] * 16), (1, "0", [], [], ["provide,-,-"])]
users = ["add,31,1"] + [f"add,{i},0" for i in range(5)]


def joined(n):
    """The first n connections of the users to instance 31."""
    return [f"con,{k // 16},{k % 16},31,0" for k in range(n)]


up = "instances=2\ninstance=0,0,1,-,-,-\ninstance=1,1,1,-,-,-\nconnections=1\nconnection=1,0,0,0\n"
cases = []


def case(name, types, program, told, start=None, depth=0, first=1):
    """A program of these types: what is foretold, after the start's lines where there is one."""
    text = program if isinstance(program, str) else sheet(types, program, depth, first)
    cases.append((name, text.encode(), None if start is None else f"start=1\n{start}".encode(), told))


def fault(name, text, start, which, line, refused):
    """A paper that is refused: the text, the line and the number."""
    cases.append((name, text.encode(), None if start is None else start.encode(), (which, line, refused)))


# ---- each number as the first fault
case("none", pair, five, (5, 0))
case("no_program", pair, [], (0, 0))
case("never_added", None, example("sheet", "never-added"), (3, 11))
for word in ("del,2", "pushb,2,0", "con,2,0,0,0", "con,1,0,2,0", "wait,2"):
    case("absent_at_" + word.replace(",", "_"), pair, ["add,0,0", "add,1,1", word], (2, 11))
case("added_twice", pair, ["add,0,0", "add,0,1"], (1, 12))
case("no_such_behavior", pair, ["add,0,0", "pushb,0,1", "pushb,0,2"], (2, 13))
case("no_such_use_port", pair, ["add,0,0", "add,1,1", "con,1,1,0,0"], (2, 13))
case("no_such_provide_port", pair, ["add,0,0", "add,1,1", "con,1,0,0,1"], (2, 13))
case("a_provide_port_that_uses", pair, ["add,0,0", "add,1,0", "con,1,0,0,0"], (2, 13))
case("a_use_port_that_provides", pair, ["add,0,1", "add,1,1", "con,1,0,0,0"], (2, 13))
case("both_ends_one_instance", [both], ["add,0,0", "con,0,1,0,0"], (1, 14))
case("connected_already", pair, five[:3] + ["con,1,0,0,0"], (3, 15))
case("connected_already_to_another", pair, five[:3] + ["add,2,0", "con,1,0,2,0"], (4, 15))
case("sixty_four_connections", many, users + joined(64), (70, 0))
case("a_sixty_fifth_connection", many, users + joined(65), (70, 16))
case("a_sixty_fifth_after_one_is_gone", many, users + joined(64) + ["dcon,0,0,31,0", "con,4,0,31,0"], (72, 0))
case("never_connected", pair, ["add,0,0", "add,1,1", "dcon,1,0,0,0"], (2, 17))
case("connected_to_another", pair, five[:3] + ["add,2,0", "dcon,1,0,2,0"], (4, 17))
case("disconnected_of_absent_ids", pair, ["dcon,30,15,31,15"], (0, 17))
case("provider_deleted_while_connected", pair, five[:3] + ["del,0"], (3, 18))
case("user_deleted_while_connected", pair, five[:3] + ["del,1"], (3, 18))

# ---- what names leave open
case("nine_pushes", pair, ["add,0,0"] + ["pushb,0,0"] * 9, (10, 0))
case("more_pushes_than_the_depth", pair, ["add,0,0"] + ["pushb,0,0"] * 3 + ["wait,1"], (4, 11), depth=1)
case("wait_with_a_queue", pair, ["add,0,0", "pushb,0,0", "wait,0", "wait,1"], (3, 11))
case("del_with_a_queue", pair, ["add,0,0", "pushb,0,0", "del,0", "pushb,0,0"], (3, 11))
case("dcon_of_a_port_that_may_be_active", pair, five + ["dcon,1,0,0,0", "dcon,1,0,0,0"], (6, 17))

# ---- names come and go
case("con_after_del", pair, ["add,0,0", "add,1,1", "del,0", "con,1,0,0,0"], (3, 11))
case("add_after_del", pair, ["add,0,0", "del,0", "add,0,1", "pushb,0,1"], (4, 0))
case("another_type_after_del", [provider, (1, "0", [], [], [])], ["add,0,0", "del,0", "add,0,1", "pushb,0,0"], (3, 13))
case("con_again_after_dcon", pair, five[:3] + ["dcon,1,0,0,0", "con,1,0,0,0", "con,1,0,0,0"], (5, 15))
case("dcon_twice", pair, five[:3] + ["dcon,1,0,0,0", "dcon,1,0,0,0"], (4, 17))
case("a_fault_behind_another", pair, ["add,0,0", "add,0,0", "wait,9"], (1, 12))
case("the_last_of_256", pair, ["add,0,0"] + ["wait,0"] * 254 + ["wait,1"], (255, 11))
case("none_of_256", pair, ["add,0,0"] + ["wait,0"] * 255, (256, 0))
case("ids_31", pair, ["add,31,0", "add,30,1", "con,30,0,31,0", "pushb,31,1", "wait,29"], (4, 11))
case("the_first", pair, ["wait,0"], (0, 11))
for name, told in (("pair", (5, 0)), ("maintenance", (12, 0)), ("old-sheet", (6, 0))):
    case("example_" + name.replace("-", "_"), None, example("sheet", name), told)

# ---- papers with a start
case("up_none", pair, ["pushb,1,1", "pushb,0,1", "wait,1", "dcon,1,0,0,0", "del,1", "del,0"], (6, 0), up)
case("up_and_not_without", pair, ["pushb,0,1"], (0, 11))
case("up_empty", pair, five + ["wait,2"], (5, 11), "instances=0\nconnections=0\n")
case("up_added_again", pair, ["add,2,0", "add,1,1"], (1, 12), up)
case("up_connected_already", pair, ["add,2,0", "con,1,0,2,0"], (1, 15), up)
case("up_deleted_while_connected", pair, ["wait,0", "del,0"], (1, 18), up)
case("up_disconnected_then_deleted_twice", pair, ["dcon,1,0,0,0", "del,0", "del,0"], (2, 11), up)
case("up_no_such_behavior", pair, ["pushb,1,2"], (0, 13), up)
case("up_of_its_own_type", pair, ["con,1,0,2,0"], (0, 13), "instances=2\ninstance=1,1,0,-,-,-\ninstance=2,1,0,-,-,-\nconnections=0\n")
queued = "instances=1\ninstance=3,0,-,-,1,1+0\nconnections=0\n"
case("up_with_a_queue", pair, ["wait,3", "del,3", "wait,3"], (2, 11), queued)
case("up_with_a_full_queue", pair, ["pushb,3,0", "pushb,3,2"], (1, 13), "instances=1\ninstance=3,0,0,-,-,0\nconnections=0\n", depth=1)
lines = [f"instance={i},0,0,-,-,-" for i in range(5)] + ["instance=31,1,0,-,-,-"]
full = "\n".join(["instances=6"] + lines + ["connections=64"] + [f"connection={k // 16},{k % 16},31,0" for k in range(64)]) + "\n"
case("up_with_sixty_four_connections", many, ["wait,0", "con,4,0,31,0"], (1, 16), full)
case("up_with_one_fewer_again", many, ["dcon,0,0,31,0", "con,4,0,31,0", "con,4,1,31,0"], (2, 16), full)



# ---- tickets: sheets that open with `sheet=2`
def tickets(name, program, told, queue=None, depth=0):
    """One component of the pair, added; or up at the start, with this queue and last ticket."""
    start = None if queue is None else f"instances=1\ninstance=0,0,0,-,-,{queue}\nconnections=0\n"
    added = ["add,0,0"] if queue is None else []
    case("ticket_" + name, pair, added + program, told, start, depth, 2)


def push(*numbers):
    return [f"pushb,0,0,{x}" for x in numbers]


# 19, on both sides of the last
tickets("above_the_last", push(0, 1, 254, 255), (5, 0))
tickets("as_high_as_the_last", push(4, 5, 5), (3, 19))
tickets("0_again", push(0, 0), (2, 19))
tickets("255_again", push(255, 255), (2, 19))
tickets("below_the_last", push(5, 4), (2, 19))
tickets("below_the_last_and_not_pushed", push(2, 9, 5), (3, 19))
tickets("of_no_such_behavior", push(5) + ["pushb,0,1,6", "pushb,0,2,6"], (3, 13))
tickets("13_before_19", push(5) + ["pushb,0,2,5"], (2, 13))
tickets("19_with_a_full_queue", push(5, 6, 6), (3, 19), depth=1)
tickets("nine_pushes", push(*range(9)), (10, 0))
tickets("19_behind_a_ninth", push(*range(9), 8), (10, 19))
tickets("19_after_a_wait", push(5) + ["wait,0,5", "wait,0"] + push(5), (4, 19))
tickets("of_each_its_own", ["add,1,1", "pushb,0,0,5", "pushb,1,0,5", "pushb,1,0,4"], (4, 19))
tickets("begin_anew", push(5) + ["del,0", "add,0,1"] + push(5, 0), (5, 19))
tickets("of_one_not_added", ["pushb,1,0,5"], (1, 11))

# 24, and what may be 23 passed over
tickets("waited_for", push(3, 5) + ["wait,0,3", "wait,0,5", "wait,0,3", "wait,0", "del,0"], (8, 0))
tickets("left_out", push(3, 5) + ["wait,0,5", "wait,0,4"], (4, 24))
tickets("before_the_first", push(3) + ["wait,0,2"], (2, 24))
tickets("after_the_last", push(3) + ["wait,0,4"], (2, 24))
tickets("0_waited_for", push(0) + ["wait,0,0"], (3, 0))
tickets("0_never_pushed", push(1) + ["wait,0,0"], (2, 24))
tickets("255_waited_for", push(255) + ["wait,0,255"], (3, 0))
tickets("255_never_pushed", push(254) + ["wait,0,255"], (2, 24))
tickets("pushed_later", ["wait,0,5"] + push(5), (1, 24))
tickets("none_pushed", ["wait,0", "wait,0,0"], (2, 24))
tickets("of_an_earlier_life", push(5) + ["wait,0,5", "del,0", "add,0,0", "wait,0,5"], (5, 24))
tickets("of_another", ["add,1,1", "pushb,1,0,5", "wait,1,5", "wait,0,5"], (4, 24))
tickets("waited_for_of_one_deleted", push(5) + ["del,0", "wait,0,5"], (3, 11))
tickets("24_before_a_19", push(5) + ["wait,0,4", "pushb,0,0,5"], (2, 24))
tickets("another_added_between", push(5) + ["add,1,0", "wait,0,5", "wait,1,5"], (4, 24))
tickets("none_of_256", push(*range(254)) + ["wait,0,253"], (256, 0))
tickets("the_last_of_256", push(*range(254)) + ["wait,0,254"], (255, 24))
cases.append(("example_sensor", example("sheet", "sensor").encode(), example("start", "sensor").encode(), (5, 0)))

# at a start: the queue was pushed, and where it is empty the last ticket alone
tickets("up_and_queued", ["wait,0,2", "wait,0,5"] + push(6), (3, 0), "0:2+1:5,5")
tickets("up_between_two", ["wait,0,4"], (0, 24), "0:2+1:5,5")
tickets("up_as_high_as_the_tail", push(5), (0, 19), "0:2+1:5,5")
tickets("up_below_the_tail", ["wait,0,2"] + push(3), (1, 19), "0:2+1:5,5")
tickets("up_above_the_tail_twice", push(6, 6), (1, 19), "0:2+1:5,5")
tickets("up_with_a_last", ["wait,0,7"] + push(8) + ["wait,0,7", "wait,0,8"], (4, 0), "-,7")
tickets("up_as_high_as_its_last", push(7), (0, 19), "-,7")
tickets("up_below_its_last", ["wait,0,6"], (0, 24), "-,7")
tickets("up_above_its_last", ["wait,0,8"], (0, 24), "-,7")
tickets("up_with_0", ["wait,0,0"] + push(0), (1, 19), "-,0")
tickets("up_with_255", ["wait,0,255"] + push(255), (1, 19), "-,255")
tickets("up_with_none", push(0) + ["wait,0,0", "wait,0,1"], (2, 24), "-,-")
tickets("up_with_none_waited_for", ["wait,0", "wait,0,0"], (1, 24), "-,-")
tickets("up_in_another_life", ["del,0", "add,0,1"] + push(0) + ["wait,0,0", "wait,0,7"], (4, 24), "-,7")
tickets("up_with_a_full_queue", push(5, 5), (1, 19), "0:4,4", depth=1)

# ---- texts at fault: the sheet's, then the start's, as the judge gives them
P = sheet(pair, five)
long_sheet, long_start = "x" * 32769, "y" * 8193
fault("fault_empty_sheet", "", None, "sheet", 1, 2)
fault("fault_sheet_in_the_program", P.replace("con,1", "con,32"), None, "sheet", 29, 3)
fault("fault_sheet_initial", P.replace("initial=0", "initial=-", 1), None, "sheet", 6, 4)
fault("fault_bytes_after_the_sheet", P + "do=wait,9\n", None, "sheet", 32, 5)
fault("fault_long_sheet", long_sheet, long_start, "sheet", 0, 1)
fault("fault_long_start_before_the_sheet", "", long_start, "start", 0, 1)
fault("fault_sheet_before_the_start", P[:-1], "", "sheet", 31, 2)
fault("fault_sheet_3", P.replace("sheet=1", "sheet=3"), None, "sheet", 1, 2)
fault("fault_ticket_in_a_plain_sheet", P.replace("pushb,0,0", "pushb,0,0,0"), None, "sheet", 30, 2)
fault("fault_push_without_a_ticket", P.replace("sheet=1", "sheet=2"), None, "sheet", 30, 2)
T = sheet(pair, ["wait,0,255"], first=2)
fault("fault_ticket_256", T.replace("255", "256"), None, "sheet", 27, 3)
fault("fault_empty_start", P, "", "start", 1, 2)
fault("fault_start_without_last_tickets", T, "start=1\ninstances=1\ninstance=0,0,0,-,-,-\nconnections=0\n", "start", 3, 2)
fault("fault_start_last_256", T, "start=1\ninstances=1\ninstance=0,0,0,-,-,-,256\nconnections=0\n", "start", 3, 3)
fault("fault_start_not_the_tails", T, "start=1\ninstances=1\ninstance=0,0,0,-,-,0:5,6\nconnections=0\n", "start", 3, 4)
fault("fault_start_past_its_type", P, "start=1\ninstances=1\ninstance=0,0,2,-,-,-\nconnections=0\n", "start", 3, 3)
fault("fault_start_ids_fall", P, "start=1\ninstances=2\ninstance=1,1,0,-,-,-\ninstance=0,0,0,-,-,-\nconnections=0\n", "start", 4, 4)
fault("fault_bytes_after_the_start", P, "start=1\ninstances=0\nconnections=0\nx", "start", 4, 5)
fault("fault_start_not_served", P, "start=1\n" + up.replace("0,0,1,-", "0,0,0,-"), "start", 0, 50)
