"""The texts that the program `timing_tests` runs, in triples of sheet, answer and times, some with a start before the answer. What they must come to is said
beside them: the number and the mark, or the text, the line and the number of a fault."""
from pairs import A, P, Plus, answer, example, forked, move, nexts, pairs, provider, sheet, up0
from starts import cut, encoded, start

# two components of one type, whose one behavior goes from place 0 to place 1; no port stands in the way
alone = (2, "0", ["0,1"], ["0"], [])
twins = sheet([alone], ["add,0,0", "add,1,0", "pushb,0,0", "pushb,1,0"])
together = answer(nexts(4), "fire,0,0", "fire,1,0", "end,0,0", "end,1,0")
other_way = answer(nexts(4), "fire,0,0", "fire,1,0", "end,1,0", "end,0,0")
one_by_one = answer(nexts(4), "fire,0,0", "end,0,0", "fire,1,0", "end,1,0")
too_soon = answer(nexts(4), "fire,0,0", "end,0,0", "end,1,0")

triples = []


def times(par, *rows):
    return f"times=1\npar={par}\nrows={len(rows)}\n" + "".join(f"time={row}\n" for row in rows)


def seconds(par, first, second):
    return times(par, f"0,0,{first}", f"1,0,{second}")


def case(name, text, steps, third, mark, refused=0, first=None):
    """Texts that are read: the mark, and the number of the step that is refused or 0."""
    triples.append((name, text.encode(), encoded(first), steps.encode(), third.encode(), (refused, mark, "neither", 0)))


def fault(name, third, line, refused, text=twins, steps=one_by_one, which="times", first=None):
    """A text that is refused, the times if no other is named: its line from 1 (0 for a length), and the number."""
    triples.append((name, text.encode(), encoded(first), steps.encode(), encoded(third), (refused, 0, which, line)))


# ---- the proved cases
case("at_once", twins, together, seconds(15, 20, 30), 500)
case("one_after_the_other", twins, one_by_one, seconds(15, 20, 30), 300)
case("half_goes_down", twins, one_by_one, seconds(1, 8, 8), 62)
case("half_of_a_small_mark_goes_down", twins, one_by_one, seconds(1, 200, 200), 2)
case("capped", twins, together, seconds(31, 20, 30), 1000)
case("capped_far", twins, together, seconds(1000000, 20, 30), 1000)
case("not_capped", twins, one_by_one, seconds(9990, 5000, 5000), 999)
case("rounded_once", twins, one_by_one, seconds(62, 25, 100), 496)
case("no_seconds", twins, one_by_one, seconds(1, 0, 0), 1000)
case("no_rows", twins, one_by_one, times(1), 1000)
case("refused_step", twins, too_soon, seconds(15, 20, 30), 0, 31)
fault("empty_times", "", 1, 40)
fault("row_of_two_numbers", times(1, "0,0"), 4, 40)
fault("seconds_past_86400", times(1, "0,0,86401"), 4, 41)
fault("pair_twice", times(1, "0,0,5", "0,0,6"), 5, 42)
fault("row_past_the_last", times(1) + "time=0,0,5\n", 4, 40)

# ---- the mark
for name, par, clock, mark in (
    ("half_to_0", 1, 2000, 0),
    ("just_past_half_to_1", 1, 1999, 1),
    ("one_and_a_half_to_1", 3, 2000, 1),
    ("half_below_the_full_mark", 1999, 2000, 999),
    ("past_half_below_the_full_mark", 2499, 2500, 1000),
    ("clock_of_par", 86400, 86400, 1000),
    ("third_goes_down", 1, 3, 333),
    ("two_thirds_go_up", 2, 3, 667),
    ("least_par_and_a_long_clock", 1, 86400, 0),
):
    case(name, twins, one_by_one, seconds(par, clock, 0), mark)

# ---- the clock
case("clock_does_not_go_back", twins, other_way, seconds(15, 20, 30), 500)
case("later_end_of_an_earlier_fire", twins, together, seconds(15, 30, 20), 500)
case("fire_without_end", twins, answer(nexts(4), "fire,0,0", "fire,1,0"), seconds(1, 20, 30), 1000)
case("no_steps", twins, answer(), seconds(1, 20, 30), 1000)
case("pair_not_listed", twins, one_by_one, times(15, "1,0,30"), 500)
case("pair_of_another_component", twins, one_by_one, times(15, "2,0,30", "0,1,30", "31,31,30"), 1000)
both = [nexts(2), "fire,0,0", "end,0,1", "end,0,0", "enter,0,1", "enter,0,2", "fire,0,1", "fire,0,2", "end,0,2", "end,0,3", "enter,0,3", "finish,0"]
case("fork_and_join", forked, answer(both), times(24, "0,0,10", "0,1,25", "0,2,8", "0,3,15"), 600)
case("fire_starts_what_leaves_its_place_alone", forked, answer(both[:6], "fire,0,1", "end,0,2", "fire,0,2", "end,0,3"), times(24, "0,0,10", "0,1,25", "0,2,8", "0,3,15"), 500)
again = sheet([provider], ["add,0,0", "pushb,0,0", "pushb,0,1", "pushb,0,0"])
case("fired_again_is_noted_again", again, answer(nexts(4), up0, "finish,0", move(0, 1, 1, 0), "finish,0", up0), times(27, "0,0,20", "0,1,5"), 600)
anew = sheet([provider], ["add,0,0", "pushb,0,0", "del,0", "add,0,0", "pushb,0,0"])
case("added_again_is_noted_again", anew, answer(nexts(2), up0, "finish,0", nexts(3), up0), times(30, "0,0,20"), 750)
case("pair", P, answer(A), times(45, "0,0,20", "1,0,40"), 750)
case("maintenance", example("sheet"), example("answer"), example("times"), 851)
busy = {name: (text.decode(), steps.decode()) for name, text, steps, _ in pairs}["all_busy"]
every = [f"{i},{x},86400" for i in range(32) for x in range(32)]
case("every_pair_listed", *busy, times(1000000, *every), 49)

# ---- a refused step
case("refused_next", P, answer(nexts(6)), times(1, "0,0,20"), 0, 10)
case("refused_in_use", Plus, answer(nexts(6), up0, "fire,1,0", "finish,0", "fire,0,1"), times(1, "0,0,20"), 0, 36)
case("refused_at_clock_0", P, answer(nexts(5), "fire,1,0"), times(1), 0, 34)

# ---- each number at its last good value and one past it
case("least_par", twins, one_by_one, times(1), 1000)
fault("par_below_1", times(0), 2, 41)
case("greatest_par", twins, one_by_one, times(1000000), 1000)
fault("par_past_1000000", times(1000001), 2, 41)
fault("rows_past_1024", "times=1\npar=1\nrows=1025\n", 3, 41)
case("greatest_id", twins, one_by_one, times(1, "31,0,5"), 1000)
fault("id_past_31", times(1, "32,0,5"), 4, 41)
case("greatest_transition", twins, one_by_one, times(1, "0,31,5"), 1000)
fault("transition_past_31", times(1, "0,32,5"), 4, 41)
case("greatest_seconds", twins, one_by_one, times(43200, "0,0,86400"), 500)
for name, third, line in (("par", "times=1\npar=%s\nrows=0\n", 2), ("rows", "times=1\npar=1\nrows=%s\n", 3), ("id", times(1, "%s,0,0"), 4), ("transition", times(1, "0,%s,0"), 4), ("seconds", times(1, "0,0,%s"), 4)):
    fault(name + "_of_seven_digits", third % "9999999", line, 41)
    fault(name + "_of_eight_digits", third % "10000000", line, 40)
    fault(name + "_with_a_leading_zero", third % "01", line, 40)
    fault(name + "_missing", third % "", line, 40)

# ---- form
for name, third, line in (
    ("first_line_of_another_number", "times=2\npar=1\nrows=0\n", 1),
    ("first_line_of_seven_digits", "times=1000000\npar=1\nrows=0\n", 1),
    ("first_line_left_out", "par=1\nrows=0\n", 1),
    ("answer_in_place_of_times", one_by_one, 1),
    ("key_in_upper_case", "times=1\nPar=1\nrows=0\n", 2),
    ("lines_exchanged", "times=1\nrows=0\npar=1\n", 2),
    ("carriage_return", "times=1\npar=1\r\nrows=0\n", 2),
    ("line_empty", "times=1\n\npar=1\nrows=0\n", 2),
    ("rows_left_out", "times=1\npar=1\ntime=0,0,5\n", 3),
    ("number_with_a_sign", "times=1\npar=1\nrows=-1\n", 3),
    ("row_of_another_key", "times=1\npar=1\nrows=1\nrow=0,0,5\n", 4),
    ("row_of_four_numbers", times(1, "0,0,5,0"), 4),
    ("blank_in_a_row", times(1, "0, 0,5"), 4),
    ("fraction_of_a_second", times(1, "0,0,5.5"), 4),
):
    fault(name, third, line, 40)

# ---- two faults in one line, and pairs
fault("bad_form_before_a_limit", times(1, "32,0,x"), 4, 40)
fault("limit_before_a_pair_twice", times(1, "0,0,5", "0,0,86401"), 5, 41)
fault("bad_form_before_a_pair_twice", times(1, "0,0,5", "0,0,x"), 5, 40)
fault("pair_twice_without_lf", times(1, "0,0,5", "0,0,5")[:-1], 5, 40)
fault("limit_without_lf", times(1, "0,0,86401")[:-1], 4, 40)
fault("pair_twice_with_the_same_seconds", times(1, "0,0,5", "0,0,5"), 5, 42)
fault("pair_twice_with_0_seconds", times(1, "0,0,0", "0,0,0"), 5, 42)
fault("pair_twice_with_rows_between", times(1, "31,31,5", "31,30,5", "30,31,5", "31,31,6"), 7, 42)
fault("first_fault_decides", times(1, "0,0,5", "0,0,6", "32,0,5", "x"), 5, 42)
case("rows_in_any_order", twins, one_by_one, times(25, "1,0,30", "31,31,9", "0,1,9", "0,0,20"), 500)

# ---- the text as a whole
some = seconds(15, 20, 30)
fault("no_file", None, 1, 40)
fault("ended_after_the_first_line", "times=1\n", 2, 40)
fault("ended_before_the_rows", "times=1\npar=1\n", 3, 40)
fault("ended_early", "times=1\npar=1\nrows=2\ntime=0,0,5\n", 5, 40)
fault("ended_in_a_line", some[:-1], 5, 40)
fault("byte_after", some + "#", 6, 40)
fault("empty_line_after", some + "\n", 6, 40)
fault("times_of_the_greatest_length", some + "#" * (32768 - len(some)), 6, 40)
fault("times_too_long", some + "#" * (32769 - len(some)), 0, 40, steps=too_soon)

# ---- faults of the sheet and of the answer come before those of the times, and these before any step
fault("sheet_and_times_faulty", "", 1, 2, text="sheet=3\n", which="sheet")
fault("sheet_going_on_and_times_faulty", "times=2\n", 1 + twins.count("\n"), 5, text=twins + "#", which="sheet")
fault("answer_and_times_faulty", times(0), 2, 3, steps="answer=1\nsteps=1025\n", which="answer")
fault("answer_faulty_and_times_too_long", "#" * 32769, 1, 2, steps="answer=2\n", which="answer")
fault("all_faulty", "", 1, 2, text="", steps="", which="sheet")
fault("answer_faulty_and_times_good", some, 3, 5, steps="answer=1\nsteps=0\n#", which="answer")
fault("times_before_any_step", times(1, "0,0,86401"), 4, 41, steps=too_soon)

# ---- what runs at the start was noted at 0
running = start(["0,0,-,0,-,0", "1,0,0,-,-,0"])
nothing = sheet([alone], [])
case("running_at_the_start", nothing, answer("end,0,0"), seconds(15, 20, 30), 750, first=running)
case("running_at_the_start_and_one_fired_beside_it", nothing, answer("fire,1,0", "end,0,0", "end,1,0"), seconds(15, 20, 30), 500, first=running)
case("running_at_the_start_ended_after_the_other", nothing, answer("fire,1,0", "end,1,0", "end,0,0"), seconds(15, 20, 30), 500, first=running)
case("running_at_the_start_ended_before_a_fire", nothing, answer("end,0,0", "fire,1,0", "end,1,0"), seconds(15, 20, 30), 300, first=running)
case("both_running_at_the_start", nothing, answer("end,1,0", "end,0,0"), seconds(15, 20, 30), 500, first=start(["0,0,-,0,-,0", "1,0,-,0,-,0"]))
case("running_at_the_start_and_never_ended", nothing, answer("fire,1,0"), seconds(15, 20, 30), 1000, first=running)
case("ended_at_the_start_takes_no_time", nothing, answer("enter,0,1", "finish,0"), seconds(15, 20, 30), 1000, first=start(["0,0,-,-,0,0"]))
case("running_at_the_start_not_listed", nothing, answer("end,0,0"), times(15, "1,0,30"), 1000, first=running)
case("two_of_one_component_running_at_the_start", sheet([(3, "0", ["0,1", "0,2"], ["0+1"], [])], []), answer("end,31,1", "end,31,0"), times(15, "31,0,20", "31,1,30"), 500, first=start(["31,0,-,0+1,-,0"]))
case("fired_again_after_the_start_is_noted_again", sheet([provider], ["pushb,0,1", "pushb,0,0"]), answer(nexts(2), "end,0,0", "enter,0,1", "finish,0", move(0, 1, 1, 0), "finish,0", up0), times(27, "0,0,20", "0,1,5"), 600, first=start(["0,0,-,0,-,0"]))
case("nothing_up_at_the_start", twins, one_by_one, seconds(15, 20, 30), 300, first=start())
case("refused_step_from_a_start", nothing, answer("end,1,0"), seconds(15, 20, 30), 0, 31, first=running)
maintenance = next(cut(text, steps, 35) for name, text, steps, _ in pairs if name == "maintenance")
rest, reached, left = (text.decode() for text in maintenance)
case("maintenance_from_its_35th_step", rest, left, example("times").replace("par=200", "par=60"), 667, first=reached)
second = {name: example(name, "second-year") for name in ("sheet", "start", "answer", "times")}
case("second_year", second["sheet"], second["answer"], second["times"], 833, first=second["start"])
fault("start_faulty", some, 1, 2, which="start", first="start=2\n")
fault("start_empty", some, 1, 2, which="start", first="")
fault("start_too_long", some, 0, 1, which="start", first="#" * 8193)
fault("start_unserved", some, 0, 50, text=P, which="start", first=start(["1,1,1,-,-,-"]))
fault("start_and_times_faulty", "", 3, 3, which="start", first=start(["32,0,-,-,-,-"]))
fault("start_unserved_and_times_faulty", "", 0, 50, text=P, which="start", first=start(["1,1,1,-,-,-"]))
fault("start_faulty_and_times_too_long", "#" * 32769, 3, 4, which="start", first=start(["0,0,-,0,-,-"]))
fault("start_good_answer_and_times_faulty", "", 1, 2, steps="", which="answer", first=running)
fault("start_good_and_times_faulty", times(0), 2, 41, first=running)
fault("sheet_and_start_and_times_faulty", "", 1, 2, text="", which="sheet", first="")

# ---- sheets with tickets, C-21
ticketed = sheet([alone], ["add,0,0", "add,1,0", "pushb,0,0,7", "pushb,1,0,7"], first=2)
case("tickets_at_once", ticketed, together, seconds(15, 20, 30), 500)
case("tickets_one_after_the_other", ticketed, one_by_one, seconds(15, 20, 30), 300)
case("tickets_shown_before_the_mark", ticketed, answer(nexts(4), "fire,0,0"), seconds(15, 20, 30), 1000)
waiting = sheet([provider], ["add,0,0", "pushb,0,0,0", "pushb,0,1,255", "wait,0,0", "wait,0,255"], first=2)
turn = [nexts(3), up0, "finish,0", "next", move(0, 1, 1, 0), "finish,0", "next"]
case("tickets_waited_for", waiting, answer(*turn), times(30, "0,0,20", "0,1,20"), 750)
case("ticket_still_queued", waiting, answer(*turn[:4], nexts(2)), times(30, "0,0,20", "0,1,20"), 0, 23)
case("ticket_never_pushed", waiting.replace("wait,0,0", "wait,0,1"), answer(*turn), times(30, "0,0,20", "0,1,20"), 0, 24)
case("ticket_not_above_the_last", waiting.replace("pushb,0,1,255", "pushb,0,1,0"), answer(*turn), times(30, "0,0,20", "0,1,20"), 0, 19)
case("tickets_running_at_the_start", sheet([alone], ["wait,0,4"], first=2), answer("end,0,0", "enter,0,1", "finish,0", "next"), times(15, "0,0,20"), 750, first=start(["0,0,-,0,-,0:4,4"]))
sensor = {name: example(name, "sensor") for name in ("sheet", "start", "answer")}
case("sensor", sensor["sheet"], sensor["answer"], times(60, "0,1,20", "0,2,10", "0,3,30", "1,3,15", "1,4,10", "1,5,5", "1,6,5"), 706, first=sensor["start"])
fault("tickets_and_times_2", "times=2\npar=1\nrows=0\n", 1, 40, text=ticketed)
fault("tickets_missing", some, ticketed[: ticketed.index("do=pushb")].count("\n") + 1, 2, text=ticketed.replace(",0,7", ",0"), which="sheet")
fault("tickets_missing_at_the_start", some, 3, 2, text=ticketed, which="start", first=running)
