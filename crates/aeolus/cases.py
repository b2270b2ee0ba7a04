"""The cases of docs/AEOLUS.md: for each its name, sheet, answer, and what it must come to (refused, accepted, text, line)."""


def universe(*types):
    """A sheet of types, each (initial, interfaces, states), a state being its `to=` list and its rows."""
    lines = ["aeolus=1", f"types={len(types)}"]
    for number, (initial, interfaces, states) in enumerate(types):
        lines += [f"type={number}", f"states={len(states)}", f"initial={initial}", f"interfaces={len(interfaces)}"]
        lines += [f"interface={interface}" for interface in interfaces]
        for state, (to, rows) in enumerate(states):
            lines += [f"state={state}", f"to={to}", f"active={len(rows)}"] + rows
    return "".join(line + "\n" for line in lines)


def plan(*steps):
    """An answer; a step is an action's line, or several of them joined by blanks."""
    actions = " ".join(steps).split()
    return "".join(line + "\n" for line in ["plan=1", f"steps={len(actions)}"] + [f"step={action}" for action in actions])


two_states = lambda rows: [("1", []), ("0", rows)]  # noqa: E731
W = universe(
    (0, ["require,0", "require,1", "provide,2"], [("1", []), ("0+2", ["weak=0,1"]), ("1", ["provide=2,64", "weak=0,1", "strong=1,1"])]),
    (0, ["provide,0", "require,3"], two_states(["provide=0,64", "strong=3,0"])),
    (0, ["provide,1"], [("1", []), ("0+2", []), ("1", ["provide=1,2"])]),
    (0, ["require,2"], two_states(["strong=2,3"])),
    (0, ["provide,3"], two_states(["provide=3,64"])),
)
F = universe(
    (0, ["provide,0", "require,1"], two_states(["provide=0,64", "strong=1,1"])),
    (0, ["require,0", "provide,1"], two_states(["provide=1,64", "strong=0,1"])),
)
L = universe((0, ["require,0"], [("-", [])]), (0, ["provide,0"], [("-", ["provide=0,1"])]))

A = "new,0,0 new,1,1 bind,0,0,1 change,1,0,1 change,0,0,1"
U = "new,0,0 new,1,1 new,2,2 bind,0,0,1 bind,1,0,2 change,1,0,1 change,2,0,1 change,0,0,1"
D = U + " change,2,1,2 change,0,1,2"
J = ("new,0,0 new,1,0 new,2,0 new,3,2 bind,1,0,3 bind,1,1,3 bind,1,2,3 change,3,0,1 change,3,1,2 change,0,0,1 change,1,0,1 change,2,0,1"
     " change,0,1,2 change,1,1,2")
V = J + (" new,5,1 change,5,0,1 bind,0,0,5 bind,0,1,5 bind,0,2,5 new,4,2 change,4,0,1 change,4,1,2 unbind,1,2,3 bind,1,2,4 change,2,1,2")
crowd = " ".join([f"new,{z},0" for z in range(9)] + [f"new,{z},1" for z in range(9, 17)]
                 + [f"bind,0,{z},{y}" for z in range(9) for y in range(9, 17)])

# on W unless a sheet is named: what becomes of the actions
walked = [
    ("figure_2b", A, 0, 5),
    ("weak_demand_left", A.replace(" change,1,0,1", ""), 70, 4),
    ("weak_demand_broken_on_the_way", "new,0,0 new,1,1 change,0,0,1 change,1,0,1 bind,0,0,1", 0, 5),
    ("wordpress_before_mysql", U + " change,0,1,2", 69, 8),
    ("figure_3", D, 0, 10),
    ("mysql_stops_under_wordpress", D + " change,2,2,1", 69, 10),
    ("mysql_unbound_under_wordpress", D + " unbind,1,0,2", 69, 10),
    ("mysql_deleted_under_wordpress", D + " del,2", 69, 10),
    ("wordpress_deleted", D + " del,0", 0, 11),
    ("third_user_of_mysql_starts", J + " change,2,1,2", 68, 14),
    ("third_user_of_mysql_bound", V + " bind,1,2,3", 68, 25),
    ("varnish_with_two_of_three", V + " new,6,3 bind,2,6,0 bind,2,6,1 change,6,0,1", 69, 28),
    ("figure_4", V + " new,6,3 bind,2,6,0 bind,2,6,1 bind,2,6,2 change,6,0,1", 0, 30),
    ("conflict_from_its_own_side", "new,0,4 change,0,0,1 new,1,1 change,1,0,1", 69, 3),
    ("conflict_from_the_other_side", "new,1,1 change,1,0,1 new,0,4 change,0,0,1", 69, 3),
    ("bind_to_an_absent_component", "new,0,0 bind,0,0,1", 60, 1),
    ("delete_an_absent_component", "del,0", 60, 0),
    ("change_an_absent_component", "change,0,0,1", 60, 0),
    ("new_twice", "new,0,0 new,0,1", 61, 1),
    ("change_from_another_state", "new,0,0 change,0,1,2", 62, 1),
    ("no_such_change", "new,0,0 change,0,0,2", 63, 1),
    ("first_does_not_require", "new,0,0 new,1,1 bind,1,0,1", 64, 2),
    ("second_does_not_provide", "new,0,0 new,1,1 bind,0,1,0", 64, 2),
    ("bound_twice", "new,0,0 new,1,1 bind,0,0,1 bind,0,0,1", 65, 3),
    ("no_such_binding", "new,0,0 new,1,1 unbind,0,0,1", 66, 2),
    ("unbind_of_absent_components", "unbind,0,30,31", 66, 0),
    ("no_steps", "", 0, 0),
    ("deleted_bindings_do_not_come_back", "new,0,0 new,1,1 bind,0,0,1 del,1 new,1,1 bind,0,0,1", 0, 6),
    ("last_component", "new,31,4 change,31,0,1 new,30,1 change,30,0,1", 69, 3),
]
on_others = [
    ("figure_5", F, "new,0,0 new,1,1 bind,1,0,1 bind,0,1,0 change,0,0,1", 69, 4),
    ("sixty_fifth_binding", L, crowd, 67, 81),
    ("sixty_four_bindings", L, " ".join(crowd.split()[:81]), 0, 81),
]


def typed(interfaces=(), states=(("-", []),), initial=0):
    """A sheet of one type."""
    return universe((initial, list(interfaces), list(states)))


def active(rows, interfaces=("both,0",), initial=0):
    """A sheet of one type whose second state has these rows."""
    return typed(interfaces, [("1", []), ("0", rows)], initial)


many = [f"both,{n}" for n in range(16)]
all_rows = [f"{kind}={n},1" for n in range(16) for kind in ("provide", "weak", "strong")]
# a sheet at its last good value, and the same with one thing past it: number and line
sheets = [
    ("types_0", "aeolus=1\ntypes=0\n", 3, 2), ("types_17", "aeolus=1\ntypes=17\n", 3, 2),
    ("types_16", universe(*[(0, [], [("-", [])])] * 16), 0, 0),
    ("states_0", "aeolus=1\ntypes=1\ntype=0\nstates=0\n", 3, 4), ("states_17", "aeolus=1\ntypes=1\ntype=0\nstates=17\n", 3, 4),
    ("states_16", typed(states=[("15", [])] * 16), 0, 0), ("to_16", typed(states=[("16", [])] * 16), 3, 8),
    ("initial_15", typed(states=[("-", [])] * 16, initial=15), 0, 0), ("initial_16", typed(states=[("-", [])] * 16, initial=16), 3, 5),
    ("interfaces_16", typed(many), 0, 0), ("interfaces_17", typed(many + ["both,16"]), 3, 6),
    ("name_255", typed(["both,255"]), 0, 0), ("name_256", typed(["both,256"]), 3, 7),
    ("name_twice", typed(["both,1", "provide,1"]), 4, 8), ("names_fall", typed(["both,1", "both,0"]), 4, 8),
    ("rows_48", active(all_rows, many), 0, 0), ("rows_49", active(all_rows + ["weak=0,1"], many), 3, 28),
    ("number_64", active(["provide=0,64", "weak=0,64", "strong=0,64"]), 0, 0), ("number_65", active(["provide=0,65"]), 3, 14),
    ("weak_65", active(["weak=0,65"]), 3, 14), ("strong_65", active(["strong=0,65"]), 3, 14), ("row_of_256", active(["provide=256,0"]), 3, 14),
    ("provide_not_provided", active(["provide=0,1"], ["require,0"]), 4, 14), ("weak_not_required", active(["weak=0,1"], ["provide,0"]), 4, 14),
    ("strong_not_required", active(["strong=0,1"], ["provide,0"]), 4, 14), ("row_of_no_interface", active(["weak=1,1"]), 4, 14),
    ("row_twice", active(["weak=0,1", "provide=0,1", "weak=0,2"]), 4, 16), ("weak_and_strong", active(["weak=0,1", "strong=0,2"]), 0, 0),
    ("strong_at_first", active(["strong=0,1"], initial=1), 4, 14), ("weak_at_first", active(["weak=0,0"], initial=1), 0, 0),
    ("strong_in_state_0_of_w", W.replace("to=1\nactive=0\n", "to=1\nactive=1\nstrong=1,1\n", 1), 4, 13),
    ("empty_sheet", "", 2, 1), ("other_paper", "sheet=1\n", 2, 1), ("aeolus_2", "aeolus=2\n", 2, 1),
    ("type_not_due", W.replace("type=1\n", "type=2\n"), 2, 23), ("state_not_due", W.replace("state=1\n", "state=2\n", 1), 2, 13),
    ("kind_unknown", typed(["either,0"]), 2, 7), ("row_unknown", active(["soft=0,1"]), 2, 14), ("row_of_one_number", active(["weak=0"]), 2, 14),
    ("to_itself", typed(states=[("0", [])]), 0, 0), ("bytes_after_the_sheet", typed() + "\n", 5, 10), ("sheet_cut", typed()[:-1], 2, 9),
    ("sheet_too_long", W + "x" * 32768, 1, 0),
]
# the same of an answer to W
answers = [
    ("one_component_bound", plan("new,0,0", "bind,0,0,0"), 4, 4), ("one_component_unbound", plan("unbind,0,3,3"), 4, 3),
    ("type_5_of_five", plan("new,0,5"), 3, 3), ("id_32_new", plan("new,32,0"), 3, 3), ("id_32_del", plan("del,32"), 3, 3),
    ("id_32_change", plan("change,32,0,1"), 3, 3), ("from_16", plan("change,0,16,1"), 3, 3), ("to_state_16", plan("change,0,0,16"), 3, 3),
    ("bind_256", plan("bind,256,0,1"), 3, 3), ("requirer_32", plan("bind,0,32,1"), 3, 3), ("provider_32", plan("bind,0,0,32"), 3, 3),
    ("unbind_256", plan("unbind,256,0,1"), 3, 3), ("both_ends_32", plan("bind,0,32,32"), 3, 3), ("two_numbers_bound", plan("bind,0,0"), 2, 3),
    ("next", plan("next"), 2, 3), ("empty_answer", "", 2, 1), ("answer_of_the_other_paper", "answer=1\nsteps=0\n", 2, 1), ("plan_2", "plan=2\nsteps=0\n", 2, 1),
    ("steps_1025", "plan=1\nsteps=1025\n", 3, 2), ("bytes_after_the_plan", plan("new,0,0") + "step=del,0\n", 5, 4),
    ("plan_ended_early", "plan=1\nsteps=1\n", 2, 3), ("plan_cut", plan("new,0,0")[:-1], 2, 3), ("plan_too_long", plan() + "x" * 32768, 1, 0),
]
greatest = plan(*["unbind,255,31,30"] * 1)
limits_kept = [("change_15", plan("new,31,4", "change,31,15,15"), 62, 1), ("unbind_255", greatest, 66, 0),
               ("thousand_actions", plan(*["new,0,0", "del,0"] * 512), 0, 1024)]

cases = [(name, W, plan(steps), (refused, accepted, "-", 0)) for name, steps, refused, accepted in walked]
cases += [(name, sheet, plan(steps), (refused, accepted, "-", 0)) for name, sheet, steps, refused, accepted in on_others]
cases += [(name, sheet, plan(), (refused, 0, "sheet" if refused else "-", line)) for name, sheet, refused, line in sheets]
cases += [(name, W, answer, (refused, 0, "answer", line)) for name, answer, refused, line in answers]
cases += [(name, W, answer, (refused, accepted, "-", 0)) for name, answer, refused, accepted in limits_kept]
cases += [("both_too_long", "x" * 32769, "x" * 32769, (1, 0, "sheet", 0)), ("both_faulty", "x", "x", (2, 0, "sheet", 1))]
