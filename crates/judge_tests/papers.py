"""The worked examples of three papers as pairs of texts: 'Toward Safe and Efficient Reconfiguration with Concerto', 'An Overview of the Decentralized
Reconfiguration Language Concerto-D through its Maude Formalization' and 'Enhancing Separation of Concerns, Parallelism, and Formalism in Distributed
Software Deployment with Madeus'. Ports carry no data here, actions take no time, and a program begins with no instance, so each paper's assembly is built first."""
from notation import example, move, nexts, sheet

papers = []


def case(name, text, steps, accepted, refused, port="-"):
    """A pair of texts as pairs.py has them: the steps accepted, the number or 0, and the use port of a 34 or 38."""
    papers.append((name, text, steps, accepted, refused, port))


# ---- Concerto, Figures 3 and 4. A port's transitions are those between two places of its group.
# server: places undeployed, allocated, running; to allocated, to running, and two back to allocated; behaviors deploy, maintain; provides ip, service
server = (3, "0", ["0,1", "1,2", "2,1", "2,1"], ["0+1", "2+3"], ["provide,1+2,1+2+3", "provide,2,-"])
# client: places uninstalled, installed, configured, running, paused; install1, install2, configure, start, suspend1, suspend2; behaviors install, suspend;
# uses server_ip, server
client = (5, "0", ["0,1", "0,2", "1,2", "2,3", "3,4", "4,2"], ["0+1+2+3", "4+5"], ["use,1+2+3+4,2+3+4+5", "use,3+4,4"])
# Listing 2, lines 2 to 8, and Listing 3, lines 2 to 6: the client is 0, the server 1. `synchronize` is the end of the program.
listing_2 = ["add,0,1", "add,1,0", "con,0,0,1,0", "con,0,1,1,1", "pushb,0,0", "pushb,1,0", "wait,0"]
listing_3 = ["pushb,1,1", "pushb,1,0", "pushb,0,1", "pushb,0,0", "wait,0"]
assert sheet([server, client], listing_2 + listing_3) == example("sheet")


def served(*more):
    """Listing 2, and then more."""
    return sheet([server, client], listing_2 + list(more))


# the configurations 0 to 9 of section 3.5, with the step that leads to each
deploy = [
    nexts(6),
    ["fire,0,0", "fire,1,0"],
    ["end,0,0"],
    ["end,1,0", "enter,1,1"],
    ["enter,0,1"],
    ["fire,0,1", "fire,1,1", "end,0,1"],
    ["end,0,2"],
    ["enter,0,2"],
    ["fire,0,2", "end,0,3", "end,1,1", "enter,1,2", "finish,1"],
    ["enter,0,3", "finish,0", "next"],
]
case("concerto_deploy", served(), deploy, 25, 0)
case("concerto_deploy_installed_before_the_ip", served(), [deploy[:3], "enter,0,1"], 9, 34, 0)
case("concerto_deploy_configured_by_one_of_two", served(), [deploy[:6], "enter,0,2"], 15, 31)
case("concerto_deploy_finished_while_configured", served(), [deploy[:8], "finish,0"], 17, 37)
case("concerto_deploy_running_before_its_server", served(), [deploy[:8], "fire,0,2", "end,0,3", "enter,0,3"], 19, 34, 1)
case("concerto_deploy_waited_for_too_early", served(), [deploy[:9], "next"], 22, 21)

# the operations of section 3.3
suspended = ["next", move(0, 4, 3, 4), move(0, 5, 4, 2), "finish,0", "next"]
case("concerto_name_not_unique", sheet([server, client], listing_2[:2] + ["add,0,0"]), [nexts(3)], 2, 12)
case("concerto_port_already_linked", sheet([server, client], listing_2[:4] + ["con,0,1,1,0"]), [nexts(5)], 4, 15)
case("concerto_behavior_not_of_its_type", sheet([server, client], listing_2[:4] + ["pushb,0,2"]), [nexts(5)], 4, 13)
case("concerto_disconnected_while_running", served("dcon,0,1,1,1"), [deploy, "next"], 25, 22)
case("concerto_disconnected_once_suspended", served("pushb,0,1", "wait,0", "dcon,0,1,1,1"), [deploy, suspended, "next"], 35, 0)
case("concerto_disconnected_from_the_ip", served("pushb,0,1", "wait,0", "dcon,0,1,1,1", "dcon,0,0,1,0"), [deploy, suspended, nexts(2)], 35, 22)
case("concerto_deleted_while_linked", served("wait,1", "del,1"), [deploy, nexts(2)], 26, 18)
case("concerto_deleted_unlinked", sheet([server], ["add,1,0", "pushb,1,0", "wait,1", "del,1"]), [nexts(2), move(1, 0, 0, 1), move(1, 1, 1, 2), "finish,1", nexts(2)], 11, 0)

# the configurations 0 to 8 of Listing 3
maintain = [
    nexts(4),
    ["fire,0,3"],
    ["end,0,4", "enter,0,4", "fire,0,4", "fire,1,2"],
    ["end,0,5", "enter,0,2", "finish,0", "end,1,2"],
    ["end,1,3", "fire,0,2"],
    ["enter,1,1", "finish,1"],
    ["fire,1,1", "end,0,3"],
    ["end,1,1", "enter,1,2", "finish,1"],
    ["enter,0,3", "finish,0", "next"],
]
maintained = served(*listing_3)
case("concerto_maintain", maintained, [deploy, maintain], 50, 0)
case("concerto_maintain_service_interrupted", maintained, [deploy, maintain[:2], "fire,1,2"], 30, 36)
case("concerto_maintain_finished_while_paused", maintained, [deploy, maintain[:2], "end,0,4", "enter,0,4", "finish,0"], 32, 37)
case("concerto_maintain_allocated_by_one_of_two", maintained, [deploy, maintain[:4], "enter,1,1"], 38, 31)
case("concerto_maintain_deploy_not_yet_current", maintained, [deploy, maintain[:5], "enter,1,1", "fire,1,1"], 41, 32)
case("concerto_maintain_running_before_its_server", maintained, [deploy, maintain[:7], "enter,0,3"], 44, 34, 1)
case("concerto_maintain_waited_for_too_early", maintained, [deploy, maintain[:8], "next"], 47, 21)
# section 3.4: a component about to interrupt its service takes no new user, and one that may not interrupt it stays in its behavior
case("concerto_maintain_additional_usage_blocked", maintained, [deploy, nexts(4), suspended[1:4], "fire,0,2", "end,0,3", "enter,0,3"], 38, 35)
case("concerto_maintain_without_suspend", served(*listing_3[:2]), [deploy, nexts(2), "finish,1"], 27, 37)

# ---- Concerto, Figure 5. The figure is not in the text: what lies between the named places is read from Table 2, and allocated and the two
# transitions without a name and a duration that leave it are ours.
# dependency: places uninstalled, installed, running; di, dr, du; behaviors install, update; provides config, service
dependency = (3, "0", ["0,1", "1,2", "2,1"], ["0+1", "2"], ["provide,1+2,1+2", "provide,2,-"])
# server: places undeployed, allocated, sconf1, sconf2, configured, running, s1, s2; sa, two without a name, sc1, sc2, sr, ss1, ss2, sp1, sp2;
# behaviors deploy, suspend; uses config1, config2, service1, service2
stations = ["0,1", "1,2", "1,3", "2,4", "3,4", "4,5", "5,6", "5,7", "6,4", "7,4"]
configs = ["use,2+4+5+6+7,3+5+6+7+8+9", "use,3+4+5+6+7,4+5+6+7+8+9"]
server_2 = (8, "0", stations, ["0+1+2+3+4+5", "6+7+8+9"], configs + ["use,5+6,6", "use,5+7,7"])
# Listings 8 and 10 for two dependencies, with the server's push once and after the loop, then Listing 4: the server is 0, dep1 is 1, dep2 is 2
listing_8 = ["add,1,0", "pushb,1,0", "add,2,0", "pushb,2,0"]
listing_10 = ["add,0,1", "con,0,0,1,0", "con,0,2,1,1", "con,0,1,2,0", "con,0,3,2,1", "pushb,0,0"]
listing_4 = ["pushb,1,1", "pushb,0,1", "pushb,0,0", "pushb,1,0", "wait,0"]
updated = sheet([dependency, server_2], listing_8 + listing_10 + listing_4)
figure_5 = [
    nexts(10),
    [[move(i, 0, 0, 1), move(i, 1, 1, 2), f"finish,{i}"] for i in (1, 2)],
    move(0, 0, 0, 1),
    ["fire,0,1", "end,0,1", "end,0,2", "enter,0,2", "enter,0,3"],
    ["fire,0,2", "fire,0,3", "end,0,3", "end,0,4", "enter,0,4"],
    [move(0, 5, 4, 5), "finish,0"],
]
ss1, ss2 = ["end,0,6", "enter,0,6", "fire,0,6"], ["end,0,7", "enter,0,7", "fire,0,7"]
configured = [ss2, "end,0,8", "end,0,9", "enter,0,4", "finish,0"]
sr = ["fire,0,4", "end,0,5"]
du1 = ["end,1,2", "enter,1,1", "finish,1"]
dr1 = [move(1, 1, 1, 2), "finish,1"]
update = [nexts(4), ["fire,0,5"], ss1, ["fire,1,2"], configured, sr, du1, dr1, ["enter,0,5", "finish,0", "next"]]
case("concerto_update", updated, [figure_5, update], 69, 0)
case("concerto_update_service_in_use", updated, [figure_5, update[:2], "fire,1,2"], 46, 36)
case("concerto_update_service_in_use_at_s1", updated, [figure_5, update[:2], ss1[:2], "fire,1,2"], 48, 36)
case("concerto_update_suspended_too_early", updated, [figure_5, update[:4], "finish,0"], 50, 37)
case("concerto_update_suspend_and_deploy_first", updated, [figure_5, update[:2], ss1, configured, sr, "enter,0,5"], 58, 35)
case("concerto_update_running_before_dep1", updated, [figure_5, update[:6], "enter,0,5"], 59, 34, 2)
case("concerto_update_waited_for_too_early", updated, [figure_5, update[:8], "next"], 66, 21)
# the barrier that would be needed if no port were refusing
barrier = sheet([dependency, server_2], listing_8 + listing_10 + listing_4[:2] + ["wait,1"] + listing_4[2:])
case("concerto_update_with_a_barrier", barrier, [figure_5, nexts(2), update[1:5], du1, nexts(3), sr, dr1, update[8]], 70, 0)
# section 5.3 says that sr is fired only once the service is back, which by the paper's groups holds for its place alone: here sr is in the group
strict = (8, "0", stations, server_2[3], configs + ["use,5+6,5+6", "use,5+7,5+7"])
strictly = sheet([dependency, strict], listing_8 + listing_10 + listing_4)
case("concerto_update_sr_before_the_service", strictly, [figure_5, update[:5], "fire,0,4"], 57, 34, 2)
case("concerto_update_sr_after_the_service", strictly, [figure_5, update[:5], du1, dr1, sr, update[8]], 69, 0)

# ---- Concerto-D, Figure 2. No nodes and no messages here: the nodes' programs are one, and a port's state is seen at once. The figure is not in the text:
# the ends of transitions are read from the configurations, and the database, the system and the listener's port to it are left out as they are there.
# listener: places off, paused, configured, running; to paused, to configured, to running, back to paused, to off; behaviors deploy, update, destroy;
# provides config, rcv
listener = (4, "0", ["0,1", "1,2", "2,3", "3,1", "1,0"], ["0+1+2", "3", "4"], ["provide,2+3,2", "provide,3,-"])
# sensor: places off, provisioned, installed, configured, running; start11, start12, start13, start2, start3, start4, pause1, stop1;
# behaviors start, pause, stop; uses rcv_service, config_service
sensor = (5, "0", ["0,1", "0,1", "0,1", "1,2", "2,3", "3,4", "4,1", "1,0"], ["0+1+2+3+4+5", "6", "7"], ["use,3+4,5", "use,2+3+4,4+5"])
cps = [listener, sensor]


def deployed(i, j):
    """The instructions that lead to configuration 0, for the listener i and its sensor j."""
    return [f"add,{i},0", f"add,{j},1", f"con,{j},0,{i},1", f"con,{j},1,{i},0", f"pushb,{i},0", f"pushb,{j},0"]


def listener_up(i):
    return [move(i, 1, 1, 2), move(i, 2, 2, 3), f"finish,{i}"]


def sensor_up(j):
    return [move(j, 3, 1, 2), move(j, 4, 2, 3), move(j, 5, 3, 4), f"finish,{j}"]


def provisioned(j):
    return [f"fire,{j},0", f"end,{j},0", f"end,{j},1", f"end,{j},2", f"enter,{j},1"]


def all_up(i, j):
    return [move(i, 0, 0, 1), listener_up(i), provisioned(j), sensor_up(j)]


def updating(i, j):
    """The configurations 1 to 5 of section 3, without the instructions."""
    return [[f"fire,{j},4"], [f"end,{j},6"], [f"fire,{i},3", f"enter,{j},1", f"finish,{j}"], [f"end,{i},3"], [f"enter,{i},1", f"finish,{i}"]]


def restarting(i, j):
    """The configurations 6 to 12."""
    return [
        [f"fire,{j},1", f"end,{j},3"],
        move(i, 1, 1, 2),
        [f"enter,{j},2", f"fire,{i},2"],
        [f"fire,{j},2", f"end,{j},4", f"end,{i},2", f"enter,{i},3"],
        [f"finish,{i}"],
        [f"enter,{j},3"],
        [move(j, 5, 3, 4), f"finish,{j}"],
    ]


# Listings 1 and 2 for listener 0 and sensor 1. There `wait` names one behavior, update; here it waits for the whole queue, so deploy is pushed after it.
cps_update = sheet(cps, deployed(0, 1) + ["pushb,0,1", "pushb,1,1", "wait,0", "pushb,0,0", "pushb,1,0"])
zero = [nexts(6), all_up(0, 1), nexts(2)]
down, back = updating(0, 1), restarting(0, 1)
case("concerto_d_update", cps_update, [zero, down, nexts(3), back], 61, 0)
case("concerto_d_update_under_its_sensor", cps_update, [zero, "fire,0,3"], 33, 36)
case("concerto_d_update_once_its_ports_are_inactive", cps_update, [zero, down[0], "fire,0,3"], 35, 0)
case("concerto_d_update_waited_for_too_early", cps_update, [zero, down[:4], "next"], 39, 21)
case("concerto_d_installed_before_the_config", cps_update, [zero, down, nexts(3), back[0], "enter,1,2"], 46, 34, 1)
case("concerto_d_configured_before_the_service", cps_update, [zero, down, nexts(3), back[:3], "fire,1,2", "end,1,4", "enter,1,3"], 53, 34, 0)
case("concerto_d_no_transition_to_fire", cps_update, [zero, down, nexts(3), back[:4], "fire,0,3"], 55, 32)
case("concerto_d_incoming_not_all_finished", cps_update, [nexts(6), provisioned(1)[:3], "enter,1,1"], 9, 31)
case("concerto_d_push_of_no_such_behavior", sheet(cps, deployed(0, 1)[:4] + ["pushb,1,3"]), [nexts(5)], 4, 13)
case("concerto_d_config_not_connected", sheet(cps, [x for x in deployed(0, 1) if x != "con,1,1,0,0"]), [nexts(5), move(0, 0, 0, 1), listener_up(0), provisioned(1), back[0], "enter,1,2"], 22, 38, 1)
# without the wait the sensor starts again while the listener is still to update: its port is refusing
unwaited = sheet(cps, deployed(0, 1) + ["pushb,0,1", "pushb,0,0", "pushb,1,1", "pushb,1,0"])
case("concerto_d_started_again_before_the_update", unwaited, [zero, nexts(2), move(1, 6, 4, 1), "finish,1", back[0], "enter,1,2"], 41, 35)
# Listing 1 whole before Listing 2: the wait is for deploy too
as_listed = sheet(cps, deployed(0, 1) + ["pushb,0,1", "pushb,0,0", "pushb,1,1", "wait,0", "pushb,1,0"])
case("concerto_d_update_as_listed", as_listed, [zero, "next", down, listener_up(0), nexts(2), sensor_up(1)], 61, 0)
case("concerto_d_update_as_listed_waits_for_deploy", as_listed, [zero, "next", down, "next"], 42, 21)
# two listeners, 0 and 2, with their sensors, 1 and 3: the second pair runs on while the first is updated
twice = ["pushb,0,1", "pushb,2,1", "pushb,1,1", "pushb,3,1", "wait,0", "pushb,0,0", "pushb,1,0", "wait,2", "pushb,2,0", "pushb,3,0"]
two_listeners = sheet(cps, deployed(0, 1) + deployed(2, 3) + twice)
case("concerto_d_two_listeners", two_listeners, [nexts(12), all_up(0, 1), all_up(2, 3), nexts(4), down, nexts(3), back, updating(2, 3), nexts(3), restarting(2, 3)], 122, 0)
case("concerto_d_second_listener_under_its_sensor", two_listeners, [nexts(12), all_up(0, 1), all_up(2, 3), nexts(4), down, "fire,2,3"], 74, 36)
# the actions dcon and del, with stop and destroy
ending = ["pushb,1,1", "pushb,1,2", "wait,1", "dcon,1,0,0,1", "dcon,1,1,0,0", "pushb,0,1", "pushb,0,2", "wait,0", "del,0", "del,1"]
stopped = [zero, move(1, 6, 4, 1), "finish,1", move(1, 7, 1, 0), "finish,1", "next"]
destroyed = [nexts(2), move(0, 3, 3, 1), "finish,0", move(0, 4, 1, 0), "finish,0", nexts(3)]
case("concerto_d_taken_down", sheet(cps, deployed(0, 1) + ending), [stopped, nexts(2), destroyed], 57, 0)
case("concerto_d_disconnected_while_running", sheet(cps, deployed(0, 1) + ending[3:]), [nexts(6), all_up(0, 1), "next"], 31, 22)
case("concerto_d_deleted_while_connected", sheet(cps, deployed(0, 1) + ending[:3] + ["del,1"]), [stopped, "next"], 42, 18)

# ---- Madeus, Figure 2. It has no behaviors and no program: each component has one behavior of all its transitions, and `run` is the pushes and the waits.
# A place once reached enables its port for ever, so a provide port's group is all that lies from its place on; a use port's group is its transition.
# mariadb: places wtg, prd, cfd, std, chd; provision, pull, conf, bootstrap, start, check; provides ip from prd on, serv from std on
database = (5, "0", ["0,1", "1,2", "1,2", "1,2", "2,3", "3,4"], ["0+1+2+3+4+5"])
mariadb = (*database, ["provide,1+2+3+4,1+2+3+4+5", "provide,3+4,5"])
# apache: places wtg, the docks of pull, conf and bootstrap, cfd, std, chd; three that leave wtg for its docks, pull, conf, bootstrap, start, check;
# uses ipMDB, serviceMDB. Here a place's transitions are fired at once, so the docks are places: the token of conf can stay in its own.
apache = (7, "0", ["0,1", "0,2", "0,3", "1,4", "2,4", "3,4", "4,5", "5,6"], ["0+1+2+3+4+5+6+7"], ["use,-,4", "use,-,7"])
# Listing 3: apache is 0, mariadb is 1
run = ["add,0,0", "add,1,1", "con,0,0,1,0", "con,0,1,1,1", "pushb,0,0", "pushb,1,0", "wait,0", "wait,1"]
assembly = sheet([apache, mariadb], run)
docks = ["fire,0,0", "end,0,0", "end,0,1", "end,0,2", "enter,0,1", "enter,0,2", "enter,0,3"]
waiting = [nexts(6), docks, "fire,0,1", "fire,0,3", "end,0,3"]
red = [waiting, move(1, 0, 0, 1)]
blue = [red, "fire,0,2", "fire,1,1"]
started = [blue, "end,0,4", "end,0,5", "enter,0,4", move(0, 6, 4, 5)]
green = [started, "end,1,1", "end,1,2", "end,1,3", "enter,1,2", move(1, 4, 2, 3)]
checked = [green, "fire,0,5", "fire,1,3", "end,0,7", "enter,0,6"]
case("madeus_commissioning", assembly, [checked, "end,1,5", "enter,1,4", "finish,0", "finish,1", nexts(2)], 44, 0)
case("madeus_conf_before_the_ip", assembly, [waiting, "fire,0,2"], 16, 34, 0)
case("madeus_conf_terminated_unfired", assembly, [red, "end,0,4"], 19, 31)
case("madeus_reached_with_conf_ongoing", assembly, [blue, "end,0,5", "enter,0,4"], 22, 31)
case("madeus_over_with_actions_ongoing", assembly, [blue, "finish,1"], 21, 37)
case("madeus_check_before_the_service", assembly, [started, "fire,0,5"], 27, 34, 1)
case("madeus_final_place_left", assembly, [checked, "fire,0,6"], 38, 32)
case("madeus_over_before_mariadb", assembly, [checked, "finish,0", nexts(2)], 40, 21)
case("madeus_ip_not_connected", sheet([apache, mariadb], [x for x in run if x != "con,0,0,1,0"]), [nexts(5), docks, move(1, 0, 0, 1), "fire,0,2"], 15, 38, 0)
# Listing 1 binds ip to wtg and section 4.3 to the second place: by the listing it is there at once, but a group of wtg alone would lose it
from_wtg = (*database, ["provide,0+1+2+3+4,0+1+2+3+4+5", "provide,3+4,5"])
wtg_alone = (*database, ["provide,0,-", "provide,3+4,5"])
case("madeus_ip_from_the_first_place", sheet([apache, from_wtg], run), [nexts(6), docks, "fire,0,2"], 14, 0)
case("madeus_ip_of_the_first_place_alone", sheet([apache, wtg_alone], run), [nexts(6), docks, "fire,0,2"], 13, 35)
case("madeus_ip_of_the_first_place_alone_lost", sheet([apache, wtg_alone], run), [nexts(6), docks, "fire,1,0", "fire,0,2"], 14, 34, 0)
# apache as listed, places wtg, cfd, std, chd: without docks pull and bootstrap wait with conf
plain = (4, "0", ["0,1", "0,1", "0,1", "1,2", "2,3"], ["0+1+2+3+4"], ["use,-,1", "use,-,4"])
undocked = sheet([plain, mariadb], run)
parallel = [nexts(6), move(1, 0, 0, 1), "fire,0,0", "fire,1,1", "end,0,0", "end,0,1", "end,0,2", "enter,0,1", move(0, 3, 1, 2)]
both_checked = ["fire,0,2", "fire,1,3", "end,0,4", "enter,0,3", "end,1,5", "enter,1,4", "finish,0", "finish,1", nexts(2)]
case("madeus_without_docks", undocked, [parallel, "end,1,1", "end,1,2", "end,1,3", "enter,1,2", move(1, 4, 2, 3), both_checked], 35, 0)
case("madeus_without_docks_before_the_ip", undocked, [nexts(6), "fire,0,0"], 6, 34, 0)
