"""The cases of the program `hall_tests`: what is lent, the number and the use port that it must get, and, where the step is allowed, what it must leave."""
from model import empty, server, slot_of
from notation import ADD, CON, DCON, DEL, END, ENTER, FINISH, FIRE, NEXT, PUSHB, WAIT
from notation import case, cases, changed, connection, instance, instruction, row, step, unconnected

# ---- the type: two places, the first initial, one transition between them, one behavior of it; port 0 uses and has the second place,
# ---- port 1 provides and has the first and the transition. Instances 1 and 2 use 0, which may fire.


def plain(k):
    rows = f"destination.{k * 32}=1 behaviors.{k * 8}=1 uses.{k * 16}=1 places.{k * 16}=2 places.{k * 16 + 1}=1 transitions.{k * 16 + 1}=1"
    return row(f"types.{k}", places=2, initial=1, transitions=1, behaviors=1, ports=2) + " " + rows


base = changed(empty(), plain(0) + " count=1 instructions=2 done=1 " + step(FIRE))
base = changed(base, " ".join([instance(0, 0, 1, 1), instance(1, 0, 1), instance(2, 0, 1)]))
base = changed(base, connection(1, 0, 0, 1) + " " + connection(2, 0, 0, 1))
sixteen = " ".join(plain(k) for k in range(1, 16)) + " count=16 "
fired = "instances.0.marked=0 instances.0.running=1"

case("allowed", base, "", 0, fired)
case("any_byte_but_0_is_present", base, "instances.0.present=2 instances.1.present=255", 0, fired)


def limit(name, changes, lawful, broken, number=0, left=fired):
    """One number on both sides of its limit; at the lawful one the step gets its number."""
    case(f"{name}_{lawful}", base, changes.replace("?", str(lawful)), number, left)
    case(f"{name}_{broken}", base, changes.replace("?", str(broken)), 7)


# ---- 7: the tables, in a type that an instance has and in one that none has
limit("depth", "depth=?", 8, 9)
limit("types", sixteen + "count=?", 16, 17)
limit("no_types", "count=?", 1, 0)
for k, wide in (0, ""), (15, sixteen):
    name = "unused_" if k else ""
    limit(f"{name}places", f"{wide}types.{k}.places=?", 16, 17)
    limit(f"{name}no_places", f"{wide}types.{k}.places=?", 2, 0)
    limit(f"{name}initial", f"{wide}types.{k}.initial=?", 1, 0)
    limit(f"{name}initial_place", f"{wide}types.{k}.initial=?", 1, 4)
    limit(f"{name}source", f"{wide}source.{k * 32}=?", 0, 2)
    limit(f"{name}destination", f"{wide}destination.{k * 32}=?", 1, 2)
    limit(f"{name}behavior", f"{wide}behaviors.{k * 8}=?", 1, 2)
    limit(f"{name}kind", f"{wide}uses.{k * 16 + 1}=?", 0, 2)
    limit(f"{name}group_places", f"{wide}places.{k * 16 + 1}=?", 1, 4)
    limit(f"{name}group_transitions", f"{wide}transitions.{k * 16 + 1}=?", 1, 2)
    limit(f"{name}use_of_an_initial_place", f"{wide}places.{k * 16}=?", 2, 1)
limit("one_end", "source.0=?", 0, 1)
limit("transitions", " ".join(f"destination.{x}=1" for x in range(33)) + " types.0.transitions=?", 32, 33)
limit("behaviors", "types.0.behaviors=?", 8, 9)
limit("ports", "types.0.ports=?", 16, 17)
limit("highest_place", "types.0.places=16 places.1=?", 1 | 1 << 15, 1 | 1 << 16)
case("one_place", base, "count=2 types.1.places=1 types.1.initial=1", 0, fired)
case("every_place_initial", base, "count=2 types.1.places=16 types.1.initial=65535", 0, fired)
case("every_set_full", base, " ".join(f"destination.{x}=1" for x in range(32)) + " types.0.transitions=32 behaviors.0=4294967295 transitions.1=4294967295", 0, "instances.0.marked=0 instances.0.running=4294967295")
case("a_provide_port_of_initial_places", base, "places.1=3", 0, fired)
case("empty_groups", base, plain(1) + " count=2 places.16=0 transitions.17=0 behaviors.8=0", 0, fired)

# ---- 7: the program, done or not; numbers that a line has not are not looked at
limit("program", "instructions=?", 256, 257)
limit("program_past_bytes", "instructions=?", 1, 65536 + 1)
for at in 0, 1:
    name = "due" if at else "done"
    limit(f"{name}_verb", f"program.{at}.verb=?", 5, 6)
    limit(f"{name}_id", f"program.{at}.id=?", 31, 32)
    limit(f"{name}_type", f"program.{at}.number=?", 0, 1)
    limit(f"{name}_behavior", f"program.{at}.verb=2 program.{at}.number=?", 7, 8)
limit("pushb_id", f"program.1.verb={PUSHB} program.1.id=?", 31, 32)
for word, verb in ("con", CON), ("dcon", DCON):
    limit(f"{word}_user", f"program.1.verb={verb} program.1.id=?", 31, 32)
    limit(f"{word}_useport", f"program.1.verb={verb} program.1.number=?", 15, 16)
    limit(f"{word}_provider", f"program.1.verb={verb} program.1.provider=?", 31, 32)
    limit(f"{word}_provideport", f"program.1.verb={verb} program.1.provideport=?", 15, 16)
for word, verb in ("del", DEL), ("wait", WAIT):
    limit(f"{word}_id", f"program.1.verb={verb} program.1.id=?", 31, 32)
    case(f"{word}_has_an_id_alone", base, f"program.1.verb={verb} program.1.number=255 program.1.provider=255 program.1.provideport=255", 0, fired)
case("add_has_two_numbers", base, "program.1.provider=255 program.1.provideport=255", 0, fired)
# C-21: "the hall screen keeps to" sheets without tickets; a push and a wait with one have codes of their own, after these six
for verb in (6, 7, 8):
    case(f"verb_{verb}_in_the_program", base, f"program.1.verb={verb} program.1.id=0 program.1.number=0 program.1.provider=0 program.1.provideport=0", 7)
case("an_instruction_past_the_program", base, "program.2.verb=99 program.2.id=99", 0, fired)
case("the_last_instruction", base, "instructions=256 program.255.verb=6", 7)

# ---- 7: the step
case("verb_4", base, step(FINISH), 37)
case("verb_5", base, step(5), 7)
case("verb_255", base, step(255), 7)
for word, verb, number, found in ("fire", FIRE, 15, 32), ("end", END, 31, 31), ("enter", ENTER, 15, 32):
    case(f"{word}_id_31", base, step(verb, 31), 11)
    case(f"{word}_id_32", base, step(verb, 32), 7)
    case(f"{word}_{number}", base, step(verb, 0, number), found)
    case(f"{word}_{number + 1}", base, step(verb, 0, number + 1), 7)
case("finish_id_31", base, step(FINISH, 31), 11)
case("finish_id_32", base, step(FINISH, 32), 7)
case("finish_has_an_id_alone", base, step(FINISH, 0, 255), 37)
case("next_has_no_number", base, "instructions=1 " + step(NEXT, 255, 255), 10)

# ---- 7: the configuration
limit("instance_type", "instances.0.kind=?", 0, 1)
limit("marked", "instances.0.marked=?", 1, 4)
case("both_marked_3", base, "instances.0.marked=3", 38, port=0)
case("both_marked_5", base, "instances.0.marked=5", 7)
limit("running", "instances.0.running=?", 1, 2, 33, "")
limit("ended", "instances.0.ended=?", 1, 2, 33, "")
limit("queue", "instances.0.queued=?", 8, 9)
limit("queue_of_four", "depth=4 instances.0.queued=?", 4, 5)
limit("deep_queue", "depth=8 instances.0.queued=?", 8, 9)
limit("shallow_queue", "depth=1 instances.0.queued=?", 1, 2)
limit("queued_behavior", "queue.0=?", 0, 1)
limit("last_queued_behavior", "instances.0.queued=4 queue.3=?", 0, 1)
limit("done", "done=?", 2, 3)
limit("done_past_bytes", "done=?", 2, 65536 + 1)
limit("entry_of_an_absent_user", f"servers.{slot_of(3, 0)}=?", 0, server(0, 1))
limit("entry_of_the_last_user", f"servers.{slot_of(31, 15)}=?", 0, server(0, 1))
limit("entry_of_a_provide_port", f"servers.{slot_of(1, 1)}=?", 0, server(0, 1))
limit("entry_past_the_ports", f"servers.{slot_of(1, 2)}=?", 0, server(0, 1))
limit("entry_of_the_last_port", f"servers.{slot_of(1, 15)}=?", 0, server(0, 1))
limit("provider_present", f"servers.{slot_of(1, 0)}=?", server(0, 1), server(3, 1))
limit("provideport_kind", f"servers.{slot_of(1, 0)}=?", server(0, 1), server(0, 0))
limit("provideport_outside", f"servers.{slot_of(1, 0)}=?", server(0, 1), server(0, 2))
limit("two_ends", f"servers.{slot_of(1, 0)}=?", server(0, 1), server(1, 1))
far = f"types.0.ports=16 {instance(31, 0, 1)} servers.{slot_of(1, 0)}="
limit("server", far + "?", server(31, 15), 513)
case("server_65535", base, far + "65535", 7)
case("server_512_of_an_absent_instance", base, f"types.0.ports=16 servers.{slot_of(1, 0)}=512", 7)
case("a_user_that_is_gone", base, "instances.1.present=0", 7)
case("a_provider_that_is_gone", base, "instances.0.present=0 " + step(FIRE, 1), 7)
case("no_connections", base, unconnected(1, 0) + " " + unconnected(2, 0), 0, fired)
case("a_last_instance", base, instance(31, 1, 1), 7)
case("a_last_instance_of_its_type", base, instance(31, 0, 1), 0, fired)

# ---- free slots are not looked at, and keep what they hold
garbage = " ".join(
    [row("instances.7", kind=200, marked=4294967295, running=4294967295, ended=4294967295, queued=200)]
    + ["queue.%d=%d" % (at, 200 + at % 8) for at in list(range(1, 8)) + list(range(56, 64))]
    + ["types.9.places=99 types.9.initial=0 source.1=99 destination.1=99 behaviors.1=99 uses.2=99 places.2=99 transitions.2=99"]
    + [instruction(at, 99, 99, 99, 99, 99) for at in range(2, 9)]
)
free = changed(base, garbage)
case("free_slots", free, "", 0, fired)
case("free_slots_and_a_refusal", free, step(FIRE, 0, 1), 32)
case("free_slots_and_a_7", free, step(5), 7)

# ---- what each step leaves


def queue(i, *behaviors):
    return " ".join(f"queue.{i * 8 + r}={b}" for r, b in enumerate(behaviors))


due = changed(free, step(NEXT))
case("add_an_id", due, instruction(1, ADD, 7), 0, instance(7, 0, 1) + " done=2 " + queue(7, 0, 0, 0, 0, 0, 0, 0, 0))
case("add_the_last_id", due, instruction(1, ADD, 31), 0, instance(31, 0, 1) + " done=2")
case("add_of_the_last_type", due, sixteen + instruction(1, ADD, 7, 15), 0,
     instance(7, 15, 1) + " done=2 " + queue(7, 0, 0, 0, 0, 0, 0, 0, 0))
lone = changed(due, " ".join([instance(5, 0, 3, 0, 1, 1), queue(5, 9, 8, 7, 6, 5, 4, 3, 2)]))
case("del_an_id", lone, instruction(1, DEL, 5), 0,
     row("instances.5", present=0, kind=0, marked=0, running=0, ended=0, queued=0) + " done=2 " + queue(5, 0, 0, 0, 0, 0, 0, 0, 0))
case("pushb_on_an_empty_queue", lone, instruction(1, PUSHB, 5), 0, "instances.5.queued=1 queue.40=0 done=2")
case("pushb_on_a_queue", due, instruction(1, PUSHB, 0), 0, "instances.0.queued=2 queue.1=0 done=2")
case("pushb_to_the_depth", due, "depth=8 instances.0.queued=7 " + queue(0, *[0] * 7) + " " + instruction(1, PUSHB, 0), 0,
     "instances.0.queued=8 queue.7=0 done=2")
case("wait_for_an_id", due, instruction(1, WAIT, 1), 0, "done=2")
case("con_of_a_use_port", due, instruction(1, CON, 0, 0, 1, 1), 0, connection(0, 0, 1, 1) + " done=2")
alone = changed(due, unconnected(1, 0) + " " + unconnected(2, 0))
case("con_of_the_only_one", alone, instruction(1, CON, 0, 0, 1, 1), 0, connection(0, 0, 1, 1) + " done=2")
three = changed(due, connection(0, 0, 1, 1))
for word, user, provider in ("first", 0, 1), ("middle", 1, 0), ("last", 2, 0):
    case(f"dcon_the_{word}", three, instruction(1, DCON, user, 0, provider, 1), 0, unconnected(user, 0) + " done=2")
case("dcon_the_only_one", alone, connection(1, 0, 0, 1) + " " + instruction(1, DCON, 1, 0, 0, 1), 0, unconnected(1, 0) + " done=2")
case("dcon_of_another_provider", three, instruction(1, DCON, 1, 0, 2, 1), 17)
case("dcon_of_another_provide_port", three, instruction(1, DCON, 1, 0, 0, 0), 17)
case("dcon_past_the_ports", three, instruction(1, DCON, 0, 15, 0, 1), 17)
case("del_of_a_mere_provider", due, "instances.0.queued=0 " + instruction(1, DEL, 0), 18)
case("del_of_a_mere_user", due, instruction(1, DEL, 1), 18)
case("del_after_the_last_user", alone, "instances.0.queued=0 " + instruction(1, DEL, 0), 0,
     row("instances.0", present=0, kind=0, marked=0, running=0, ended=0, queued=0) + " done=2 " + queue(0, 0, 0, 0, 0, 0, 0, 0, 0))

# ---- one use port connected, freed, and connected again to another
turns = [(CON, 1, connection(0, 0, 1, 1)), (DCON, 1, unconnected(0, 0)), (CON, 2, connection(0, 0, 2, 1))]
again = changed(due, "instructions=4 " + " ".join(instruction(at, verb, 0, 0, provider, 1) for at, (verb, provider, _) in enumerate(turns, 1)))
for at, (_, _, left) in enumerate(turns, 1):
    left += f" done={at + 1}"
    case(f"con_dcon_con_{at}", again, "", 0, left)
    again = changed(again, left)

# ---- every slot of the table by its own `con`: the type has one use port
for at in range(512):
    (user, q), two = divmod(at, 16), changed(empty(), "count=1 instructions=1 types.0.places=1 types.0.initial=1 types.0.ports=16")
    provider, p = (user + 1 + q) % 32, (q + 1 + user % 15) % 16
    two = changed(two, f"uses.{q}=1 {instance(user, 0, 1)} {instance(provider, 0, 1)} {instruction(0, CON, user, q, provider, p)}")
    case(f"con_in_slot_{at}", two, "", 0, connection(user, q, provider, p) + " done=1")

# ---- the moves
case("fire_a_place", free, "", 0, fired)
running = changed(free, "instances.0.marked=0 instances.0.running=1")
case("end_a_transition", running, step(END), 0, "instances.0.running=0 instances.0.ended=1")
over = changed(free, "instances.0.marked=0 instances.0.ended=1 places.0=0")
case("enter_a_place", over, step(ENTER, 0, 1), 0, "instances.0.marked=2 instances.0.ended=0")
quiet = changed(free, "types.0.behaviors=2 behaviors.1=0 instances.0.queued=3 " + queue(0, 1, 0, 1))
case("finish_a_behavior", quiet, step(FINISH), 0, "instances.0.queued=2 " + queue(0, 0, 1, 0))
case("finish_the_last_behavior", quiet, "instances.0.queued=1 " + step(FINISH), 0, "instances.0.queued=0 queue.0=0")
case("finish_a_full_queue", quiet, "depth=8 instances.0.queued=8 " + queue(0, 1, 0, 1, 0, 1, 0, 1, 1) + " " + step(FINISH), 0,
     "instances.0.queued=7 " + queue(0, 0, 1, 0, 1, 0, 1, 1, 0))

# ---- every refusal, among the same free slots: nothing moves
case("refused_10", due, "done=2", 10)
case("refused_11", due, instruction(1, WAIT, 7), 11)
case("refused_12", due, instruction(1, ADD, 0), 12)
case("refused_13", due, instruction(1, PUSHB, 0, 1), 13)
case("refused_14", due, instruction(1, CON, 0, 0, 0, 1), 14)
case("refused_15", due, instruction(1, CON, 1, 0, 0, 1), 15)
case("refused_17", due, instruction(1, DCON, 0, 0, 1, 1), 17)
case("refused_18", due, instruction(1, DEL, 0), 18)
case("refused_20", due, "instances.0.queued=8 " + queue(0, *[0] * 8) + " " + instruction(1, PUSHB, 0), 20)
case("refused_20_at_depth_4", due, "depth=4 instances.0.queued=4 " + queue(0, *[0] * 4) + " " + instruction(1, PUSHB, 0), 20)
case("refused_21", due, instruction(1, WAIT, 0), 21)
case("refused_22", due, "instances.1.marked=2 " + instruction(1, DCON, 1, 0, 0, 1), 22)
case("refused_30", free, step(FIRE, 1), 30)
case("refused_31", free, step(END), 31)
case("refused_32", free, step(FIRE, 0, 1), 32)
case("refused_33", free, "instances.0.running=1", 33)
case("refused_38", over, "places.0=2 " + step(ENTER, 0, 1), 38, port=0)
case("refused_36", free, "instances.1.marked=2 places.1=1 transitions.1=0", 36)
case("refused_37", free, step(FINISH), 37)

# ---- 64 connections: type 0 uses by 16 ports, type 1 provides by one; four users
many = changed(empty(), "count=2 instructions=1 types.0.places=2 types.0.initial=1 types.0.ports=16 types.1.places=1 types.1.initial=1 types.1.ports=1 places.16=1")
many = changed(many, " ".join([f"uses.{q}=1 places.{q}=2" for q in range(16)] + [instance(i, 0, 1) for i in range(5)] + [instance(31, 1, 1)]))
many = changed(many, " ".join(connection(at // 16, at % 16, 31, 0) for at in range(64)))
case("refused_16", many, instruction(0, CON, 4, 0, 31, 0), 16)
case("con_of_the_64th", many, unconnected(2, 7) + " " + instruction(0, CON, 4, 0, 31, 0), 0, connection(4, 0, 31, 0) + " done=1")
case("dcon_of_64", many, instruction(0, DCON, 0, 0, 31, 0), 0, unconnected(0, 0) + " done=1")
case("connections_64", many, instruction(0, WAIT, 4), 0, "done=1")
case("connections_65", many, connection(4, 0, 31, 0) + " " + instruction(0, WAIT, 4), 7)
case("connections_65_of_which_one_is_unlawful", many, connection(4, 0, 4, 0) + " " + instruction(0, WAIT, 4), 7)
case("the_64th_is_looked_at", many, connection(3, 15, 31, 1), 7)

# ---- the pair of document 01, at points that no walk reaches: still the rules' answer
pair = empty()
for k, port in (0, 0), (1, 1):
    pair["types"][k].update(places=2, initial=1, transitions=2, behaviors=2, ports=1)
    pair = changed(pair, f"destination.{k * 32}=1 source.{k * 32 + 1}=1 behaviors.{k * 8}=1 behaviors.{k * 8 + 1}=2 uses.{k * 16}={port} places.{k * 16}=2 transitions.{k * 16}={port}")
pair = changed(pair, " ".join(["count=2", connection(1, 0, 0, 0), instance(0, 0, 1, 1), instance(1, 1, 1, 1)]))
case("running_and_ended_at_once", pair, "instances.0.marked=0 instances.0.running=1 instances.0.ended=1 " + step(END), 0, "instances.0.running=0")
case("enter_clears_running_too", pair, "instances.0.marked=0 instances.0.running=1 instances.0.ended=1 " + step(ENTER, 0, 1), 0,
     "instances.0.marked=2 instances.0.running=0 instances.0.ended=0")
case("enter_leaves_what_else_runs", pair, "instances.0.marked=0 instances.0.running=3 instances.0.ended=3 " + step(ENTER, 0, 1), 0,
     "instances.0.marked=2 instances.0.running=2 instances.0.ended=2")
case("held_with_an_empty_queue", pair, "instances.0.queued=0 instances.0.running=1 " + step(END), 30)
case("held_with_an_empty_queue_and_no_finish", pair, "instances.0.queued=0 instances.0.ended=1 " + step(FINISH), 30)
case("held_outside_the_head", pair, "instances.0.running=2 " + step(END, 0, 1), 0, "instances.0.running=0 instances.0.ended=2")
case("no_token_at_all", pair, "instances.0.marked=0 queue.0=0 " + step(FINISH), 0, "instances.0.queued=0")
case("an_unconnected_port_met_by_another_move", pair, unconnected(1, 0) + " instances.1.marked=3 types.1.places=4 behaviors.8=3 source.32=0 destination.32=2 source.33=2 destination.33=3 transitions.16=0 " + step(FIRE, 1, 0), 38, port=0)
case("an_idle_provider_met_by_another_move", pair, "instances.1.marked=3 types.1.places=4 destination.32=2 source.33=2 destination.33=3 transitions.16=0 " + step(FIRE, 1, 0), 34, port=0)
case("a_served_port_and_another_move", pair, "instances.0.marked=2 instances.1.marked=3 types.1.places=4 destination.32=2 source.33=2 destination.33=3 transitions.16=0 " + step(FIRE, 1, 0), 0,
     "instances.1.marked=2 instances.1.running=1")
case("refused_34", pair, step(FIRE, 1, 0), 34, port=0)
case("refused_35", pair, "instances.0.marked=2 queue.0=1 " + step(FIRE, 1, 0), 35)
case("refused_36_by_a_port_of_the_pair", pair, "instances.0.marked=2 queue.0=1 instances.1.marked=2 " + step(FIRE, 0, 1), 36)
case("served", pair, "instances.0.marked=2 " + step(FIRE, 1, 0), 0, "instances.1.marked=0 instances.1.running=1")
two_ports = changed(pair, "types.1.ports=2 places.17=1 " + step(FIRE, 1, 0))
case("a_port_emptied_and_another_filled", two_ports, "instances.0.marked=2", 0, "instances.1.marked=0 instances.1.running=1")
case("a_port_emptied_in_use_and_another_filled", two_ports, "instances.0.marked=2 " + instance(2, 1, 2) + " " + connection(2, 0, 1, 1), 36)
case("a_port_emptied_and_an_unserved_one_filled", two_ports, "", 34, port=0)
case("enter_takes_what_runs_from_a_port_too", pair, "places.0=0 transitions.0=1 instances.0.marked=0 instances.0.running=1 instances.0.ended=1 instances.1.marked=2 " + step(ENTER, 0, 1), 36)
three_ports = "types.1.ports=3 " + " ".join(f"uses.{q}=1 places.{q}=2 transitions.{q}=1" for q in (16, 17, 18))
three_ports = changed(pair, "types.0.ports=2 places.1=1 instances.0.marked=2 " + three_ports + " " + connection(1, 1, 0, 1) + " " + step(FIRE, 1, 0))
case("one_served_one_unserved_one_unconnected", three_ports, "", 38, port=2)
case("the_lower_of_two_unconnected", three_ports, unconnected(1, 1), 38, port=1)
case("one_unserved_between_two_served", three_ports, connection(1, 2, 0, 0), 34, port=1)
case("the_lower_of_two_unserved", three_ports, connection(1, 0, 0, 1) + " " + connection(1, 2, 0, 0), 34, port=0)
case("refused_35_of_three_ports_names_none", three_ports, connection(1, 1, 0, 0) + " " + connection(1, 2, 0, 0) + " queue.0=1", 35)
leaving = changed(pair, "places.0=0 transitions.0=1 instances.0.marked=0 instances.0.ended=1 " + step(FIRE, 1, 0))
case("refused_35_by_one_about_to_enter", leaving, "", 35)
case("ended_with_an_empty_queue_does_not_refuse", leaving, "instances.0.queued=0", 0, "instances.1.marked=0 instances.1.running=1")
case("ended_outside_the_head_does_not_refuse", leaving, "queue.0=1", 0, "instances.1.marked=0 instances.1.running=1")
case("the_first_step_of_all", changed(empty(), "count=1 types.0.places=1 types.0.initial=1 instructions=1"), "", 0, instance(0, 0, 1) + " done=1")
case("nothing_lent", empty(), "", 7)
