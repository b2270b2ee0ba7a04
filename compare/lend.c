/* Cases for the hall's screen: lawful configurations, reachable or not, with garbage where nobody looks; and the same with
   one clause of number 7 broken. */
#include <string.h>

#include "generate.h"
#include "hall.h"

/* ---- configurations that no walk need reach ---- */

static void scramble_instance(struct paper *paper, struct instance *i)
{
    struct random *r = &paper->random;
    unsigned dense = pick_from(r, 5, 80);
    memset(i, 0, sizeof *i);
    i->present = 1;
    i->kind = (uint8_t)pick(r, paper->tables.count);
    const struct type *type = &paper->tables.type[i->kind];
    i->marked = pick_set(r, type->places, dense);
    i->running = pick_set(r, type->transitions, chance(r, 50) ? 0 : dense / 2);
    i->ended = pick_set(r, type->transitions, chance(r, 40) ? 0 : chance(r, 50) ? 95 : dense / 2);
    i->queued = (uint8_t)(type->behaviors == 0 ? 0 : pick(r, effective_depth(&paper->tables) + 1));
    for (unsigned k = 0; k < i->queued; k++) i->queue[k] = (uint8_t)pick(r, type->behaviors);
}

static void scramble(struct paper *paper)
{
    struct random *r = &paper->random;
    struct configuration *c = &paper->configuration;
    struct instruction con;
    memset(c->connection, 0, sizeof c->connection);
    c->count = 0;
    for (unsigned id = 0; id < INSTANCES; id++) {
        memset(&c->instance[id], 0, sizeof c->instance[id]);
        if (id < paper->crowd || chance(r, 10)) scramble_instance(paper, &c->instance[id]);
    }
    unsigned most = paper->full ? CONNECTIONS : CONNECTIONS - 1;
    for (unsigned tries = paper->full || chance(r, 5) ? 600 : pick(r, 100); tries > 0 && c->count < most; tries--)
        if (draw_connection(paper, &con))
            c->connection[c->count++] = (struct connection){ con.id, con.number, con.provider, con.provideport };
}

/* ---- garbage where nobody looks ---- */

static void litter_bytes(struct random *r, uint8_t *bytes, unsigned from, unsigned count)
{
    for (unsigned k = from; k < count; k++) bytes[k] = (uint8_t)draw(r);
}

static void litter_words(struct random *r, uint32_t *words, unsigned from, unsigned count)
{
    for (unsigned k = from; k < count; k++) words[k] = (uint32_t)draw(r);
}

static void litter_port(struct random *r, struct port *port)
{
    port->use = (uint8_t)draw(r);
    port->places = (uint32_t)draw(r);
    port->transitions = (uint32_t)draw(r);
}

static void litter_type(struct random *r, struct type *type)
{
    litter_bytes(r, type->source, type->transitions, TRANSITIONS);
    litter_bytes(r, type->destination, type->transitions, TRANSITIONS);
    litter_words(r, type->behavior, type->behaviors, BEHAVIORS);
    for (unsigned p = type->ports; p < PORTS; p++) litter_port(r, &type->port[p]);
}

static void litter_past_type(struct random *r, struct type *type)
{
    litter_type(r, type);
    type->initial = (uint32_t)draw(r);
    type->places = (uint8_t)draw(r);
    type->transitions = (uint8_t)draw(r);
    type->behaviors = (uint8_t)draw(r);
    type->ports = (uint8_t)draw(r);
}

/* Numbers that an instruction's line does not say, and instructions past the count. */
static void litter_program(struct random *r, struct program *program)
{
    for (unsigned k = 0; k < INSTRUCTIONS; k++) {
        struct instruction *i = &program->line[k];
        bool past = k >= program->count, four = i->verb == CON || i->verb == DCON;
        if (past) i->verb = (uint8_t)draw(r), i->id = (uint8_t)draw(r);
        if (past || i->verb == DEL || i->verb == WAIT) i->number = (uint8_t)draw(r);
        if (past || !four) i->provider = (uint8_t)draw(r), i->provideport = (uint8_t)draw(r);
    }
}

static void litter_absent(struct random *r, struct instance *i)
{
    i->kind = (uint8_t)draw(r);
    i->marked = (uint32_t)draw(r);
    i->running = (uint32_t)draw(r);
    i->ended = (uint32_t)draw(r);
    i->queued = (uint8_t)draw(r);
    litter_bytes(r, i->queue, 0, DEPTH);
}

static void litter_configuration(struct random *r, struct lent_configuration *c)
{
    for (unsigned id = 0; id < INSTANCES; id++) {
        struct instance *i = &c->instance[id];
        if (i->present) litter_bytes(r, i->queue, i->queued, DEPTH);
        else litter_absent(r, i);
    }
}

static void litter_step(struct random *r, struct step *step)
{
    if (step->verb == NEXT) step->id = (uint8_t)draw(r);
    if (step->verb == NEXT || step->verb == FINISH) step->number = (uint8_t)draw(r);
}

static void litter(struct random *r, struct lent *lent)
{
    if (chance(r, 65)) litter_configuration(r, &lent->configuration);
    if (chance(r, 50)) litter_step(r, &lent->step);
    if (chance(r, 85)) return;
    litter_program(r, &lent->program);
    for (unsigned k = 0; k < TYPES; k++)
        if (k < lent->tables.count) litter_type(r, &lent->tables.type[k]);
        else litter_past_type(r, &lent->tables.type[k]);
}

/* ---- one clause of number 7 broken; false where the lent records offer no place for it ---- */

/* A number past a limit: one past it, or any other that a byte holds. */
static uint8_t past(struct random *r, unsigned least) { return (uint8_t)(chance(r, 50) ? least : pick_from(r, least, 255)); }

/* A set with one member too many. */
static bool overfill(struct random *r, uint32_t *set, unsigned count)
{
    if (count < 32) *set |= bit(chance(r, 50) ? count : pick_from(r, count, 31));
    return count < 32;
}

static struct type *any_type(struct random *r, struct lent *lent) { return &lent->tables.type[pick(r, lent->tables.count)]; }

static bool break_depth(struct random *r, struct lent *lent) { lent->tables.depth = past(r, DEPTH + 1); return true; }

/* Too many types, or none; without a type only the empty configuration and program break no other clause. */
static bool break_count(struct random *r, struct lent *lent)
{
    lent->tables.count = chance(r, 50) ? 0 : past(r, TYPES + 1);
    if (lent->tables.count > 0) return true;
    lent->program.count = lent->configuration.done = 0;
    memset(lent->configuration.server, 0, sizeof lent->configuration.server);
    for (unsigned id = 0; id < INSTANCES; id++) lent->configuration.instance[id].present = 0;
    return true;
}

static bool break_counts(struct random *r, struct lent *lent)
{
    struct type *type = any_type(r, lent);
    switch (pick(r, 5)) {
    case 0: type->places = 0; break;
    case 1: type->places = past(r, PLACES + 1); break;
    case 2: type->transitions = past(r, TRANSITIONS + 1); break;
    case 3: type->behaviors = past(r, BEHAVIORS + 1); break;
    default: type->ports = past(r, PORTS + 1); break;
    }
    return true;
}

static bool break_initial(struct random *r, struct lent *lent)
{
    struct type *type = any_type(r, lent);
    if (chance(r, 70)) return overfill(r, &type->initial, type->places);
    type->initial = 0;
    return true;
}

static bool break_transition(struct random *r, struct lent *lent)
{
    struct type *type = any_type(r, lent);
    unsigned t = pick(r, type->transitions), clause = pick(r, 3);
    if (type->transitions == 0) return false;
    if (clause == 0) type->source[t] = past(r, type->places);
    else if (clause == 1) type->destination[t] = past(r, type->places);
    else type->destination[t] = type->source[t];
    return true;
}

static bool break_behavior(struct random *r, struct lent *lent)
{
    struct type *type = any_type(r, lent);
    return type->behaviors > 0 && overfill(r, &type->behavior[pick(r, type->behaviors)], type->transitions);
}

static bool break_port(struct random *r, struct lent *lent)
{
    struct type *type = any_type(r, lent);
    struct port *port = &type->port[pick(r, type->ports)];
    if (type->ports == 0) return false;
    switch (pick(r, 4)) {
    case 0: port->use = past(r, 2); return true;
    case 1: return overfill(r, &port->places, type->places);
    case 2: return overfill(r, &port->transitions, type->transitions);
    default: port->places |= type->initial; return port->use == USE;
    }
}

static bool break_instruction(struct random *r, struct lent *lent)
{
    struct instruction *i = &lent->program.line[pick(r, lent->program.count)];
    bool four = i->verb == CON || i->verb == DCON;
    if (lent->program.count == 0) return false;
    switch (pick(r, 5)) {
    case 0: i->verb = past(r, INSTRUCTION_VERBS); return true;
    case 1: i->id = past(r, INSTANCES); return true;
    case 2:
        i->number = past(r, four ? PORTS : i->verb == ADD ? lent->tables.count : BEHAVIORS);
        return four || i->verb == ADD || i->verb == PUSHB;
    case 3: i->provider = past(r, INSTANCES); return four;
    default: i->provideport = past(r, PORTS); return four;
    }
}

static bool break_length(struct random *r, struct lent *lent)
{
    static const uint32_t lengths[] = { INSTRUCTIONS + 1, INSTRUCTIONS + 2, 512, 65536, 65536 + 4, UINT32_MAX };
    lent->program.count = lengths[pick(r, 6)];
    return true;
}

static bool break_done(struct random *r, struct lent *lent)
{
    static const uint32_t more[] = { 1, 2, 256, 65536 };
    lent->configuration.done = chance(r, 80) ? lent->program.count + more[pick(r, 4)] : UINT32_MAX;
    return true;
}

static bool break_step(struct random *r, struct lent *lent)
{
    struct step *step = &lent->step;
    switch (pick(r, 3)) {
    case 0: step->verb = past(r, STEP_VERBS); return true;
    case 1: step->id = past(r, INSTANCES); return step->verb != NEXT;
    default: step->number = past(r, step->verb == END ? TRANSITIONS : PLACES); return step->verb != NEXT && step->verb != FINISH;
    }
}

/* A present instance, or an absent one where there is none. */
static struct instance *any_instance(struct random *r, struct lent_configuration *c)
{
    unsigned id = pick(r, INSTANCES);
    for (unsigned k = 0; k < INSTANCES && !c->instance[id].present; k++) id = (id + 1) % INSTANCES;
    return &c->instance[id];
}

/* One more than the depth, with behaviors that the type has. */
static bool overfill_queue(struct random *r, const struct lent *lent, struct instance *i)
{
    unsigned depth = effective_depth(&lent->tables);
    i->queued = chance(r, 70) ? (uint8_t)(depth + 1) : past(r, depth + 1);
    for (unsigned k = 0; k < DEPTH; k++) i->queue[k] = (uint8_t)pick(r, lent->tables.type[i->kind].behaviors);
    return true;
}

static bool break_instance(struct random *r, struct lent *lent)
{
    struct instance *i = any_instance(r, &lent->configuration);
    const struct type *type = &lent->tables.type[i->kind % TYPES];
    unsigned k;
    if (!i->present) return false;
    switch (pick(r, 6)) {
    case 0: i->kind = past(r, lent->tables.count); return true;
    case 1: return overfill(r, &i->marked, type->places);
    case 2: return overfill(r, &i->running, type->transitions);
    case 3: return overfill(r, &i->ended, type->transitions);
    case 4: return overfill_queue(r, lent, i);
    default: k = pick(r, i->queued); i->queue[k] = past(r, type->behaviors); return i->queued > 0;
    }
}

/* A connection's slot, or any where there is none. */
static unsigned any_slot(struct random *r, const struct lent_configuration *c)
{
    unsigned slot = pick(r, INSTANCES * PORTS);
    for (unsigned k = 0; k < INSTANCES * PORTS && c->server[slot] == 0; k++) slot = (slot + 1) % (INSTANCES * PORTS);
    return slot;
}

/* A use port of a present instance that is free gets a provide port of another; false where the draw finds none. */
static bool add_connection(struct random *r, struct lent *lent)
{
    struct lent_configuration *c = &lent->configuration;
    unsigned slot = pick(r, INSTANCES * PORTS), port = pick(r, INSTANCES * PORTS);
    const struct instance *user = &c->instance[slot / PORTS], *provider = &c->instance[port / PORTS];
    if (c->server[slot] != 0 || !user->present || !provider->present || user == provider) return false;
    if (!has_port(&lent->tables.type[user->kind], slot % PORTS, USE)) return false;
    if (!has_port(&lent->tables.type[provider->kind], port % PORTS, PROVIDE)) return false;
    c->server[slot] = (uint16_t)(port + 1);
    return true;
}

/* More than 64, each of them lawful. */
static bool overfill_table(struct random *r, struct lent *lent)
{
    unsigned count = 0, most = chance(r, 70) ? CONNECTIONS + 1 : pick_from(r, CONNECTIONS + 1, 120);
    for (unsigned slot = 0; slot < INSTANCES * PORTS; slot++) count += lent->configuration.server[slot] != 0;
    for (unsigned tries = 0; tries < 20000 && count < most; tries++) count += add_connection(r, lent);
    return count > CONNECTIONS;
}

/* The server of a connection also at a slot that is no use port: of an absent instance, or of a port of another kind or past the type's. */
static bool break_use(struct random *r, struct lent *lent, unsigned server)
{
    struct lent_configuration *c = &lent->configuration;
    unsigned id = chance(r, 70) ? (unsigned)(any_instance(r, c) - c->instance) : pick(r, INSTANCES), port = pick(r, PORTS);
    const struct type *type = &lent->tables.type[c->instance[id].kind % TYPES];
    if (c->instance[id].present && type->ports > 0 && chance(r, 60)) port = pick(r, type->ports);
    if (c->instance[id].present && has_port(type, port, USE)) return false;
    c->server[id * PORTS + port] = (uint16_t)server;
    return true;
}

/* A provider past the last, any other, or any port of the same one. */
static bool break_server(struct random *r, const struct lent *lent, uint16_t *server)
{
    unsigned id = (*server - 1u) / PORTS, clause = pick(r, 6);
    if (clause == 0) *server = (uint16_t)(INSTANCES * PORTS + 1);
    else if (clause == 1) *server = (uint16_t)pick_from(r, INSTANCES * PORTS + 1, UINT16_MAX);
    else if (clause == 2) *server = (uint16_t)pick_from(r, 1, INSTANCES * PORTS);
    else if (clause == 3) *server = (uint16_t)(id * PORTS + 1 + pick(r, PORTS));
    else *server = (uint16_t)(id * PORTS + 1 + pick(r, lent->tables.type[lent->configuration.instance[id].kind].ports));
    return true;
}

static bool break_connection(struct random *r, struct lent *lent)
{
    struct lent_configuration *c = &lent->configuration;
    unsigned slot = any_slot(r, c), clause = pick(r, 100), port = c->server[slot] - 1u;
    if (clause < 20) return overfill_table(r, lent);
    if (c->server[slot] == 0) return false;
    if (clause < 30) return c->instance[slot / PORTS].present = 0, true;
    if (clause < 40) return c->instance[port / PORTS].present = 0, true;
    if (clause < 60) return break_use(r, lent, c->server[slot]);
    if (clause < 85) return break_server(r, lent, &c->server[slot]);
    return c->server[slot] = (uint16_t)(slot / PORTS * PORTS + 1 + pick(r, PORTS)), true;
}

typedef bool breach(struct random *, struct lent *);

static void break_clause(struct random *r, struct lent *lent)
{
    static breach *const breaches[] = { break_depth, break_count, break_counts, break_initial, break_transition, break_behavior,
                                        break_port, break_port, break_instruction, break_instruction, break_length, break_done,
                                        break_step, break_step, break_instance, break_instance, break_connection,
                                        break_connection, break_connection, break_connection };
    for (unsigned tries = 0; tries < 20; tries++) {
        struct lent broken = *lent;
        if (!breaches[pick(r, sizeof breaches / sizeof breaches[0])](r, &broken)) continue;
        *lent = broken;
        return;
    }
}

/* ---- cases ---- */

/* How often each number is aimed at. */
static const unsigned aims[39] = {
    [0] = 80, [7] = 120, [10] = 15, [11] = 15, [12] = 15, [13] = 20, [14] = 20, [15] = 20, [16] = 20, [17] = 15, [18] = 20,
    [20] = 20, [21] = 20, [22] = 20, [30] = 15, [31] = 20, [32] = 15, [33] = 25, [34] = 25, [35] = 100, [36] = 50, [37] = 20, [38] = 20,
};

/* Walks on, or to another configuration that need not be reachable. */
static void move_on(struct paper *paper, bool walk)
{
    if (walk) draw_allowed(paper);
    else scramble(paper);
}

/* The configuration before a step, and the step: refused with the aim where one is found, else any. */
static void draw_last(struct paper *paper, struct lent *lent, bool walk)
{
    for (unsigned tries = 0; paper->aim >= 10 && tries < 40; tries++) {
        lend_configuration(&paper->configuration, &lent->configuration);
        if (draw_refused(paper, paper->aim)) {
            lent->step = paper->step[paper->steps - 1];
            return;
        }
        move_on(paper, walk);
    }
    lend_configuration(&paper->configuration, &lent->configuration);
    bool found = chance(&paper->random, 80) && draw_allowed(paper);
    lent->step = found ? paper->step[paper->steps - 1] : draw_step(paper);
}

/* The empty start, a walk of some steps, or a configuration drawn at once. */
static void draw_state(struct paper *paper, unsigned aim, bool walk)
{
    start_paper(paper, aim, false);
    if (chance(&paper->random, 4)) return;
    for (unsigned steps = pick(&paper->random, 80); steps > 0; steps--) draw_allowed(paper);
    if (!walk) scramble(paper);
}

/* Instructions that are never come to, except where the step is to find none left. */
static void append_rest(struct paper *paper)
{
    if (paper->aim == 10 || chance(&paper->random, 20)) return;
    for (unsigned k = pick(&paper->random, 6); k > 0 && paper->program.count < INSTRUCTIONS; k--)
        paper->program.line[paper->program.count++] = draw_instruction(paper, 20);
}

/* Over 64 connections need tables and instances with so many ports, as a paper has that aims at 16. */
void generate_lent(uint64_t seed, uint64_t index, struct lent *lent)
{
    static struct paper paper;
    paper.random = random_of(seed, index);
    unsigned aim = pick_weighted(&paper.random, aims, 39);
    bool over = aim == 7 && chance(&paper.random, 15), walk = !over && aim != 15 && aim != 16 && chance(&paper.random, 50);
    draw_state(&paper, over ? 16 : aim, walk);
    draw_last(&paper, lent, walk);
    append_rest(&paper);
    lent->tables = paper.tables;
    lent->program = paper.program;
    litter(&paper.random, lent);
    if (over && overfill_table(&paper.random, lent)) return;
    if (aim == 7) break_clause(&paper.random, lent);
}
