/* Papers at random: a walk on tables that invents its program as it goes. */
#include <string.h>

#include "foretell.h"
#include "generate.h"

/* ---- instructions ---- */

static const struct type *type_at(const struct paper *paper, unsigned id)
{
    return &paper->tables.type[paper->configuration.instance[id].kind];
}

static unsigned draw_id(struct paper *paper, bool present)
{
    unsigned first = pick(&paper->random, INSTANCES);
    for (unsigned k = 0; k < INSTANCES; k++) {
        unsigned id = (first + k) % INSTANCES;
        if ((paper->configuration.instance[id].present != 0) == present) return id;
    }
    return first;
}

/* A port of that kind at a present instance, not yet connected where it is a use port. */
static bool draw_end(struct paper *paper, enum port_kind kind, uint8_t *id, uint8_t *port)
{
    for (unsigned tries = 0; tries < 12; tries++) {
        *id = (uint8_t)draw_id(paper, true);
        const struct type *type = type_at(paper, *id);
        *port = (uint8_t)pick(&paper->random, type->ports);
        if (has_port(type, *port, kind) && (kind == PROVIDE || !connection_of(&paper->configuration, *id, *port))) return true;
    }
    return false;
}

bool draw_connection(struct paper *paper, struct instruction *con)
{
    con->verb = CON;
    return draw_end(paper, USE, &con->id, &con->number) && draw_end(paper, PROVIDE, &con->provider, &con->provideport)
        && con->id != con->provider;
}

static struct instruction of_connection(struct paper *paper, unsigned verb)
{
    const struct connection *n = &paper->configuration.connection[pick(&paper->random, paper->configuration.count)];
    return (struct instruction){ (uint8_t)verb, n->user, n->useport, n->provider, n->provideport, false, 0 };
}

unsigned draw_ticket(struct paper *paper, const struct instance *instance)
{
    struct random *r = &paper->random;
    unsigned least = past_tickets(&instance->pushed);
    unsigned ticket = least + (chance(r, 50) ? 0 : pick(r, chance(r, 5) ? TICKETS : paper->stride));
    return ticket < TICKETS ? ticket : TICKETS - 1;
}

/* One of the tickets pushed on an instance, or any where there is none. */
static unsigned draw_pushed(struct random *r, const struct instance *instance)
{
    unsigned first = pick(r, past_tickets(&instance->pushed));
    while (first > 0 && !has_ticket(&instance->pushed, first)) first--;
    return first;
}

/* A push has a ticket above the last; a wait one that was pushed, now and then one that wasn't. */
static void give_ticket(struct paper *paper, struct instruction *i)
{
    struct random *r = &paper->random;
    const struct instance *instance = &paper->configuration.instance[i->id];
    i->ticketed = true;
    i->ticket = (uint8_t)(i->verb == PUSHB ? draw_ticket(paper, instance) : chance(r, 90) ? draw_pushed(r, instance) : pick(r, TICKETS));
}

/* Fields that the verb's line does not say stay 0, as the reader leaves them. */
static struct instruction draw_of_verb(struct paper *paper, unsigned verb)
{
    struct random *r = &paper->random;
    struct instruction i = { .verb = (uint8_t)verb };
    switch (verb) {
    case ADD: i.id = (uint8_t)draw_id(paper, false); i.number = (uint8_t)pick(r, paper->tables.count); break;
    case PUSHB: i.id = (uint8_t)draw_id(paper, true); i.number = (uint8_t)pick(r, type_at(paper, i.id)->behaviors); break;
    case CON: draw_connection(paper, &i); break;
    case DCON: i = of_connection(paper, DCON); break;
    default: i.id = (uint8_t)draw_id(paper, true); break;
    }
    if (paper->tables.ticketed && (verb == PUSHB || (verb == WAIT && chance(r, 70)))) give_ticket(paper, &i);
    return i;
}

/* One field is set to any number within its limit. */
static void disturb(struct paper *paper, struct instruction *i)
{
    struct random *r = &paper->random;
    bool four = i->verb == CON || i->verb == DCON;
    if (i->ticketed && chance(r, 40)) {
        i->ticket = (uint8_t)(chance(r, 30) ? TICKETS - 1 : pick(r, TICKETS));
        return;
    }
    switch (pick(r, four ? 4 : i->verb == ADD || i->verb == PUSHB ? 2 : 1)) {
    case 0: i->id = (uint8_t)pick(r, INSTANCES); break;
    case 1: i->number = (uint8_t)pick(r, four ? PORTS : i->verb == ADD ? paper->tables.count : BEHAVIORS); break;
    case 2: i->provider = (uint8_t)pick(r, INSTANCES); break;
    default: i->provideport = (uint8_t)pick(r, PORTS); break;
    }
}

struct instruction draw_instruction(struct paper *paper, unsigned noise)
{
    struct instruction i = draw_of_verb(paper, pick_weighted(&paper->random, paper->verbs, INSTRUCTION_VERBS));
    if (chance(&paper->random, noise)) disturb(paper, &i);
    return i;
}

static unsigned present_count(const struct paper *paper)
{
    unsigned count = 0;
    for (unsigned id = 0; id < INSTANCES; id++) count += paper->configuration.instance[id].present;
    return count;
}

/* ---- steps ---- */

static void take(struct paper *paper, struct step step)
{
    take_step(&paper->tables, &paper->program, &paper->configuration, &step);
    paper->step[paper->steps++] = step;
}

static void append_instruction(struct paper *paper, const struct instruction *i)
{
    if (paper->program.count < INSTRUCTIONS) paper->program.line[paper->program.count++] = *i;
}

/* Draws instructions until one gets the number wanted; it becomes the next of the program. */
static bool draw_next(struct paper *paper, unsigned number, struct instruction (*source)(struct paper *, unsigned), unsigned tries)
{
    if (paper->program.count == INSTRUCTIONS) return false;
    while (tries-- > 0) {
        struct instruction i = source(paper, number);
        if (instruction_number(&paper->tables, &paper->configuration, &i) != number) continue;
        append_instruction(paper, &i);
        take(paper, (struct step){ NEXT, 0, 0 });
        return true;
    }
    return false;
}

static struct instruction lawful_source(struct paper *paper, unsigned number)
{
    (void)number;
    bool full = present_count(paper) >= paper->crowd;
    struct instruction i = draw_instruction(paper, 0);
    while (full && i.verb == ADD) i = draw_instruction(paper, 0);
    return i;
}

/* `con` at one instance only, or of a use port that is connected. */
static struct instruction con_source(struct paper *paper, unsigned number)
{
    struct instruction i = draw_of_verb(paper, CON);
    if (number == 14) i.provider = i.id, i.provideport = (uint8_t)pick(&paper->random, type_at(paper, i.id)->ports);
    if (number == 15) {
        struct instruction old = of_connection(paper, CON);
        i.id = old.id, i.number = old.number;
        if (chance(&paper->random, 20)) i = old;
    }
    return i;
}

/* A push whose ticket is the last once more or one below it, or a wait: for a push that is queued, or for one that never was, among
   them the one after the last and those between two pushes. */
static struct instruction ticket_source(struct paper *paper, unsigned number)
{
    struct random *r = &paper->random;
    struct instruction i = draw_of_verb(paper, number == 19 ? PUSHB : WAIT);
    const struct instance *instance = &paper->configuration.instance[i.id];
    unsigned past = past_tickets(&instance->pushed);
    i.ticketed = true;
    if (number == 19) i.ticket = (uint8_t)(past == 0 ? 0 : chance(r, 50) ? past - 1 : pick(r, past));
    else if (number == 23) i.ticket = instance->queued == 0 ? 0 : instance->ticket[pick(r, instance->queued)];
    else i.ticket = (uint8_t)(chance(r, 30) ? past : chance(r, 60) ? pick(r, past) : pick(r, TICKETS));
    return i;
}

/* An instruction of a verb that can get the number, bent towards it. */
static struct instruction aimed_source(struct paper *paper, unsigned number)
{
    static const uint8_t for_absent[] = { DEL, PUSHB, CON, WAIT };
    struct random *r = &paper->random;
    struct instruction i;
    switch (number) {
    case 11: i = draw_of_verb(paper, for_absent[pick(r, 4)]); disturb(paper, &i); return i;
    case 12: i = draw_of_verb(paper, ADD); i.id = (uint8_t)draw_id(paper, true); return i;
    case 13: i = draw_of_verb(paper, chance(r, 50) ? PUSHB : CON); disturb(paper, &i); return i;
    case 14: case 15: case 16: return con_source(paper, number);
    case 17: i = draw_of_verb(paper, DCON); disturb(paper, &i); return i;
    case 18: i = of_connection(paper, DEL); if (chance(r, 50)) i.id = i.provider; break;
    case 19: case 23: case 24: return ticket_source(paper, number);
    case 20: i = draw_of_verb(paper, PUSHB); return i;
    case 21: i = draw_of_verb(paper, chance(r, 50) ? DEL : WAIT); return i;
    default: return draw_of_verb(paper, DCON);
    }
    return (struct instruction){ .verb = i.verb, .id = i.id };
}

/* Whether a place is being come to: some transition of the current behavior that leads to it has ended. */
static bool halfway(const struct paper *paper, struct step step)
{
    const struct instance *i = &paper->configuration.instance[step.id];
    const struct type *type = type_at(paper, step.id);
    for (unsigned t = 0; step.verb == ENTER && i->queued > 0 && t < type->transitions; t++)
        if ((i->ended & type->behavior[i->queue[0]] & bit(t)) != 0 && type->destination[t] == step.number) return true;
    return false;
}

/* Keeps each of the steps seen that get the number with the same chance. */
static void consider(struct paper *paper, struct step step, unsigned number, unsigned *seen, struct step *found)
{
    if (step_number(&paper->tables, &paper->program, &paper->configuration, &step) != number) return;
    if (paper->halfway && number == 31 && !halfway(paper, step)) return;
    if (pick(&paper->random, ++*seen) == 0) *found = step;
}

/* The moves of one instance by one verb; numbers outside the type are tried for a refusal only. */
static void consider_verb(struct paper *paper, unsigned id, unsigned verb, unsigned number, unsigned *seen, struct step *found)
{
    const struct type *type = type_at(paper, id);
    unsigned places = number == 0 ? type->places : PLACES, transitions = number == 0 ? type->transitions : TRANSITIONS;
    unsigned count = verb == FINISH ? 1 : verb == END ? transitions : places;
    for (unsigned k = 0; k < count; k++)
        consider(paper, (struct step){ (uint8_t)verb, (uint8_t)id, (uint8_t)k }, number, seen, found);
}

/* A move of one instance that gets the number wanted: for a refusal by a verb drawn first, so that each has its turn. */
static bool draw_move_of(struct paper *paper, unsigned id, unsigned number)
{
    unsigned seen = 0;
    struct step found = { 0, 0, 0 };
    if (number != 0) consider_verb(paper, id, pick_from(&paper->random, FIRE, FINISH), number, &seen, &found);
    for (unsigned verb = FIRE; verb <= FINISH && (number == 0 || seen == 0); verb++)
        consider_verb(paper, id, verb, number, &seen, &found);
    if (seen > 0) take(paper, found);
    return seen > 0;
}

/* Who moves: for 34 and 35 mostly the user of a connection, for 36 its provider, for 11 nobody, for 38 anybody. */
static unsigned draw_mover(struct paper *paper, unsigned number)
{
    const struct configuration *c = &paper->configuration;
    const struct connection *n = &c->connection[pick(&paper->random, c->count)];
    if (c->count == 0 || number < 34 || number > 36 || chance(&paper->random, 20)) return draw_id(paper, number != 11);
    return number == 36 ? n->provider : n->user;
}

static bool draw_move(struct paper *paper, unsigned number, unsigned tries)
{
    while (tries-- > 0) {
        unsigned id = draw_mover(paper, number);
        bool idle = paper->configuration.instance[id].queued == 0;
        if (number != 11 && idle != (number == 30)) continue;
        if (draw_move_of(paper, id, number)) return true;
    }
    return false;
}

bool draw_refused(struct paper *paper, unsigned number)
{
    if (number == 10) {
        take(paper, (struct step){ NEXT, 0, 0 });
        return true;
    }
    if (number >= 30 || (number == 11 && chance(&paper->random, 50))) return draw_move(paper, number, 4);
    return draw_next(paper, number, aimed_source, 8);
}

bool draw_allowed(struct paper *paper)
{
    bool move_first = chance(&paper->random, paper->moves);
    if (move_first && draw_move(paper, 0, 4)) return true;
    if (draw_next(paper, 0, lawful_source, 12)) return true;
    return !move_first && draw_move(paper, 0, 8);
}

struct step draw_step(struct paper *paper)
{
    struct random *r = &paper->random;
    static const uint8_t greatest[STEP_VERBS] = { 1, PLACES, TRANSITIONS, PLACES, 1 };
    struct step step = { (uint8_t)pick(r, STEP_VERBS), 0, 0 };
    if (step.verb != NEXT) step.id = (uint8_t)pick(r, INSTANCES);
    step.number = (uint8_t)pick(r, greatest[step.verb]);
    return step;
}

/* ---- the walk ---- */

/* The manner of a walk: how many instances, which instructions, how many moves; bent towards the aim. */
static void draw_manner(struct paper *paper)
{
    struct random *r = &paper->random;
    static const unsigned crowds[] = { 2, 3, 4, 6, 10, 20, 32 };
    unsigned weights[INSTRUCTION_VERBS] = { 20, 1, 20, 40, 2, 4 };
    paper->crowd = crowds[pick(r, 7)];
    paper->moves = pick_from(r, 20, 80);
    if (chance(r, 30)) weights[DEL] = weights[DCON] = 20;
    if (paper->aim >= 19 && paper->aim <= 21) weights[PUSHB] = 80, paper->moves = 20, paper->crowd = pick_from(r, 1, 4);
    if (paper->aim == 23 || paper->aim == 24) weights[PUSHB] = 60, weights[WAIT] = 20, paper->moves = pick_from(r, 20, 70), paper->crowd = pick_from(r, 1, 6);
    if (paper->tables.ticketed) paper->stride = pick_from(r, 1, chance(r, 20) ? 60 : 8);
    if (paper->full) weights[CON] = 400, weights[PUSHB] = 1, paper->moves = 2, paper->crowd = pick_from(r, 12, 32);
    if (paper->aim >= 31) weights[PUSHB] = 40, paper->moves = pick_from(r, 50, 85), paper->crowd = crowds[pick(r, 5)];
    memcpy(paper->verbs, weights, sizeof weights);
}

static unsigned draw_length(struct random *r)
{
    unsigned kind = pick(r, 100);
    if (kind < 3) return STEPS;
    if (kind < 10) return pick(r, STEPS);
    return kind < 15 ? pick(r, 10) : pick_from(r, 20, 160);
}

/* What follows the walk is never judged, or not before a refusal; it is read all the same. */
static void append_rest(struct paper *paper)
{
    struct random *r = &paper->random;
    if (paper->aim == 0) return;
    for (unsigned k = pick(r, 5); k > 0 && paper->steps < STEPS; k--) paper->step[paper->steps++] = draw_step(paper);
}

static void append_program(struct paper *paper)
{
    struct random *r = &paper->random;
    unsigned count = chance(r, 3) ? INSTRUCTIONS : chance(r, 50) ? pick(r, 8) : 0;
    if (paper->aim == 10) return;
    for (unsigned k = 0; k < count; k++) {
        struct instruction i = draw_instruction(paper, 20);
        append_instruction(paper, &i);
    }
}

void start_paper(struct paper *paper, unsigned aim, bool ticketed)
{
    paper->aim = aim;
    paper->steps = 0;
    memset(&paper->program, 0, sizeof paper->program);
    memset(&paper->start, 0, sizeof paper->start);
    memset(&paper->configuration, 0, sizeof paper->configuration);
    paper->halfway = chance(&paper->random, 40);
    paper->full = aim == 16 || (aim == 15 && chance(&paper->random, 25));
    draw_tables(paper);
    paper->tables.ticketed = ticketed;
    draw_manner(paper);
}

void draw_paper(struct paper *paper, unsigned aim, bool ticketed)
{
    start_paper(paper, aim, ticketed);
    if (paper->started) draw_start(paper);
    unsigned length = draw_length(&paper->random), ready = pick(&paper->random, 40), idle = 0;
    if (aim != 0 && length < 200) length = 200;
    while (paper->steps < length && idle < 6) {
        bool now = paper->full ? paper->configuration.count == CONNECTIONS : paper->steps >= ready;
        if (aim != 0 && now && draw_refused(paper, aim)) break;
        idle = draw_allowed(paper) ? 0 : idle + 1;
    }
    append_rest(paper);
    append_program(paper);
}

void draw_by_names(struct paper *paper, unsigned aim, bool ticketed)
{
    start_paper(paper, aim, ticketed);
    if (paper->started) draw_start(paper);
    unsigned length = paper->full || chance(&paper->random, 5) ? INSTRUCTIONS : pick(&paper->random, 60);
    for (bool found = true; found && paper->program.count < length && !(paper->full && paper->configuration.count == CONNECTIONS);) {
        forget_tokens(&paper->configuration);
        found = draw_next(paper, 0, lawful_source, 12);
    }
    forget_tokens(&paper->configuration);
    if (aim != 0) draw_next(paper, aim, aimed_source, 60);
    append_program(paper);
}
