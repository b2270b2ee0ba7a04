/* "The screen in the hall": number 7 is given exactly when one of these clauses is broken. */
#include "hall.h"

#include <string.h>

static bool inside(uint32_t set, unsigned count) { return (set & ~below(count)) == 0; }

/* "tables or program break a sheet's rules (its length aside)" */
static bool transition_lawful(const struct type *type, unsigned t)
{
    return type->source[t] < type->places && type->destination[t] < type->places && type->source[t] != type->destination[t];
}

static bool port_lawful(const struct type *type, const struct port *port)
{
    if (port->use != USE && port->use != PROVIDE) return false;
    if (!inside(port->places, type->places) || !inside(port->transitions, type->transitions)) return false;
    return port->use == PROVIDE || (port->places & type->initial) == 0;
}

static bool counts_lawful(const struct type *type)
{
    return type->places >= 1 && type->places <= PLACES && type->transitions <= TRANSITIONS
        && type->behaviors <= BEHAVIORS && type->ports <= PORTS;
}

static bool type_lawful(const struct type *type)
{
    if (!counts_lawful(type) || type->initial == 0 || !inside(type->initial, type->places)) return false;
    for (unsigned t = 0; t < type->transitions; t++)
        if (!transition_lawful(type, t)) return false;
    for (unsigned b = 0; b < type->behaviors; b++)
        if (!inside(type->behavior[b], type->transitions)) return false;
    for (unsigned p = 0; p < type->ports; p++)
        if (!port_lawful(type, &type->port[p])) return false;
    return true;
}

static bool tables_lawful(const struct tables *tables)
{
    if (tables->depth > DEPTH || tables->count < 1 || tables->count > TYPES) return false;
    for (unsigned k = 0; k < tables->count; k++)
        if (!type_lawful(&tables->type[k])) return false;
    return true;
}

/* Numbers that an instruction's line does not say are not looked at. */
static bool instruction_lawful(const struct instruction *i, unsigned types)
{
    if (i->id >= INSTANCES) return false;
    switch (i->verb) {
    case ADD: return i->number < types;
    case DEL: case WAIT: return true;
    case PUSHB: return i->number < BEHAVIORS;
    case CON: case DCON: return i->number < PORTS && i->provider < INSTANCES && i->provideport < PORTS;
    default: return false;
    }
}

static bool program_lawful(const struct program *program, unsigned types)
{
    if (program->count > INSTRUCTIONS) return false;
    for (unsigned k = 0; k < program->count; k++)
        if (!instruction_lawful(&program->line[k], types)) return false;
    return true;
}

/* "the step breaks an answer line's" */
static bool step_lawful(const struct step *step)
{
    switch (step->verb) {
    case NEXT: return true;
    case FIRE: case ENTER: return step->id < INSTANCES && step->number < PLACES;
    case END: return step->id < INSTANCES && step->number < TRANSITIONS;
    case FINISH: return step->id < INSTANCES;
    default: return false;
    }
}

/* "a number of a present instance outside its type or the limits above", "a queue past the depth" */
static bool instance_lawful(const struct tables *tables, const struct instance *i)
{
    if (i->kind >= tables->count || i->queued > effective_depth(tables)) return false;
    const struct type *type = &tables->type[i->kind];
    for (unsigned k = 0; k < i->queued; k++)
        if (i->queue[k] >= type->behaviors) return false;
    return inside(i->marked, type->places) && inside(i->running, type->transitions) && inside(i->ended, type->transitions);
}

static bool end_lawful(const struct tables *tables, const struct lent_configuration *c, unsigned id, unsigned port,
                       enum port_kind kind)
{
    return id < INSTANCES && c->instance[id].present && has_port(&tables->type[c->instance[id].kind], port, kind);
}

/* "one with an absent end, a wrong port, a single instance at both ends"; a slot is its use port, so none is connected twice. */
static bool connection_lawful(const struct tables *tables, const struct lent_configuration *c, unsigned slot, unsigned port)
{
    return end_lawful(tables, c, slot / PORTS, slot % PORTS, USE) && end_lawful(tables, c, port / PORTS, port % PORTS, PROVIDE)
        && slot / PORTS != port / PORTS;
}

/* "over 64 connections" */
static bool connections_lawful(const struct tables *tables, const struct lent_configuration *c)
{
    unsigned count = 0;
    for (unsigned slot = 0; slot < INSTANCES * PORTS; slot++) {
        if (c->server[slot] == 0) continue;
        if (++count > CONNECTIONS || !connection_lawful(tables, c, slot, c->server[slot] - 1u)) return false;
    }
    return true;
}

/* Instances first, so that the ends of a connection have lawful types. */
static bool configuration_lawful(const struct tables *tables, const struct program *program, const struct lent_configuration *c)
{
    if (c->done > program->count) return false;
    for (unsigned id = 0; id < INSTANCES; id++)
        if (c->instance[id].present && !instance_lawful(tables, &c->instance[id])) return false;
    return connections_lawful(tables, c);
}

/* The configuration that the rules keep, its list in the table's order. */
static void list_configuration(const struct lent_configuration *lent, struct configuration *c)
{
    memset(c, 0, sizeof *c);
    memcpy(c->instance, lent->instance, sizeof c->instance);
    c->done = lent->done;
    for (unsigned slot = 0; slot < INSTANCES * PORTS; slot++) {
        unsigned port = lent->server[slot] - 1u;
        if (lent->server[slot] != 0)
            c->connection[c->count++] = (struct connection){ (uint8_t)(slot / PORTS), (uint8_t)(slot % PORTS),
                                                             (uint8_t)(port / PORTS), (uint8_t)(port % PORTS) };
    }
}

void lend_configuration(const struct configuration *c, struct lent_configuration *lent)
{
    memcpy(lent->instance, c->instance, sizeof lent->instance);
    memset(lent->server, 0, sizeof lent->server);
    lent->done = c->done;
    for (unsigned k = 0; k < c->count; k++) {
        const struct connection *n = &c->connection[k];
        lent->server[n->user * PORTS + n->useport] = (uint16_t)(1 + n->provider * PORTS + n->provideport);
    }
}

struct refusal hall(const struct tables *tables, const struct program *program, struct lent_configuration *lent,
                    const struct step *step)
{
    struct configuration configuration;
    if (!tables_lawful(tables) || !program_lawful(program, tables->count) || !step_lawful(step)
        || !configuration_lawful(tables, program, lent)) return (struct refusal){ 7, NO_PORT };
    list_configuration(lent, &configuration);
    struct refusal refusal = take_step(tables, program, &configuration, step);
    lend_configuration(&configuration, lent);
    return refusal;
}
