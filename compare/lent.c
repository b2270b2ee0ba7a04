/* The layout, said once: a visit goes over every number in order, and either stores or loads it. */
#include "lent.h"

#include "ink.h"

struct visit { uint8_t *bytes; bool store; };

static void byte(struct visit *v, uint8_t *number)
{
    if (v->store) *v->bytes = *number;
    else *number = *v->bytes;
    v->bytes++;
}

static void word(struct visit *v, uint32_t *number)
{
    uint32_t value = 0;
    for (unsigned k = 0; k < 4; k++) {
        uint8_t part = (uint8_t)(*number >> (8 * k));
        byte(v, &part);
        value |= (uint32_t)part << (8 * k);
    }
    *number = value;
}

static void pair(struct visit *v, uint16_t *number)
{
    uint8_t low = (uint8_t)*number, high = (uint8_t)(*number >> 8);
    byte(v, &low);
    byte(v, &high);
    *number = (uint16_t)(low | high << 8);
}

static void counts(struct visit *v, struct type *t)
{
    byte(v, &t->places);
    word(v, &t->initial);
    byte(v, &t->transitions);
    byte(v, &t->behaviors);
    byte(v, &t->ports);
}

/* The flat tables: one column over all types before the next. */
static void tables(struct visit *v, struct tables *t)
{
    byte(v, &t->depth);
    byte(v, &t->count);
    for (unsigned k = 0; k < TYPES; k++) counts(v, &t->type[k]);
    for (unsigned k = 0; k < TYPES * TRANSITIONS; k++) byte(v, &t->type[k / TRANSITIONS].source[k % TRANSITIONS]);
    for (unsigned k = 0; k < TYPES * TRANSITIONS; k++) byte(v, &t->type[k / TRANSITIONS].destination[k % TRANSITIONS]);
    for (unsigned k = 0; k < TYPES * BEHAVIORS; k++) word(v, &t->type[k / BEHAVIORS].behavior[k % BEHAVIORS]);
    for (unsigned k = 0; k < TYPES * PORTS; k++) byte(v, &t->type[k / PORTS].port[k % PORTS].use);
    for (unsigned k = 0; k < TYPES * PORTS; k++) word(v, &t->type[k / PORTS].port[k % PORTS].places);
    for (unsigned k = 0; k < TYPES * PORTS; k++) word(v, &t->type[k / PORTS].port[k % PORTS].transitions);
}

static void program(struct visit *v, struct program *p)
{
    for (unsigned k = 0; k < INSTRUCTIONS; k++) {
        struct instruction *i = &p->line[k];
        byte(v, &i->verb);
        byte(v, &i->id);
        byte(v, &i->number);
        byte(v, &i->provider);
        byte(v, &i->provideport);
    }
    word(v, &p->count);
}

static void instance(struct visit *v, struct instance *i)
{
    byte(v, &i->present);
    byte(v, &i->kind);
    word(v, &i->marked);
    word(v, &i->running);
    word(v, &i->ended);
    byte(v, &i->queued);
}

static void configuration(struct visit *v, struct lent_configuration *c)
{
    for (unsigned id = 0; id < INSTANCES; id++) instance(v, &c->instance[id]);
    for (unsigned k = 0; k < INSTANCES * DEPTH; k++) byte(v, &c->instance[k / DEPTH].queue[k % DEPTH]);
    for (unsigned slot = 0; slot < INSTANCES * PORTS; slot++) pair(v, &c->server[slot]);
    word(v, &c->done);
}

static void whole(struct visit *v, struct lent *lent)
{
    tables(v, &lent->tables);
    program(v, &lent->program);
    configuration(v, &lent->configuration);
    byte(v, &lent->step.verb);
    byte(v, &lent->step.id);
    byte(v, &lent->step.number);
}

void lent_to_bytes(const struct lent *lent, uint8_t *bytes)
{
    struct lent copy = *lent;
    struct visit v = { bytes, true };
    whole(&v, &copy);
}

void lent_of_bytes(const uint8_t *bytes, struct lent *lent)
{
    uint8_t copy[LENT_BYTES];
    struct visit v = { copy, false };
    memcpy(copy, bytes, LENT_BYTES);
    whole(&v, lent);
}

uint8_t *ink_refusal(uint8_t *at, struct refusal refusal)
{
    at = ink_byte(ink_number(ink_byte(at, ' '), refusal.number), ' ');
    return refusal.port == NO_PORT ? ink_byte(at, '-') : ink_number(at, refusal.port);
}

uint8_t *ink_changes(uint8_t *at, const uint8_t *before, const uint8_t *after)
{
    for (unsigned k = 0; k < CONFIGURATION_BYTES; k++)
        if (before[CONFIGURATION_START + k] != after[CONFIGURATION_START + k]) {
            at = ink_byte(ink_number(ink_byte(at, ' '), k), '=');
            at = ink_number(at, after[CONFIGURATION_START + k]);
        }
    return at;
}
