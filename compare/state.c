/* "The report and its program": the lines of a configuration, from `instances=` on; a start has the same. */
#include "state.h"

#include "ink.h"

static uint8_t *ink_queue(uint8_t *at, const struct instance *i, bool ticketed)
{
    if (i->queued == 0) return ink_byte(at, '-');
    for (unsigned k = 0; k < i->queued; k++) {
        at = ink_number(k == 0 ? at : ink_byte(at, '+'), i->queue[k]);
        if (ticketed) at = ink_number(ink_byte(at, ':'), i->ticket[k]);
    }
    return at;
}

/* "`instance=id,type,marked,running,ended,queue`" */
static uint8_t *ink_instance(uint8_t *at, unsigned id, const struct instance *i, bool ticketed)
{
    at = ink_byte(ink_number(ink_word(at, "instance="), id), ',');
    at = ink_byte(ink_number(at, i->kind), ',');
    at = ink_byte(ink_list(at, i->marked), ',');
    at = ink_byte(ink_list(at, i->running), ',');
    at = ink_byte(ink_list(at, i->ended), ',');
    return ink_byte(ink_queue(at, i, ticketed), '\n');
}

static uint8_t *ink_instances(uint8_t *at, const struct configuration *c, bool ticketed)
{
    unsigned count = 0;
    for (unsigned id = 0; id < INSTANCES; id++) count += c->instance[id].present;
    at = ink_line(at, "instances=", count);
    for (unsigned id = 0; id < INSTANCES; id++)
        if (c->instance[id].present) at = ink_instance(at, id, &c->instance[id], ticketed);
    return at;
}

/* "`connection=user,useport,provider,provideport`" */
static uint8_t *ink_connection(uint8_t *at, const struct connection *n)
{
    at = ink_byte(ink_number(ink_word(at, "connection="), n->user), ',');
    at = ink_byte(ink_number(at, n->useport), ',');
    at = ink_byte(ink_number(at, n->provider), ',');
    return ink_byte(ink_number(at, n->provideport), '\n');
}

static unsigned rank(const struct connection *n) { return n->user * 16u + n->useport; }

/* "per connection by user then port": sorted by insertion into `sorted`. */
static void sort_connections(const struct configuration *c, const struct connection **sorted)
{
    for (unsigned k = 0; k < c->count; k++) {
        unsigned at = k;
        for (; at > 0 && rank(sorted[at - 1]) > rank(&c->connection[k]); at--) sorted[at] = sorted[at - 1];
        sorted[at] = &c->connection[k];
    }
}

static uint8_t *ink_connections(uint8_t *at, const struct configuration *c)
{
    const struct connection *sorted[CONNECTIONS];
    sort_connections(c, sorted);
    at = ink_line(at, "connections=", c->count);
    for (unsigned k = 0; k < c->count; k++) at = ink_connection(at, sorted[k]);
    return at;
}

uint8_t *ink_state(uint8_t *at, const struct configuration *c, bool ticketed)
{
    return ink_connections(ink_instances(at, c, ticketed), c);
}
