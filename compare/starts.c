/* C-20: the states in which papers start: reached by a walk, or permitted and reached by none that we know. */
#include <string.h>

#include "generate.h"
#include "state.h"

/* Tickets for a queue that rise to 255 at most; without a queue a last one or none. */
static void draw_tickets(struct paper *paper, struct instance *i)
{
    struct random *r = &paper->random;
    unsigned least = chance(r, 30) ? 0 : pick(r, TICKETS - DEPTH + 1), most = TICKETS - i->queued;
    if (chance(r, 10)) least = most;
    if (i->queued == 0 && chance(r, 60)) add_ticket(&i->pushed, least < TICKETS ? least : TICKETS - 1);
    for (unsigned k = 0; k < i->queued; k++, least++, most++) {
        if (chance(r, 50)) least += pick(r, paper->stride);
        if (least > most) least = most;
        i->ticket[k] = (uint8_t)least;
        add_ticket(&i->pushed, least);
    }
}

static void draw_instance(struct paper *paper, struct instance *i)
{
    struct random *r = &paper->random;
    unsigned dense = pick_from(r, 5, 95), depth = effective_depth(&paper->tables);
    memset(i, 0, sizeof *i);
    i->present = 1;
    i->kind = (uint8_t)pick(r, paper->tables.count);
    const struct type *type = &paper->tables.type[i->kind];
    i->marked = chance(r, 40) ? type->initial : pick_set(r, type->places, dense);
    if (type->behaviors > 0) i->queued = (uint8_t)(chance(r, 20) ? depth : pick(r, depth + 1));
    for (unsigned k = 0; k < i->queued; k++) i->queue[k] = (uint8_t)pick(r, type->behaviors);
    if (paper->tables.ticketed) draw_tickets(paper, i);
    uint32_t held = i->queued == 0 || chance(r, 40) ? 0 : type->behavior[i->queue[0]] & pick_set(r, TRANSITIONS, dense);
    i->ended = held & (chance(r, 30) ? UINT32_MAX : pick_set(r, TRANSITIONS, 50));
    i->running = held & ~i->ended;
}

static void connect(struct configuration *c, unsigned user, unsigned useport, unsigned provider, unsigned provideport)
{
    c->connection[c->count++] = (struct connection){ (uint8_t)user, (uint8_t)useport, (uint8_t)provider, (uint8_t)provideport };
}

static const struct type *type_of(const struct paper *paper, unsigned id)
{
    return &paper->tables.type[paper->configuration.instance[id].kind];
}

/* A free use port is connected to an active provide port of another instance, the first from a random one on. */
static bool find_provider(struct paper *paper, unsigned user, unsigned useport)
{
    struct configuration *c = &paper->configuration;
    unsigned first = pick(&paper->random, INSTANCES);
    for (unsigned k = 0; k < INSTANCES * PORTS && c->count < CONNECTIONS; k++) {
        unsigned id = (first + k / PORTS) % INSTANCES, port = k % PORTS;
        if (id == user || !c->instance[id].present || !has_port(type_of(paper, id), port, PROVIDE)
            || !port_active(&type_of(paper, id)->port[port], &c->instance[id])) continue;
        connect(c, user, useport, id, port);
        return true;
    }
    return false;
}

static void take_tokens(struct instance *i, const struct port *port)
{
    i->marked &= ~port->places;
    i->running &= ~port->transitions;
    i->ended &= ~port->transitions;
}

/* Active use ports find a provider or lose their tokens, which only grow fewer, so this ends. */
static void serve_all(struct paper *paper)
{
    struct configuration *c = &paper->configuration;
    while (!all_served(&paper->tables, c))
        for (unsigned k = 0; k < INSTANCES * PORTS; k++) {
            struct instance *i = &c->instance[k / PORTS];
            const struct port *port = &paper->tables.type[i->kind].port[k % PORTS];
            if (!i->present || !has_port(type_of(paper, k / PORTS), k % PORTS, USE) || !port_active(port, i)) continue;
            const struct connection *n = connection_of(c, k / PORTS, k % PORTS);
            if (n == NULL && find_provider(paper, k / PORTS, k % PORTS)) continue;
            if (n == NULL || !port_active(&type_of(paper, n->provider)->port[n->provideport], &c->instance[n->provider]))
                take_tokens(i, port);
        }
}

/* A permitted state that no walk need reach; now and then with 32 instances, or with 64 connections where ports are many. */
static void draw_any(struct paper *paper)
{
    struct random *r = &paper->random;
    struct configuration *c = &paper->configuration;
    struct instruction con;
    bool all = chance(r, 10);
    memset(c, 0, sizeof *c);
    for (unsigned id = 0; id < INSTANCES; id++)
        if (all || pick(r, INSTANCES) < paper->crowd) draw_instance(paper, &c->instance[id]);
    for (unsigned tries = paper->full || chance(r, 10) ? 600 : pick(r, 60); tries > 0 && c->count < CONNECTIONS; tries--)
        if (draw_connection(paper, &con)) connect(c, con.id, con.number, con.provider, con.provideport);
    serve_all(paper);
}

static void walk_there(struct paper *paper)
{
    unsigned steps = paper->full ? 400 : pick(&paper->random, 120);
    while (steps-- > 0 && !(paper->full && paper->configuration.count == CONNECTIONS)) draw_allowed(paper);
}

/* Of the tickets pushed a start says those of its queue, or the last where it has none: "counts as finished only if it is that last
   one". A last ticket may be any there, or none. */
static void forget_tickets(struct paper *paper, struct instance *i)
{
    struct random *r = &paper->random;
    unsigned past = chance(r, 10) ? 0 : chance(r, 10) ? pick(r, TICKETS + 1) : past_tickets(&i->pushed);
    i->pushed = (struct tickets){ { 0 } };
    for (unsigned k = 0; k < i->queued; k++) add_ticket(&i->pushed, i->ticket[k]);
    if (i->queued == 0 && past > 0) add_ticket(&i->pushed, past - 1);
}

/* "The judge then starts there with the program at its first line." */
void draw_start(struct paper *paper)
{
    if (chance(&paper->random, 60)) walk_there(paper);
    else if (chance(&paper->random, 90)) draw_any(paper);
    for (unsigned id = 0; paper->tables.ticketed && id < INSTANCES; id++)
        if (paper->configuration.instance[id].present) forget_tickets(paper, &paper->configuration.instance[id]);
    memset(&paper->program, 0, sizeof paper->program);
    paper->steps = 0;
    paper->configuration.done = 0;
    paper->start = paper->configuration;
}

/* A use port made active without an active provide port behind it: 50. */
void unserve_start(struct paper *paper)
{
    struct random *r = &paper->random;
    for (unsigned tries = 0; tries < 400 && all_served(&paper->tables, &paper->start); tries++) {
        struct instance *i = &paper->start.instance[pick(r, INSTANCES)];
        const struct type *type = &paper->tables.type[i->kind];
        const struct port *port = &type->port[pick(r, type->ports)];
        if (!i->present || type->ports == 0) continue;
        if (!port->use) take_tokens(i, port);
        else if (port->places != 0) i->marked |= port->places & ~(port->places - 1);
        else if (i->queued > 0 && (i->ended & port->transitions) == 0) i->running |= port->transitions & type->behavior[i->queue[0]];
    }
}
