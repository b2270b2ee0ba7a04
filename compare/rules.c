/* "State and step rules". Each function says which of its sentences it is. */
#include "rules.h"

#include <string.h>

/* The marking that a port sees: "A transition is held when running or ended." */
struct tokens { uint32_t marked, held; };

static struct tokens tokens_of(const struct instance *instance)
{
    return (struct tokens){ instance->marked, instance->running | instance->ended };
}

/* "A port is active when one of its places is marked or one of its transitions held." */
static bool active(const struct port *port, struct tokens tokens)
{
    return (port->places & tokens.marked) != 0 || (port->transitions & tokens.held) != 0;
}

bool port_active(const struct port *port, const struct instance *instance)
{
    return active(port, tokens_of(instance));
}

unsigned effective_depth(const struct tables *tables)
{
    return tables->depth == 0 ? DEFAULT_DEPTH : tables->depth;
}

/* "a queue of behaviors, whose head is the current one"; an empty queue has no current behavior. */
static uint32_t current(const struct type *type, const struct instance *instance)
{
    return instance->queued == 0 ? 0 : type->behavior[instance->queue[0]];
}

/* The transitions of a set that have a place at that end: "that leave p", "that lead to p". */
static uint32_t at_place(const uint8_t *ends, uint32_t transitions, unsigned place)
{
    uint32_t found = 0;
    for (unsigned t = 0; transitions != 0; t++, transitions >>= 1)
        if ((transitions & 1) != 0 && ends[t] == place) found |= bit(t);
    return found;
}

const struct connection *connection_of(const struct configuration *c, unsigned user, unsigned useport)
{
    for (unsigned k = 0; k < c->count; k++)
        if (c->connection[k].user == user && c->connection[k].useport == useport) return &c->connection[k];
    return NULL;
}

bool has_port(const struct type *type, unsigned port, enum port_kind kind)
{
    return port < type->ports && type->port[port].use == kind;
}

static const struct type *type_of(const struct tables *tables, const struct configuration *c, unsigned id)
{
    return &tables->type[c->instance[id].kind];
}

static bool active_end(const struct tables *tables, const struct configuration *c, unsigned id, unsigned port)
{
    return port_active(&type_of(tables, c, id)->port[port], &c->instance[id]);
}

/* The instructions. "add: the id is absent" */
static unsigned add_number(const struct configuration *c, const struct instruction *i)
{
    return c->instance[i->id].present ? 12 : 0;
}

static bool named_by_connection(const struct configuration *c, unsigned id)
{
    for (unsigned k = 0; k < c->count; k++)
        if (c->connection[k].user == id || c->connection[k].provider == id) return true;
    return false;
}

/* "del: present, named by no connection, queue empty." */
static unsigned del_number(const struct configuration *c, const struct instruction *i)
{
    if (!c->instance[i->id].present) return 11;
    if (named_by_connection(c, i->id)) return 18;
    return c->instance[i->id].queued > 0 ? 21 : 0;
}

/* "pushb: present, behavior exists, queue shorter than the depth"; "19, ticket not above the last, after 13 and before 20" */
static unsigned pushb_number(const struct tables *tables, const struct configuration *c, const struct instruction *i)
{
    if (!c->instance[i->id].present) return 11;
    if (i->number >= type_of(tables, c, i->id)->behaviors) return 13;
    if (i->ticketed && i->ticket < past_tickets(&c->instance[i->id].pushed)) return 19;
    return c->instance[i->id].queued >= effective_depth(tables) ? 20 : 0;
}

/* "con: both present, not the same instance, ports exist and are of the right kind, the use port not yet connected,
   fewer than 64 connections now"; "the smallest number that applies" gives the order. */
static unsigned con_number(const struct tables *tables, const struct configuration *c, const struct instruction *i)
{
    if (!c->instance[i->id].present || !c->instance[i->provider].present) return 11;
    if (!has_port(type_of(tables, c, i->id), i->number, USE)) return 13;
    if (!has_port(type_of(tables, c, i->provider), i->provideport, PROVIDE)) return 13;
    if (i->id == i->provider) return 14;
    if (connection_of(c, i->id, i->number) != NULL) return 15;
    return c->count >= CONNECTIONS ? 16 : 0;
}

static bool is_connection(const struct connection *n, const struct instruction *i)
{
    return n->user == i->id && n->useport == i->number && n->provider == i->provider && n->provideport == i->provideport;
}

/* "dcon: that connection exists and its use port is inactive; it is refused with 17 or 22 only." */
static unsigned dcon_number(const struct tables *tables, const struct configuration *c, const struct instruction *i)
{
    const struct connection *n = connection_of(c, i->id, i->number);
    if (n == NULL || !is_connection(n, i)) return 17;
    return active_end(tables, c, i->id, i->number) ? 22 : 0;
}

bool ticket_queued(const struct instance *instance, unsigned ticket)
{
    for (unsigned k = 0; k < instance->queued; k++)
        if (instance->ticket[k] == ticket) return true;
    return false;
}

/* "A wait with ticket is allowed once that push is finished": "23, ticket still queued, and 24, ticket never pushed, in place of 21" */
static unsigned ticket_number(const struct instance *instance, unsigned ticket)
{
    if (!has_ticket(&instance->pushed, ticket)) return 24;
    return ticket_queued(instance, ticket) ? 23 : 0;
}

/* "wait: present, queue empty." */
static unsigned wait_number(const struct configuration *c, const struct instruction *i)
{
    if (!c->instance[i->id].present) return 11;
    if (i->ticketed) return ticket_number(&c->instance[i->id], i->ticket);
    return c->instance[i->id].queued > 0 ? 21 : 0;
}

unsigned instruction_number(const struct tables *tables, const struct configuration *c, const struct instruction *i)
{
    switch (i->verb) {
    case ADD: return add_number(c, i);
    case DEL: return del_number(c, i);
    case PUSHB: return pushb_number(tables, c, i);
    case CON: return con_number(tables, c, i);
    case DCON: return dcon_number(tables, c, i);
    default: return wait_number(c, i);
    }
}

/* "the instance gets its initial places marked, nothing held and an empty queue"; add zeroes all queue slots. */
static void add(const struct tables *tables, struct instance *instance, unsigned type)
{
    memset(instance, 0, sizeof *instance);
    instance->present = 1;
    instance->kind = (uint8_t)type;
    instance->marked = tables->type[type].initial;
}

/* "dcon .. close the gap and zero the slot freed" */
static void disconnect(struct configuration *c, const struct instruction *i)
{
    unsigned k = 0;
    while (!is_connection(&c->connection[k], i)) k++;
    c->count--;
    memmove(&c->connection[k], &c->connection[k + 1], (c->count - k) * sizeof c->connection[0]);
    memset(&c->connection[c->count], 0, sizeof c->connection[0]);
}

/* "appended last", with its ticket where it has one */
static void push(struct instance *instance, const struct instruction *i)
{
    if (i->ticketed) {
        instance->ticket[instance->queued] = i->ticket;
        add_ticket(&instance->pushed, i->ticket);
    }
    instance->queue[instance->queued++] = i->number;
}

static void carry_out(const struct tables *tables, struct configuration *c, const struct instruction *i)
{
    struct instance *instance = &c->instance[i->id];
    switch (i->verb) {
    case ADD: add(tables, instance, i->number); break;
    case DEL: memset(instance, 0, sizeof *instance); break;
    case PUSHB: push(instance, i); break;
    case CON: c->connection[c->count++] = (struct connection){ i->id, i->number, i->provider, i->provideport }; break;
    case DCON: disconnect(c, i); break;
    default: break;
    }
    c->done++;
}

/* "some marked place of its instance has leaving transitions in the current behavior, none held, whose firing would
   make the port inactive": one firing, judged on tokens alone. */
static bool would_leave(const struct type *type, const struct instance *instance, const struct port *port, unsigned p)
{
    struct tokens now = tokens_of(instance);
    uint32_t leaving = at_place(type->source, current(type, instance), p);
    struct tokens fired = { now.marked & ~bit(p), now.held | leaving };
    return (now.marked & bit(p)) != 0 && leaving != 0 && (leaving & now.held) == 0 && !active(port, fired);
}

/* C-13: "some place could be entered by the rules for tokens, its ports aside, and entering it would make the port inactive" */
static bool would_enter(const struct type *type, const struct instance *instance, const struct port *port, unsigned p)
{
    struct tokens now = tokens_of(instance);
    uint32_t leading = at_place(type->destination, current(type, instance), p);
    struct tokens entered = { now.marked | bit(p), now.held & ~leading };
    return leading != 0 && (leading & ~instance->ended) == 0 && (now.marked & bit(p)) == 0 && !active(port, entered);
}

static bool refusing(const struct type *type, const struct instance *instance, const struct port *port)
{
    if (!port_active(port, instance)) return false;
    for (unsigned p = 0; p < type->places; p++)
        if (would_leave(type, instance, port, p) || would_enter(type, instance, port, p)) return true;
    return false;
}

/* One instance on the move, with its tokens before and after. */
struct move {
    const struct tables *tables;
    const struct configuration *configuration;
    const struct type *type;
    unsigned id;
    struct tokens before, after;
};

static bool in_want(const struct move *m, unsigned port)
{
    return m->type->port[port].use && active(&m->type->port[port], m->after);
}

/* C-11: "38, unconnected use port" */
static bool unconnected(const struct move *m, unsigned port)
{
    return in_want(m, port) && connection_of(m->configuration, m->id, port) == NULL;
}

/* "Each use port active after must be connected to an active provide port." Asked after `unconnected` of all ports. */
static bool unserved(const struct move *m, unsigned port)
{
    if (!in_want(m, port)) return false;
    const struct connection *n = connection_of(m->configuration, m->id, port);
    return !active_end(m->tables, m->configuration, n->provider, n->provideport);
}

/* "If it was inactive before, that provide port must not be refusing." Asked after `unserved` of all ports. */
static bool turned_away(const struct move *m, unsigned port)
{
    const struct port *own = &m->type->port[port];
    if (!own->use || active(own, m->before) || !active(own, m->after)) return false;
    const struct connection *n = connection_of(m->configuration, m->id, port);
    const struct type *type = type_of(m->tables, m->configuration, n->provider);
    return refusing(type, &m->configuration->instance[n->provider], &type->port[n->provideport]);
}

/* "Each provide port active before and inactive after must have no active use port connected." */
static bool in_use(const struct move *m, unsigned port)
{
    const struct port *own = &m->type->port[port];
    const struct configuration *c = m->configuration;
    if (own->use || !active(own, m->before) || active(own, m->after)) return false;
    for (unsigned k = 0; k < c->count; k++) {
        const struct connection *n = &c->connection[k];
        if (n->provider == m->id && n->provideport == port && active_end(m->tables, c, n->user, n->useport)) return true;
    }
    return false;
}

static struct refusal refuse(unsigned number)
{
    return (struct refusal){ number, NO_PORT };
}

/* "Checks 34, 35 and 36 each run over all ports before the next", and 38 "right before 34". */
static struct refusal ports_refusal(const struct move *m)
{
    for (unsigned port = 0; port < m->type->ports; port++)
        if (unconnected(m, port)) return (struct refusal){ 38, port };
    for (unsigned port = 0; port < m->type->ports; port++)
        if (unserved(m, port)) return (struct refusal){ 34, port };
    for (unsigned port = 0; port < m->type->ports; port++)
        if (turned_away(m, port)) return refuse(35);
    for (unsigned port = 0; port < m->type->ports; port++)
        if (in_use(m, port)) return refuse(36);
    return refuse(0);
}

/* "fire p: p is marked; the transitions of the current behavior that leave p are at least one, none held." */
static struct refusal fire_refusal(struct move m, const struct instance *instance, unsigned place)
{
    uint32_t leaving = at_place(m.type->source, current(m.type, instance), place);
    if (leaving == 0) return refuse(32);
    if ((m.before.marked & bit(place)) == 0) return refuse(31);
    if ((leaving & m.before.held) != 0) return refuse(33);
    m.after = (struct tokens){ m.before.marked & ~bit(place), m.before.held | leaving };
    return ports_refusal(&m);
}

/* "enter p: the transitions of the current behavior that lead to p are at least one, all ended; p is unmarked." */
static struct refusal enter_refusal(struct move m, const struct instance *instance, unsigned place)
{
    uint32_t leading = at_place(m.type->destination, current(m.type, instance), place);
    if (leading == 0) return refuse(32);
    if ((leading & ~instance->ended) != 0) return refuse(31);
    if ((m.before.marked & bit(place)) != 0) return refuse(33);
    m.after = (struct tokens){ m.before.marked | bit(place), m.before.held & ~leading };
    return ports_refusal(&m);
}

/* "finish: nothing is held and no marked place has a leaving transition in the current behavior." */
static unsigned finish_number(const struct type *type, const struct instance *instance)
{
    uint32_t behavior = current(type, instance);
    if ((instance->running | instance->ended) != 0) return 37;
    for (unsigned p = 0; p < type->places; p++)
        if ((instance->marked & bit(p)) != 0 && at_place(type->source, behavior, p) != 0) return 37;
    return 0;
}

static struct refusal move_refusal(const struct tables *tables, const struct configuration *c, const struct step *step)
{
    const struct instance *instance = &c->instance[step->id];
    if (!instance->present) return refuse(11);
    if (instance->queued == 0) return refuse(30);
    struct move m = { tables, c, type_of(tables, c, step->id), step->id, tokens_of(instance), { 0, 0 } };
    switch (step->verb) {
    case FIRE: return fire_refusal(m, instance, step->number);
    case END: return refuse((instance->running & bit(step->number)) == 0 ? 31 : 0);
    case ENTER: return enter_refusal(m, instance, step->number);
    default: return refuse(finish_number(m.type, instance));
    }
}

static struct refusal step_refusal(const struct tables *tables, const struct program *program, const struct configuration *c,
                                   const struct step *step)
{
    if (step->verb != NEXT) return move_refusal(tables, c, step);
    return refuse(c->done >= program->count ? 10 : instruction_number(tables, c, &program->line[c->done]));
}

unsigned step_number(const struct tables *tables, const struct program *program, const struct configuration *c,
                     const struct step *step)
{
    return step_refusal(tables, program, c, step).number;
}

/* "The head goes": the gap is closed and the slot freed is zeroed. */
static void drop_head(struct instance *instance)
{
    instance->queued--;
    memmove(&instance->queue[0], &instance->queue[1], instance->queued);
    memmove(&instance->ticket[0], &instance->ticket[1], instance->queued);
    instance->queue[instance->queued] = instance->ticket[instance->queued] = 0;
}

static void fire(const struct type *type, struct instance *instance, unsigned place)
{
    instance->running |= at_place(type->source, current(type, instance), place);
    instance->marked &= ~bit(place);
}

/* "They are then neither running nor ended, and p is marked." */
static void enter(const struct type *type, struct instance *instance, unsigned place)
{
    uint32_t leading = at_place(type->destination, current(type, instance), place);
    instance->running &= ~leading;
    instance->ended &= ~leading;
    instance->marked |= bit(place);
}

/* "end t: t is running; it becomes ended." */
static void end(struct instance *instance, unsigned transition)
{
    instance->running &= ~bit(transition);
    instance->ended |= bit(transition);
}

static void move(const struct tables *tables, struct configuration *c, const struct step *step)
{
    struct instance *instance = &c->instance[step->id];
    const struct type *type = &tables->type[instance->kind];
    switch (step->verb) {
    case FIRE: fire(type, instance, step->number); break;
    case END: end(instance, step->number); break;
    case ENTER: enter(type, instance, step->number); break;
    default: drop_head(instance); break;
    }
}

struct refusal take_step(const struct tables *tables, const struct program *program, struct configuration *c,
                         const struct step *step)
{
    struct refusal refusal = step_refusal(tables, program, c, step);
    if (refusal.number != 0) return refusal;
    if (step->verb == NEXT) carry_out(tables, c, &program->line[c->done]);
    else move(tables, c, step);
    return refusal;
}
