/* C-20: a start, "the report's lines from `instances=` on, after a line `start=1`", and what the sheet's types permit there. C-21: for
   a `sheet=2` the queue has tickets, and the last ticket pushed ends each instance's line. */
#include "state.h"

/* "The queue is joined by `+`, head first, `-` when empty; it need not ascend." Only the first eight members are kept. `past` and
   `past_tickets` are one more than the greatest, `past_last` one more than the last ticket pushed, 0 for none. */
struct queue { unsigned count, past, past_tickets, past_last; bool rises; uint8_t member[DEPTH], ticket[DEPTH]; };

/* "shows `behavior:ticket` for such sheets" */
static bool take_member(struct reader *r, bool ticketed, unsigned *member, unsigned *ticket)
{
    *ticket = 0;
    return take_number(r, member) && (!ticketed || (take_byte(r, ':') && take_number(r, ticket)));
}

static unsigned greater(unsigned a, unsigned b) { return a < b ? b : a; }

static bool take_queue(struct reader *r, struct queue *queue, bool ticketed)
{
    *queue = (struct queue){ .rises = true };
    if (take_byte(r, '-')) return true;
    do {
        unsigned member, ticket;
        if (!take_member(r, ticketed, &member, &ticket)) return false;
        if (queue->count < DEPTH) queue->member[queue->count] = (uint8_t)member, queue->ticket[queue->count] = (uint8_t)ticket;
        queue->rises = queue->rises && ticket >= queue->past_tickets;
        queue->past = greater(queue->past, member + 1);
        queue->past_tickets = greater(queue->past_tickets, ticket + 1);
        queue->count++;
    } while (take_byte(r, '+'));
    return true;
}

/* "the last ticket pushed .., `-` for none" */
static bool take_last(struct reader *r, struct queue *queue)
{
    unsigned last;
    if (take_byte(r, '-')) return true;
    if (!take_number(r, &last)) return false;
    queue->past_last = last + 1;
    return true;
}

/* An `instance=` line as it stands. */
struct row { unsigned id, kind; struct list marked, running, ended; struct queue queue; };

static bool take_row(struct reader *r, struct row *row, bool ticketed)
{
    return take_word(r, "instance=") && take_number(r, &row->id) && take_byte(r, ',') && take_number(r, &row->kind)
        && take_byte(r, ',') && take_list(r, &row->marked) && take_byte(r, ',') && take_list(r, &row->running)
        && take_byte(r, ',') && take_list(r, &row->ended) && take_byte(r, ',') && take_queue(r, &row->queue, ticketed)
        && (!ticketed || (take_byte(r, ',') && take_last(r, &row->queue))) && end_line(r);
}

/* "3 for a number outside its type or the depth"; "tickets 0 to 255" */
static bool row_fits(const struct row *row, const struct tables *tables)
{
    if (row->id >= INSTANCES || row->kind >= tables->count) return false;
    const struct type *type = &tables->type[row->kind];
    if (tables->ticketed && (row->queue.past_tickets > TICKETS || row->queue.past_last > TICKETS)) return false;
    return row->marked.past <= type->places && row->running.past <= type->transitions && row->ended.past <= type->transitions
        && row->queue.past <= type->behaviors && row->queue.count <= effective_depth(tables);
}

/* "held transitions all in the head behavior (none if the queue is empty) and none both running and ended" */
static bool tokens_permitted(const struct row *row, const struct type *type)
{
    uint32_t head = row->queue.count == 0 ? 0 : type->behavior[row->queue.member[0]];
    return (row->running.set & row->ended.set) == 0 && ((row->running.set | row->ended.set) & ~head) == 0;
}

/* "the tail's if a queue stands, so starting queues obey the rise" */
static bool tickets_permitted(const struct queue *queue)
{
    return queue->count == 0 || (queue->rises && queue->past_last == queue->past_tickets);
}

/* "a ticket at or below it not queued at the start counts as finished only if it is that last one" */
static void note_tickets(struct instance *instance, const struct queue *queue)
{
    memcpy(instance->ticket, queue->ticket, queue->count);
    for (unsigned k = 0; k < queue->count; k++) add_ticket(&instance->pushed, queue->ticket[k]);
    if (queue->past_last > 0) add_ticket(&instance->pushed, queue->past_last - 1);
}

/* The report has its instances by ascending id: `past` is one more than the last. */
static bool instance_line(struct reader *r, const struct tables *tables, struct configuration *c, unsigned *past)
{
    struct row row;
    if (!take_row(r, &row, tables->ticketed)) return at_fault(r, FORM);
    if (!row_fits(&row, tables)) return at_fault(r, LIMIT);
    if (row.id < *past || !tokens_permitted(&row, &tables->type[row.kind]) || (tables->ticketed && !tickets_permitted(&row.queue)))
        return at_fault(r, BREACH);
    struct instance *instance = &c->instance[row.id];
    *instance = (struct instance){ .present = 1, .kind = (uint8_t)row.kind, .queued = (uint8_t)row.queue.count,
                                   .marked = row.marked.set, .running = row.running.set, .ended = row.ended.set };
    memcpy(instance->queue, row.queue.member, row.queue.count);
    if (tables->ticketed) note_tickets(instance, &row.queue);
    *past = row.id + 1;
    return line_done(r);
}

/* Whether an id and its port are numbers of a line and, at an instance that is up, of its type. */
static bool end_fits(const struct tables *tables, const struct configuration *c, unsigned id, unsigned port)
{
    if (id >= INSTANCES || port >= PORTS) return false;
    return !c->instance[id].present || port < tables->type[c->instance[id].kind].ports;
}

static bool end_permitted(const struct tables *tables, const struct configuration *c, unsigned id, unsigned port, enum port_kind kind)
{
    return c->instance[id].present && has_port(&tables->type[c->instance[id].kind], port, kind);
}

/* "connections well formed", and "per connection by user then port": `past` is one more than the last. */
static bool connection_line(struct reader *r, const struct tables *tables, struct configuration *c, unsigned *past)
{
    unsigned n[4];
    if (!take_word(r, "connection=") || !take_numbers(r, 4, n) || !end_line(r)) return at_fault(r, FORM);
    if (!end_fits(tables, c, n[0], n[1]) || !end_fits(tables, c, n[2], n[3])) return at_fault(r, LIMIT);
    unsigned rank = n[0] * PORTS + n[1];
    if (rank < *past || n[0] == n[2] || !end_permitted(tables, c, n[0], n[1], USE)
        || !end_permitted(tables, c, n[2], n[3], PROVIDE)) return at_fault(r, BREACH);
    c->connection[c->count++] = (struct connection){ (uint8_t)n[0], (uint8_t)n[1], (uint8_t)n[2], (uint8_t)n[3] };
    *past = rank + 1;
    return line_done(r);
}

bool read_start(struct reader *r, const struct tables *tables, struct configuration *c)
{
    unsigned instances, connections, past_id = 0, past_port = 0;
    if (!due_line(r, "start=", 1) || !count_line(r, "instances=", 0, INSTANCES, &instances)) return false;
    for (unsigned k = 0; k < instances; k++)
        if (!instance_line(r, tables, c, &past_id)) return false;
    if (!count_line(r, "connections=", 0, CONNECTIONS, &connections)) return false;
    for (unsigned k = 0; k < connections; k++)
        if (!connection_line(r, tables, c, &past_port)) return false;
    return at_end(r);
}

static bool served(const struct tables *tables, const struct configuration *c, unsigned id, unsigned port)
{
    const struct connection *n = connection_of(c, id, port);
    if (n == NULL) return false;
    const struct instance *provider = &c->instance[n->provider];
    return port_active(&tables->type[provider->kind].port[n->provideport], provider);
}

bool all_served(const struct tables *tables, const struct configuration *c)
{
    for (unsigned id = 0; id < INSTANCES; id++) {
        const struct instance *instance = &c->instance[id];
        const struct type *type = &tables->type[instance->kind];
        for (unsigned port = 0; instance->present && port < type->ports; port++)
            if (type->port[port].use && port_active(&type->port[port], instance) && !served(tables, c, id, port)) return false;
    }
    return true;
}
