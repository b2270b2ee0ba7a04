/* C-20: the text of a start, as the state is or with a breach of a line; its rows take any numbers. */
#include <string.h>

#include "damage.h"
#include "ink.h"

/* C-21: with tickets `last` is the last one pushed, NO_TICKET for `-`. A row may have its tickets or its last one where the sheet has none,
   or lack them. */
enum { NO_TICKET = 100000 };
struct row {
    unsigned id, kind;
    uint32_t marked, running, ended;
    unsigned queued, queue[DEPTH + 1], ticket[DEPTH + 1], last;
    bool other_queue, other_last;
};
struct rows { bool ticketed; unsigned instances, connections; struct row instance[INSTANCES + 1]; unsigned connection[CONNECTIONS + 1][4]; };

static struct row row_of(unsigned id, const struct instance *i)
{
    unsigned past = past_tickets(&i->pushed);
    struct row row = { .id = id, .kind = i->kind, .marked = i->marked, .running = i->running, .ended = i->ended, .queued = i->queued,
                       .last = past == 0 ? NO_TICKET : past - 1 };
    for (unsigned k = 0; k < i->queued; k++) row.queue[k] = i->queue[k], row.ticket[k] = i->ticket[k];
    return row;
}

/* "by ascending id", "by user then port" */
static void rows_of(const struct configuration *c, struct rows *rows)
{
    rows->instances = rows->connections = 0;
    for (unsigned id = 0; id < INSTANCES; id++)
        if (c->instance[id].present) rows->instance[rows->instances++] = row_of(id, &c->instance[id]);
    for (unsigned k = 0; k < INSTANCES * PORTS; k++) {
        const struct connection *n = connection_of(c, k / PORTS, k % PORTS);
        const unsigned ends[4] = { k / PORTS, k % PORTS, n == NULL ? 0 : n->provider, n == NULL ? 0 : n->provideport };
        if (n != NULL) memcpy(rows->connection[rows->connections++], ends, sizeof ends);
    }
}

static uint8_t *ink_row(uint8_t *at, const struct row *row, bool ticketed)
{
    at = ink_byte(ink_number(ink_word(at, "instance="), row->id), ',');
    at = ink_byte(ink_number(at, row->kind), ',');
    at = ink_byte(ink_list(at, row->marked), ',');
    at = ink_byte(ink_list(at, row->running), ',');
    at = ink_byte(ink_list(at, row->ended), ',');
    for (unsigned k = 0; k < row->queued; k++) {
        at = ink_number(k == 0 ? at : ink_byte(at, '+'), row->queue[k]);
        if (ticketed != row->other_queue) at = ink_number(ink_byte(at, ':'), row->ticket[k]);
    }
    if (row->queued == 0) at = ink_byte(at, '-');
    if (ticketed != row->other_last) at = row->last == NO_TICKET ? ink_word(at, ",-") : ink_number(ink_byte(at, ','), row->last);
    return ink_byte(at, '\n');
}

static void write_rows(const struct rows *rows, struct draft *text)
{
    uint8_t *at = ink_line(ink_line(text->bytes, "start=", 1), "instances=", rows->instances);
    for (unsigned k = 0; k < rows->instances; k++) at = ink_row(at, &rows->instance[k], rows->ticketed);
    at = ink_line(at, "connections=", rows->connections);
    for (unsigned k = 0; k < rows->connections; k++) {
        at = ink_word(at, "connection=");
        for (unsigned end = 0; end < 4; end++) at = ink_byte(ink_number(at, rows->connection[k][end]), end < 3 ? ',' : '\n');
    }
    text->length = (size_t)(at - text->bytes);
}

/* ---- numbers outside the type or the depth: 3 ---- */

/* The queue filled up to the depth, or one past it. */
static void fill_queue(struct paper *paper, struct row *row, const struct type *type)
{
    unsigned count = effective_depth(&paper->tables) + chance(&paper->random, 60);
    while (type->behaviors > 0 && row->queued < count) {
        row->ticket[row->queued] = row->queued == 0 ? pick(&paper->random, 200) : row->ticket[row->queued - 1] + 1;
        row->last = row->ticket[row->queued];
        row->queue[row->queued++] = pick(&paper->random, type->behaviors);
    }
}

/* A ticket or the last one at 255 or past it; a tail and its last together. */
static void overreach_ticket(struct random *r, struct row *row)
{
    static const unsigned edges[] = { 255, 256, 256, 256, 257, 99999 };
    unsigned ticket = edges[pick(r, 6)], at = chance(r, 70) ? row->queued - 1 : pick(r, row->queued);
    bool both = chance(r, 40);
    if (row->queued > 0 && (both || chance(r, 50))) row->ticket[at] = ticket;
    if (row->queued == 0 || both || chance(r, 50)) row->last = ticket;
}

/* The first number past those of the type, or one after it, in a set of 32. */
static uint32_t past(struct random *r, unsigned count)
{
    unsigned number = count + (chance(r, 70) ? 0 : pick(r, 4));
    return number < 32 ? bit(number) : 0;
}

static void overreach_instance(struct paper *paper, struct rows *rows)
{
    struct random *r = &paper->random;
    struct row *row = &rows->instance[pick(r, rows->instances)];
    if (rows->instances == 0) return;
    const struct type *type = &paper->tables.type[row->kind];
    switch (pick(r, 9)) {
    case 0: row->kind = paper->tables.count; break;
    case 1: row->marked |= past(r, type->places); break;
    case 2: row->running |= past(r, type->transitions); break;
    case 3: row->ended |= past(r, type->transitions); break;
    case 4: if (row->queued > 0) row->queue[pick(r, row->queued)] = type->behaviors + pick(r, 2); break;
    case 5: row->id = 31 + chance(r, 70); break;
    default: fill_queue(paper, row, type); break;
    }
}

static unsigned ports_at(const struct paper *paper, unsigned id)
{
    const struct instance *i = &paper->start.instance[id % INSTANCES];
    return i->present ? paper->tables.type[i->kind].ports : PORTS;
}

/* A port of a present end past its type's, also beside an absent end; or past 15; or an id past 31. */
static void overreach_connection(struct paper *paper, struct rows *rows)
{
    struct random *r = &paper->random;
    unsigned *ends = rows->connection[pick(r, rows->connections)], side = chance(r, 50) ? 0 : 2;
    if (rows->connections == 0) return;
    if (chance(r, 20)) ends[2 - side] = pick(r, INSTANCES);
    switch (pick(r, 4)) {
    case 0: ends[side] = 31 + chance(r, 70); break;
    case 1: ends[side] = pick(r, INSTANCES); ends[side + 1] = 15 + pick(r, 2); break;
    default: ends[side + 1] = ports_at(paper, ends[side]) - chance(r, 20); break;
    }
}

/* A 33rd instance or a 65th connection, after all that there are or in their midst. */
static void one_more(struct random *r, struct rows *rows)
{
    unsigned from = pick(r, rows->instances);
    if (chance(r, 50) && rows->connections > 0 && rows->connections <= CONNECTIONS) {
        from = pick(r, rows->connections);
        memcpy(rows->connection[rows->connections++], rows->connection[from], sizeof rows->connection[0]);
    } else if (rows->instances > 0 && rows->instances <= INSTANCES) {
        rows->instance[rows->instances++] = rows->instance[from];
    }
}

static void overreach(struct paper *paper, struct rows *rows)
{
    struct random *r = &paper->random;
    bool at_limit = rows->instances == INSTANCES || rows->connections == CONNECTIONS;
    if (rows->ticketed && rows->instances > 0 && chance(r, 40)) overreach_ticket(r, &rows->instance[pick(r, rows->instances)]);
    else if (chance(r, at_limit ? 50 : 5)) one_more(r, rows);
    else if (rows->connections > 0 && chance(r, 40)) overreach_connection(paper, rows);
    else overreach_instance(paper, rows);
}

/* ---- any other breach on a line: 4 ---- */

/* Tickets that don't rise, a last one that isn't the tail's, none beside a queue; or any last one without a queue, which is no breach. */
static void breach_tickets(struct random *r, struct row *row)
{
    unsigned at = pick(r, row->queued), tail = row->queued == 0 ? 0 : row->ticket[row->queued - 1];
    switch (row->queued < 2 ? 2 + pick(r, 3) : pick(r, 5)) {
    case 0: row->ticket[at] = row->ticket[at > 0 ? at - 1 : 1]; break;
    case 1: row->ticket[at] = pick(r, TICKETS); if (chance(r, 50)) row->last = row->ticket[row->queued - 1]; break;
    case 2: row->last = NO_TICKET; break;
    case 3: row->last = chance(r, 50) ? tail + 1 : tail - (tail > 0); break;
    default: row->last = pick(r, TICKETS); break;
    }
}

/* A held transition that is both, one outside the head behavior, or one without a queue. */
static void breach_instance(struct paper *paper, struct rows *rows)
{
    struct random *r = &paper->random;
    struct row *row = &rows->instance[pick(r, rows->instances)];
    if (rows->instances == 0) return;
    const struct type *type = &paper->tables.type[row->kind];
    uint32_t any = type->transitions == 0 ? 0 : bit(pick(r, type->transitions));
    switch (pick(r, 5)) {
    case 0: row->running |= any; row->ended |= chance(r, 80) ? any : 0; break;
    case 4: row->ended |= row->running; row->running |= row->ended; break;
    case 1: row->queued = 0; row->running |= any; break;
    case 2: row->ended |= any; row->running &= ~any; break;
    default: if (row->queued > 0) row->queue[0] = pick(r, type->behaviors); row->running |= any; break;
    }
}

/* An absent end, a port of the other kind, one instance at both ends; half of the time in the last line, where the order
   allows any later port. */
static void breach_connection(struct paper *paper, struct rows *rows)
{
    struct random *r = &paper->random;
    unsigned last = rows->connections - 1, side = chance(r, 50) ? 0 : 2;
    if (rows->connections == 0) return;
    unsigned *ends = rows->connection[chance(r, 50) ? last : pick(r, last)];
    switch (pick(r, 4)) {
    case 0: ends[side] = pick(r, INSTANCES); break;
    case 1: ends[side + 1] = pick(r, ports_at(paper, ends[side])); break;
    case 2: ends[2] = ends[0]; ends[3] = pick(r, ports_at(paper, ends[0])); break;
    default: ends[0] = ends[2]; ends[1] = pick(r, ports_at(paper, ends[2])); break;
    }
}

/* Two lines of one kind exchanged, or one of them twice, the second time right after the first or elsewhere. */
static void disorder(struct random *r, struct rows *rows)
{
    bool twice = chance(r, 40), of_connections = rows->connections > 1 && chance(r, 50);
    unsigned count = of_connections ? rows->connections : rows->instances, ends[4];
    if (count < 2) return;
    unsigned a = pick(r, count - 1), b = chance(r, 50) ? a + 1 : pick(r, count);
    if (of_connections) {
        memcpy(ends, rows->connection[a], sizeof ends);
        if (!twice) memcpy(rows->connection[a], rows->connection[b], sizeof ends);
        memcpy(rows->connection[b], ends, sizeof ends);
    } else {
        struct row row = rows->instance[a];
        if (!twice) rows->instance[a] = rows->instance[b];
        rows->instance[b] = row;
    }
}

static void breach(struct paper *paper, struct rows *rows)
{
    struct random *r = &paper->random;
    if (rows->ticketed && rows->instances > 0 && chance(r, 40)) breach_tickets(r, &rows->instance[pick(r, rows->instances)]);
    else if (chance(r, 30)) disorder(r, rows);
    else if (rows->connections > 0 && chance(r, 50)) breach_connection(paper, rows);
    else breach_instance(paper, rows);
}

/* ---- tickets where the sheet has none, or none where it has: 2 ---- */

/* In all rows or in one, there in its queue, in its last field or in both. */
static void other_tickets(struct random *r, struct rows *rows)
{
    unsigned which = pick_from(r, 1, 3), only = pick(r, rows->instances);
    bool all = chance(r, 20);
    for (unsigned k = 0; k < rows->instances; k++)
        if (all || k == only) rows->instance[k].other_queue = (which & 1) != 0, rows->instance[k].other_last = (which & 2) != 0;
}

/* ---- the whole ---- */

static const struct edge edge_rows[] = {
    { "start=", 2, { 0, 2 } }, { "instances=", 4, { 0, 31, 32, 33 } }, { "instance=", 6, { 0, 1, 8, 16, 31, 32 } },
    { "instance=", 6, { 31, 32, 33, 255, 256, 99999 } }, { "connections=", 3, { 0, 64, 65 } }, { "connection=", 6, { 0, 1, 15, 16, 31, 32 } },
};
static const struct edges start_edges = { edge_rows, sizeof edge_rows / sizeof edge_rows[0] };

void write_start(struct paper *paper, struct draft *text, unsigned aim)
{
    struct random *r = &paper->random;
    static struct rows rows;
    if (aim == 50 || (aim == 5 && chance(r, 20))) unserve_start(paper);
    rows_of(&paper->start, &rows);
    rows.ticketed = paper->tables.ticketed;
    bool otherwise = aim == 2 && chance(r, 40);
    if (otherwise) other_tickets(r, &rows);
    if (aim == 3 && chance(r, 60)) overreach(paper, &rows);
    if (aim == 4 || (aim == 3 && chance(r, 10))) breach(paper, &rows);
    if (aim == 4 && chance(r, 15)) overreach(paper, &rows);
    write_rows(&rows, text);
    if (aim == 2 && chance(r, 8)) text->length = 0;
    else if (aim == 2 && !otherwise) damage_form(r, text);
    if (aim == 3 && chance(r, 50)) damage_number(r, text, &start_edges);
    if (aim == 5) damage_end(r, text);
    if (aim == 1) damage_length(r, text, LONGEST_START);
    if (aim != 0 && chance(r, 4)) damage_form(r, text);
}
