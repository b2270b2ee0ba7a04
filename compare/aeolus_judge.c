/* The Aeolus paper's texts, its report, and the judge over them. */
#include "aeolus.h"

#include "ink.h"
#include "reader.h"

/* The longest report has 1,811 bytes. */
enum { LONGEST_PLAN_REPORT = 4096 };

/* ---- the sheet ---- */

static bool take_sides(struct reader *r, uint8_t *sides)
{
    if (take_word(r, "interface=provide,")) *sides = PROVIDES;
    else if (take_word(r, "interface=require,")) *sides = REQUIRES;
    else if (take_word(r, "interface=both,")) *sides = PROVIDES | REQUIRES;
    else return false;
    return true;
}

static bool interface_line(struct reader *r, struct resource_type *t, unsigned k)
{
    unsigned name;
    struct interface *i = &t->interface[k];
    if (!take_sides(r, &i->sides) || !take_number(r, &name) || !end_line(r)) return at_fault(r, FORM);
    if (name > GREATEST_NAME) return at_fault(r, LIMIT);
    if (k > 0 && name <= t->interface[k - 1].name) return at_fault(r, BREACH);
    i->name = (uint8_t)name;
    return line_done(r);
}

static bool to_line(struct reader *r, const struct resource_type *t, struct state *s)
{
    struct list list;
    if (!take_word(r, "to=") || !take_list(r, &list) || !end_line(r)) return at_fault(r, FORM);
    if (list.past > t->states) return at_fault(r, LIMIT);
    s->to = list.set;
    return line_done(r);
}

static bool take_row_kind(struct reader *r, uint8_t *kind)
{
    if (take_word(r, "provide=")) *kind = PROVISION;
    else if (take_word(r, "weak=")) *kind = WEAK;
    else if (take_word(r, "strong=")) *kind = STRONG;
    else return false;
    return true;
}

static bool listed(const struct state *s, const struct row *row)
{
    for (unsigned k = 0; k < s->rows; k++)
        if (s->row[k].kind == row->kind && s->row[k].name == row->name) return true;
    return false;
}

/* The clauses of 4 on a port's row of state q. */
static bool row_breaks(const struct resource_type *t, unsigned q, const struct row *row)
{
    return !has_interface(t, row->name, row->kind == PROVISION ? PROVIDES : REQUIRES) || listed(&t->state[q], row)
        || (row->kind == STRONG && q == t->initial);
}

static bool row_line(struct reader *r, struct resource_type *t, unsigned q)
{
    unsigned n[2];
    struct row row;
    if (!take_row_kind(r, &row.kind) || !take_numbers(r, 2, n) || !end_line(r)) return at_fault(r, FORM);
    if (n[0] > GREATEST_NAME || n[1] > GREATEST_NUMBER) return at_fault(r, LIMIT);
    row.name = (uint8_t)n[0];
    row.number = (uint8_t)n[1];
    if (row_breaks(t, q, &row)) return at_fault(r, BREACH);
    t->state[q].row[t->state[q].rows++] = row;
    return line_done(r);
}

static bool read_state(struct reader *r, struct resource_type *t, unsigned q)
{
    unsigned rows;
    t->state[q].rows = 0;
    if (!due_line(r, "state=", q) || !to_line(r, t, &t->state[q]) || !count_line(r, "active=", 0, MOST_ROWS, &rows)) return false;
    for (unsigned k = 0; k < rows; k++)
        if (!row_line(r, t, q)) return false;
    return true;
}

static bool read_interfaces(struct reader *r, struct resource_type *t)
{
    if (!count_line(r, "interfaces=", 0, MOST_INTERFACES, &t->interfaces)) return false;
    for (unsigned k = 0; k < t->interfaces; k++)
        if (!interface_line(r, t, k)) return false;
    return true;
}

static bool read_resource(struct reader *r, struct resource_type *t, unsigned due)
{
    if (!due_line(r, "type=", due) || !count_line(r, "states=", 1, MOST_STATES, &t->states)
        || !count_line(r, "initial=", 0, t->states - 1, &t->initial) || !read_interfaces(r, t)) return false;
    for (unsigned q = 0; q < t->states; q++)
        if (!read_state(r, t, q)) return false;
    return true;
}

static bool read_universe(struct reader *r, struct universe *u)
{
    if (!due_line(r, "aeolus=", 1) || !count_line(r, "types=", 1, MOST_TYPES, &u->types)) return false;
    for (unsigned k = 0; k < u->types; k++)
        if (!read_resource(r, &u->type[k], k)) return false;
    return at_end(r);
}

/* ---- the answer ---- */

static const struct form action_forms[ACTION_VERBS] = {
    [NEW] = { "new,", 2, { 31, 0 } },
    [DELETE] = { "del,", 1, { 31 } },
    [CHANGE] = { "change,", 3, { 31, 15, 15 } },
    [BIND] = { "bind,", 3, { GREATEST_NAME, 31, 31 } },
    [UNBIND] = { "unbind,", 3, { GREATEST_NAME, 31, 31 } },
};

static bool action_line(struct reader *r, unsigned types, struct action *a)
{
    unsigned verb, n[3] = { 0, 0, 0 };
    if (!take_word(r, "step=") || !take_verb(r, action_forms, ACTION_VERBS, &verb)
        || !take_numbers(r, action_forms[verb].count, n) || !end_line(r)) return at_fault(r, FORM);
    if (verb == NEW ? n[0] >= MOST_COMPONENTS || n[1] >= types : !within(&action_forms[verb], n)) return at_fault(r, LIMIT);
    if ((verb == BIND || verb == UNBIND) && n[1] == n[2]) return at_fault(r, BREACH);
    *a = (struct action){ (uint8_t)verb, { (uint8_t)n[0], (uint8_t)n[1], (uint8_t)n[2] } };
    return line_done(r);
}

static bool read_plan(struct reader *r, unsigned types, struct action *actions, unsigned *count)
{
    if (!due_line(r, "plan=", 1) || !count_line(r, "steps=", 0, MOST_ACTIONS, count)) return false;
    for (unsigned k = 0; k < *count; k++)
        if (!action_line(r, types, &actions[k])) return false;
    return at_end(r);
}

/* ---- the report ---- */

static uint8_t *ink_three(uint8_t *at, const char *key, unsigned a, unsigned b, unsigned c)
{
    at = ink_byte(ink_number(ink_word(at, key), a), ',');
    return ink_byte(ink_number(ink_byte(ink_number(at, b), ','), c), '\n');
}

static uint8_t *ink_components(uint8_t *at, const struct deployment *d)
{
    unsigned count = 0;
    for (unsigned z = 0; z < MOST_COMPONENTS; z++) count += d->component[z].deployed;
    at = ink_line(at, "components=", count);
    for (unsigned z = 0; z < MOST_COMPONENTS; z++)
        if (d->component[z].deployed) at = ink_three(at, "component=", z, d->component[z].type, d->component[z].state);
    return at;
}

static unsigned rank(const struct binding *b) { return (b->interface * 32u + b->requirer) * 32u + b->provider; }

/* "per binding by interface, then requirer, then provider": the next one above the last. */
static uint8_t *ink_bindings(uint8_t *at, const struct deployment *d)
{
    unsigned past = 0;
    at = ink_line(at, "bindings=", d->bindings);
    for (unsigned k = 0; k < d->bindings; k++) {
        const struct binding *least = NULL;
        for (unsigned l = 0; l < d->bindings; l++)
            if (rank(&d->binding[l]) >= past && (least == NULL || rank(&d->binding[l]) < rank(least))) least = &d->binding[l];
        at = ink_three(at, "binding=", least->interface, least->requirer, least->provider);
        past = rank(least) + 1;
    }
    return at;
}

static size_t write_plan_report(uint8_t *bytes, unsigned accepted, unsigned refused, const struct deployment *d)
{
    uint8_t *at = ink_line(ink_line(bytes, "accepted=", accepted), "refused=", refused);
    return (size_t)(ink_bindings(ink_components(at, d), d) - bytes);
}

/* ---- the whole ---- */

/* The actions up to the first that is refused; "the weak ones are judged once, after the last action". */
static struct result run_plan(const struct universe *u, struct deployment *d, const struct action *actions, unsigned count)
{
    struct result ran = { .refused = 0 };
    while (ran.accepted < count && ran.refused == 0) {
        ran.refused = take_action(u, d, &actions[ran.accepted]);
        if (ran.refused == 0) ran.accepted++;
    }
    if (ran.refused == 0 && !weak_demands_met(u, d)) ran.refused = 70;
    return ran;
}

void judge_plan(const struct texts *texts, uint8_t *report, size_t room, struct result *result)
{
    static struct universe u;
    static struct action actions[MOST_ACTIONS];
    uint8_t bytes[LONGEST_PLAN_REPORT];
    unsigned count = 0;
    struct deployment d = { .bindings = 0 };
    struct reader of_sheet = reader_of(texts->sheet), of_answer = reader_of(texts->answer);

    if (texts->sheet.length > LONGEST_TEXT) { *result = after_whole(TOO_LONG, SHEET); return; }
    if (texts->answer.length > LONGEST_TEXT) { *result = after_whole(TOO_LONG, ANSWER); return; }
    if (!read_universe(&of_sheet, &u)) { *result = after_fault(&of_sheet, SHEET); return; }
    if (!read_plan(&of_answer, u.types, actions, &count)) { *result = after_fault(&of_answer, ANSWER); return; }
    struct result ran = run_plan(&u, &d, actions, count);
    ran.place = ran.accepted < count ? step_place(texts->answer, ran.accepted) : (struct place){ ANSWER, texts->answer.length, 0 };
    ran.length = write_plan_report(bytes, ran.accepted, ran.refused, &d);
    *result = in_room(ran, bytes, report, room);
}
