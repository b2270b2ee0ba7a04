/* Plans from a seed: a universe and a plan walked on it, aimed at a number, written out, damaged where the aim is a fault of the texts. */
#include "aeolus.h"
#include "damage.h"
#include "ink.h"
#include "protocol.h"

/* A universe, and the actions taken on it so far. */
struct plan {
    struct random random;
    struct universe universe;
    struct deployment deployment;
    struct action action[MOST_ACTIONS];
    unsigned actions;
    uint8_t name[MOST_INTERFACES];
    unsigned names;
    unsigned weak;                    /* percent of weak demands */
    bool tight;                       /* whether provisions are for few users */
};

/* ---- a universe ---- */

/* Names that ascend, shared by all types so that they fit together. */
static void draw_names(struct plan *p, unsigned most)
{
    unsigned next = chance(&p->random, 50) ? 0 : pick(&p->random, 200);
    p->names = pick_from(&p->random, 1, most);
    for (unsigned k = 0; k < p->names; k++) {
        p->name[k] = (uint8_t)next;
        next += pick_from(&p->random, 1, 3);
    }
    if (chance(&p->random, 5)) p->name[p->names - 1] = GREATEST_NAME;
}

static uint8_t draw_provision(struct random *r, bool tight)
{
    static const unsigned weights[][5] = { { 4, 30, 20, 10, 36 }, { 20, 70, 10, 0, 0 } };
    unsigned k = pick_weighted(r, weights[tight], 5);
    return (uint8_t)(k == 4 ? GREATEST_NUMBER : k);
}

static uint8_t draw_demand(struct random *r)
{
    static const unsigned weights[] = { 12, 70, 14, 4 };
    return (uint8_t)pick_weighted(r, weights, 4);
}

static void append_row(struct state *s, uint8_t kind, uint8_t name, uint8_t number)
{
    if (s->rows < MOST_ROWS) s->row[s->rows++] = (struct row){ kind, name, number };
}

static void shuffle_rows(struct random *r, struct state *s)
{
    for (unsigned k = s->rows; k > 1; k--) {
        unsigned other = pick(r, k);
        struct row row = s->row[other];
        s->row[other] = s->row[k - 1];
        s->row[k - 1] = row;
    }
}

static void draw_state(struct plan *p, struct resource_type *t, unsigned q)
{
    struct random *r = &p->random;
    struct state *s = &t->state[q];
    s->to = pick_set(r, t->states, 55);
    s->rows = 0;
    for (unsigned k = 0; k < t->interfaces; k++) {
        const struct interface *i = &t->interface[k];
        if ((i->sides & PROVIDES) != 0 && chance(r, 60)) append_row(s, PROVISION, i->name, draw_provision(r, p->tight));
        if ((i->sides & REQUIRES) != 0 && chance(r, p->weak)) append_row(s, WEAK, i->name, draw_demand(r));
        if ((i->sides & REQUIRES) != 0 && q != t->initial && chance(r, 30)) append_row(s, STRONG, i->name, draw_demand(r));
    }
    shuffle_rows(r, s);
}

static void draw_resource(struct plan *p, struct resource_type *t)
{
    struct random *r = &p->random;
    t->states = chance(r, 3) ? MOST_STATES : pick_from(r, 1, 4);
    t->initial = pick(r, t->states);
    t->interfaces = 0;
    for (unsigned k = 0; k < p->names; k++)
        if (chance(r, 70)) t->interface[t->interfaces++] = (struct interface){ (uint8_t)pick_from(r, 1, 3), p->name[k] };
    for (unsigned q = 0; q < t->states; q++) draw_state(p, t, q);
}

static void draw_universe(struct plan *p)
{
    struct random *r = &p->random;
    draw_names(p, chance(r, 5) ? MOST_INTERFACES : 4);
    p->universe.types = chance(r, 3) ? MOST_TYPES : pick_from(r, 1, 4);
    for (unsigned k = 0; k < p->universe.types; k++) draw_resource(p, &p->universe.type[k]);
}

/* One type that requires and one that provides, where no demand is active: only the count of bindings ends the binding. */
static void draw_wide_universe(struct plan *p)
{
    struct resource_type *t = p->universe.type;
    draw_names(p, 2);
    p->universe.types = 2;
    for (unsigned k = 0; k < 2; k++) {
        t[k] = (struct resource_type){ .states = 1, .interfaces = p->names };
        for (unsigned i = 0; i < p->names; i++) t[k].interface[i] = (struct interface){ k == 0 ? REQUIRES : PROVIDES, p->name[i] };
        if (k == 1) append_row(&t[k].state[0], PROVISION, p->name[0], draw_provision(&p->random, false));
    }
}

/* ---- actions ---- */

/* A component that is deployed, or with some noise any. */
static uint8_t draw_component(struct plan *p, unsigned noise)
{
    struct random *r = &p->random;
    unsigned first = pick(r, MOST_COMPONENTS);
    if (chance(r, noise)) return (uint8_t)first;
    for (unsigned k = 0; k < MOST_COMPONENTS; k++) {
        unsigned z = (first + k) % MOST_COMPONENTS;
        if (p->deployment.component[z].deployed) return (uint8_t)z;
    }
    return (uint8_t)first;
}

static uint8_t draw_name(struct plan *p) { return chance(&p->random, 95) ? p->name[pick(&p->random, p->names)] : (uint8_t)pick(&p->random, 256); }

static void draw_ends(struct plan *p, uint8_t *n, unsigned noise)
{
    n[0] = draw_name(p);
    do {
        n[1] = draw_component(p, noise);
        n[2] = draw_component(p, noise + 3);
    } while (n[1] == n[2]);
}

static void draw_unbound(struct plan *p, uint8_t *n, unsigned noise)
{
    const struct deployment *d = &p->deployment;
    const struct binding *b = &d->binding[pick(&p->random, d->bindings)];
    draw_ends(p, n, noise);
    if (d->bindings == 0 || chance(&p->random, noise)) return;
    n[0] = b->interface;
    n[1] = b->requirer;
    n[2] = b->provider;
}

static void draw_change(struct plan *p, uint8_t *n, unsigned noise)
{
    struct random *r = &p->random;
    n[0] = draw_component(p, noise);
    const struct component *z = &p->deployment.component[n[0]];
    unsigned states = p->universe.type[z->type].states;
    n[1] = chance(r, noise) ? (uint8_t)pick(r, states + 1) % MOST_STATES : z->state;
    n[2] = (uint8_t)(chance(r, noise / 4) ? pick(r, MOST_STATES) : pick(r, states));
}

/* An action within the limits of its line, lawful or not at its turn. */
static struct action draw_action(struct plan *p, unsigned noise)
{
    static const unsigned weights[ACTION_VERBS] = { [NEW] = 20, [DELETE] = 6, [CHANGE] = 36, [BIND] = 30, [UNBIND] = 8 };
    struct random *r = &p->random;
    struct action a = { (uint8_t)pick_weighted(r, weights, ACTION_VERBS), { 0, 0, 0 } };
    switch (a.verb) {
    case NEW:
        a.number[0] = (uint8_t)pick(r, chance(r, 80) ? 8 : MOST_COMPONENTS);
        a.number[1] = (uint8_t)pick(r, p->universe.types);
        break;
    case DELETE: a.number[0] = draw_component(p, noise); break;
    case CHANGE: draw_change(p, a.number, noise); break;
    case BIND: draw_ends(p, a.number, noise); break;
    default: draw_unbound(p, a.number, noise); break;
    }
    return a;
}

/* Takes an action that gets that number, of some tries; 0 carries it out. */
static bool draw_number_of(struct plan *p, unsigned number, unsigned tries, unsigned noise)
{
    while (tries-- > 0 && p->actions < MOST_ACTIONS) {
        struct action a = draw_action(p, noise);
        struct deployment d = p->deployment;
        if (take_action(&p->universe, &d, &a) != number) continue;
        p->deployment = d;
        p->action[p->actions++] = a;
        return true;
    }
    return false;
}

static bool take(struct plan *p, struct action a)
{
    if (p->actions == MOST_ACTIONS || take_action(&p->universe, &p->deployment, &a) != 0) return false;
    p->action[p->actions++] = a;
    return true;
}

/* As many bindings as can stand, between so many of the first type and so many of the second. */
static void bind_all(struct plan *p)
{
    unsigned users = pick_from(&p->random, 8, 12), servers = pick_from(&p->random, 6, 9);
    for (unsigned z = 0; z < users + servers; z++) take(p, (struct action){ NEW, { (uint8_t)z, z >= users, 0 } });
    for (unsigned k = 0; k < users * servers; k++)
        take(p, (struct action){ BIND, { p->name[0], (uint8_t)(k / servers), (uint8_t)(users + k % servers) } });
}

/* Components whose weak demands are not met go, where the rules let them. */
static void settle_weak(struct plan *p)
{
    for (unsigned z = 0; z < MOST_COMPONENTS && !weak_demands_met(&p->universe, &p->deployment); z++)
        if (p->deployment.component[z].deployed) take(p, (struct action){ DELETE, { (uint8_t)z, 0, 0 } });
}

static void walk_plan(struct plan *p, unsigned aim)
{
    struct random *r = &p->random;
    p->actions = 0;
    p->deployment = (struct deployment){ .bindings = 0 };
    p->weak = aim == 70 || aim == 68 ? 40 : 15;
    p->tight = aim == 68;
    if (aim == 67) draw_wide_universe(p);
    else draw_universe(p);
    if (aim == 67) bind_all(p);
    else
        for (unsigned steps = chance(r, 3) ? 1000 : pick_from(r, 0, 60); steps > 0; steps--) draw_number_of(p, 0, 20, 5);
    if (aim >= 60 && aim < 70) {
        for (unsigned tries = 0; tries < 8 && !draw_number_of(p, aim, 300, 25); tries++) draw_number_of(p, 0, 20, 5);
        for (unsigned more = pick(r, 3); more > 0 && p->actions < MOST_ACTIONS; more--) p->action[p->actions++] = draw_action(p, 25);
    } else if (aim != 70) settle_weak(p);
}

/* ---- the two texts ---- */

static uint8_t *ink_row(uint8_t *at, const struct row *row)
{
    static const char *const words[] = { "provide=", "weak=", "strong=" };
    at = ink_byte(ink_number(ink_word(at, words[row->kind]), row->name), ',');
    return ink_byte(ink_number(at, row->number), '\n');
}

static uint8_t *ink_resource(uint8_t *at, const struct resource_type *t, unsigned number)
{
    static const char *const words[] = { "", "interface=provide,", "interface=require,", "interface=both," };
    at = ink_line(ink_line(ink_line(at, "type=", number), "states=", t->states), "initial=", t->initial);
    at = ink_line(at, "interfaces=", t->interfaces);
    for (unsigned k = 0; k < t->interfaces; k++) at = ink_line(at, words[t->interface[k].sides], t->interface[k].name);
    for (unsigned q = 0; q < t->states; q++) {
        at = ink_byte(ink_list(ink_word(ink_line(at, "state=", q), "to="), t->state[q].to), '\n');
        at = ink_line(at, "active=", t->state[q].rows);
        for (unsigned k = 0; k < t->state[q].rows; k++) at = ink_row(at, &t->state[q].row[k]);
    }
    return at;
}

static uint8_t *ink_action(uint8_t *at, const struct action *a)
{
    static const char *const words[ACTION_VERBS] = { "new", "del", "change", "bind", "unbind" };
    static const unsigned counts[ACTION_VERBS] = { 2, 1, 3, 3, 3 };
    at = ink_word(ink_word(at, "step="), words[a->verb]);
    for (unsigned k = 0; k < counts[a->verb]; k++) at = ink_number(ink_byte(at, ','), a->number[k]);
    return ink_byte(at, '\n');
}

static void write_plan(const struct plan *p, struct pair *pair)
{
    uint8_t *at = ink_line(ink_line(pair->sheet.bytes, "aeolus=", 1), "types=", p->universe.types);
    for (unsigned k = 0; k < p->universe.types; k++) at = ink_resource(at, &p->universe.type[k], k);
    pair->sheet.length = (size_t)(at - pair->sheet.bytes);
    at = ink_line(ink_line(pair->answer.bytes, "plan=", 1), "steps=", p->actions);
    for (unsigned k = 0; k < p->actions; k++) at = ink_action(at, &p->action[k]);
    pair->answer.length = (size_t)(at - pair->answer.bytes);
}

/* ---- lines that break a clause: 4 ---- */

static void break_interfaces(struct random *r, struct resource_type *t)
{
    if (t->interfaces < 2) return;
    unsigned k = pick_from(r, 1, t->interfaces - 1);
    t->interface[k].name = t->interface[pick(r, k)].name;
}

static void break_rows(struct plan *p, struct resource_type *t)
{
    struct random *r = &p->random;
    struct state *s = &t->state[pick(r, t->states)];
    uint8_t kind = (uint8_t)pick(r, 3);
    if (s->rows > 0 && chance(r, 40)) append_row(s, s->row[0].kind, s->row[0].name, draw_demand(r));
    else if (chance(r, 50)) append_row(s, kind, draw_name(p), draw_demand(r));
    else append_row(&t->state[t->initial], STRONG, draw_name(p), draw_demand(r));
}

static void break_plan(struct plan *p)
{
    struct random *r = &p->random;
    struct resource_type *t = &p->universe.type[pick(r, p->universe.types)];
    uint8_t z = draw_component(p, 10);
    if (chance(r, 30)) break_interfaces(r, t);
    else if (chance(r, 70)) break_rows(p, t);
    else if (p->actions < MOST_ACTIONS)
        p->action[p->actions++] = (struct action){ chance(r, 50) ? BIND : UNBIND, { draw_name(p), z, z } };
}

/* ---- pairs ---- */

static const struct edge rows[] = {
    { "types=", 4, { 0, 1, 16, 17 } }, { "type=", 3, { 0, 1, 16 } }, { "states=", 4, { 0, 1, 16, 17 } },
    { "initial=", 5, { 0, 1, 2, 15, 16 } }, { "interfaces=", 3, { 0, 16, 17 } }, { "interface=", 5, { 0, 1, 2, 255, 256 } },
    { "state=", 3, { 0, 1, 16 } }, { "to=", 5, { 0, 1, 2, 15, 16 } }, { "active=", 4, { 0, 1, 48, 49 } },
    { "provide=", 5, { 0, 1, 64, 65, 256 } }, { "weak=", 5, { 0, 1, 64, 65, 256 } }, { "strong=", 5, { 0, 1, 64, 65, 256 } },
    { "steps=", 4, { 0, 1, 1024, 1025 } }, { "step=new", 6, { 0, 1, 2, 16, 31, 32 } }, { "step=del", 3, { 0, 31, 32 } },
    { "step=change", 5, { 0, 15, 16, 31, 32 } }, { "step=bind", 5, { 0, 31, 32, 255, 256 } },
    { "step=unbind", 5, { 0, 31, 32, 255, 256 } }, { "aeolus=", 2, { 0, 2 } }, { "plan=", 2, { 0, 2 } },
};
static const struct edges plan_edges = { rows, sizeof rows / sizeof rows[0] };

/* How often each number is aimed at. */
static const unsigned aims[71] = {
    [0] = 60, [1] = 15, [2] = 60, [3] = 90, [4] = 40, [5] = 25, [6] = 25,
    [60] = 25, [61] = 25, [62] = 25, [63] = 25, [64] = 25, [65] = 25, [66] = 25, [67] = 15, [68] = 60, [69] = 40, [70] = 40,
};

static void damage_plan(struct plan *p, struct pair *pair, unsigned number)
{
    struct random *r = &p->random;
    struct draft *text = chance(r, 60) ? &pair->sheet : &pair->answer;
    if (number == 1) damage_length(r, text, LONGEST_TEXT);
    if (number == 2) damage_form(r, text);
    if (number == 3) damage_number(r, text, &plan_edges);
    if (number == 5) damage_end(r, text);
    if (number >= 1 && number <= 5 && chance(r, 5)) damage_form(r, chance(r, 50) ? &pair->sheet : &pair->answer);
}

void generate_plan(uint64_t seed, uint64_t index, struct pair *pair)
{
    static struct plan plan;
    plan.random = random_of(seed, index);
    unsigned aim = pick_weighted(&plan.random, aims, 71), other = pick_weighted(&plan.random, aims, 71);
    walk_plan(&plan, aim == 6 ? other : aim);
    if (aim == 4) break_plan(&plan);
    write_plan(&plan, pair);
    damage_plan(&plan, pair, aim);
    pair->started = false;
    cut_to_case(&pair->sheet);
    cut_to_case(&pair->answer);
    pair->room = draw_room(&plan.random, pair, aim == 6, judge_plan);
}
