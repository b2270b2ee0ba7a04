/* Actions of the Aeolus paper: each one's own condition, then the configuration that it leads to, looked at whole. */
#include "aeolus.h"

static const struct state *state_of(const struct universe *u, const struct deployment *d, unsigned z)
{
    return &u->type[d->component[z].type].state[d->component[z].state];
}

bool has_interface(const struct resource_type *t, unsigned name, enum side side)
{
    for (unsigned k = 0; k < t->interfaces; k++)
        if (t->interface[k].name == name && (t->interface[k].sides & side) != 0) return true;
    return false;
}

/* The interface is active in the component, as a row of that kind. */
static bool active(const struct universe *u, const struct deployment *d, unsigned z, enum port_row kind, unsigned name)
{
    const struct state *s = state_of(u, d, z);
    if (!d->component[z].deployed) return false;
    for (unsigned k = 0; k < s->rows; k++)
        if (s->row[k].kind == kind && s->row[k].name == name) return true;
    return false;
}

/* ---- bindings ---- */

/* Where the binding stands in the list; the list's length where it does not. */
static unsigned find_binding(const struct deployment *d, struct binding b)
{
    unsigned k = 0;
    while (k < d->bindings && (d->binding[k].interface != b.interface || d->binding[k].requirer != b.requirer
                               || d->binding[k].provider != b.provider)) k++;
    return k;
}

static void take_out(struct deployment *d, unsigned k) { d->binding[k] = d->binding[--d->bindings]; }

static void forget(struct deployment *d, unsigned z)
{
    for (unsigned k = d->bindings; k-- > 0;)
        if (d->binding[k].requirer == z || d->binding[k].provider == z) take_out(d, k);
}

/* ---- what makes a configuration correct ---- */

/* "at most n components other than z are bound to it for that interface and have the interface active, weakly or strongly" */
static bool provision_met(const struct universe *u, const struct deployment *d, unsigned z, const struct row *row)
{
    unsigned users = 0;
    for (unsigned k = 0; k < d->bindings; k++) {
        const struct binding *b = &d->binding[k];
        if (b->interface != row->name || b->provider != z || b->requirer == z) continue;
        users += active(u, d, b->requirer, WEAK, row->name) || active(u, d, b->requirer, STRONG, row->name);
    }
    return users <= row->number;
}

/* "A demand of number 0 is a conflict: it is met when no component other than z has that interface as an active provision." */
static bool no_conflict(const struct universe *u, const struct deployment *d, unsigned z, const struct row *row)
{
    for (unsigned y = 0; y < MOST_COMPONENTS; y++)
        if (y != z && active(u, d, y, PROVISION, row->name)) return false;
    return true;
}

/* "at least n distinct components other than z in which the interface is an active provision"; bindings are a set. */
static bool demand_met(const struct universe *u, const struct deployment *d, unsigned z, const struct row *row)
{
    unsigned servers = 0;
    if (row->number == 0) return no_conflict(u, d, z, row);
    for (unsigned k = 0; k < d->bindings; k++) {
        const struct binding *b = &d->binding[k];
        if (b->interface != row->name || b->requirer != z || b->provider == z) continue;
        servers += active(u, d, b->provider, PROVISION, row->name);
    }
    return servers >= row->number;
}

/* Every row of that kind of every component is met. */
static bool all_met(const struct universe *u, const struct deployment *d, enum port_row kind)
{
    for (unsigned z = 0; z < MOST_COMPONENTS; z++) {
        if (!d->component[z].deployed) continue;
        const struct state *s = state_of(u, d, z);
        for (unsigned k = 0; k < s->rows; k++) {
            const struct row *row = &s->row[k];
            if (row->kind != kind) continue;
            if (!(kind == PROVISION ? provision_met : demand_met)(u, d, z, row)) return false;
        }
    }
    return true;
}

bool weak_demands_met(const struct universe *u, const struct deployment *d) { return all_met(u, d, WEAK); }

/* ---- the actions ---- */

static unsigned take_new(const struct universe *u, struct deployment *d, const uint8_t *n)
{
    if (d->component[n[0]].deployed) return 61;
    d->component[n[0]] = (struct component){ true, n[1], (uint8_t)u->type[n[1]].initial };
    return 0;
}

static unsigned take_delete(struct deployment *d, const uint8_t *n)
{
    if (!d->component[n[0]].deployed) return 60;
    d->component[n[0]].deployed = false;
    forget(d, n[0]);
    return 0;
}

static unsigned take_change(const struct universe *u, struct deployment *d, const uint8_t *n)
{
    struct component *z = &d->component[n[0]];
    if (!z->deployed) return 60;
    if (z->state != n[1]) return 62;
    if ((u->type[z->type].state[n[1]].to >> n[2] & 1) == 0) return 63;
    z->state = n[2];
    return 0;
}

static unsigned take_bind(const struct universe *u, struct deployment *d, const uint8_t *n)
{
    const struct component *z = &d->component[n[1]], *y = &d->component[n[2]];
    struct binding b = { n[0], n[1], n[2] };
    if (!z->deployed || !y->deployed) return 60;
    if (!has_interface(&u->type[z->type], n[0], REQUIRES) || !has_interface(&u->type[y->type], n[0], PROVIDES)) return 64;
    if (find_binding(d, b) < d->bindings) return 65;
    if (d->bindings == MOST_BINDINGS) return 67;
    d->binding[d->bindings++] = b;
    return 0;
}

static unsigned take_unbind(struct deployment *d, const uint8_t *n)
{
    unsigned k = find_binding(d, (struct binding){ n[0], n[1], n[2] });
    if (k == d->bindings) return 66;
    take_out(d, k);
    return 0;
}

static unsigned own_condition(const struct universe *u, struct deployment *d, const struct action *a)
{
    switch (a->verb) {
    case NEW: return take_new(u, d, a->number);
    case DELETE: return take_delete(d, a->number);
    case CHANGE: return take_change(u, d, a->number);
    case BIND: return take_bind(u, d, a->number);
    default: return take_unbind(d, a->number);
    }
}

unsigned take_action(const struct universe *u, struct deployment *d, const struct action *a)
{
    struct deployment reached = *d;
    unsigned refused = own_condition(u, &reached, a);
    if (refused == 0 && !all_met(u, &reached, PROVISION)) refused = 68;
    if (refused == 0 && !all_met(u, &reached, STRONG)) refused = 69;
    if (refused == 0) *d = reached;
    return refused;
}
