/* Lawful tables at random, of every size. */
#include <string.h>

#include "generate.h"

enum richness { SMALL, MEDIUM, WIDE, LIMIT, RICHNESSES };

static unsigned draw_size(struct random *r, unsigned least, unsigned most, enum richness richness)
{
    unsigned span = most - least;
    switch (richness) {
    case SMALL: return least + pick(r, (span < 4 ? span : 4) + 1);
    case MEDIUM: return least + pick(r, span / 2 + 1);
    case WIDE: return least + pick(r, span + 1);
    default: return chance(r, 70) ? most : least + pick(r, span + 1);
    }
}

static void add_transition(struct type *type, unsigned source, unsigned destination)
{
    if (type->transitions == TRANSITIONS || source == destination) return;
    type->source[type->transitions] = (uint8_t)source;
    type->destination[type->transitions++] = (uint8_t)destination;
}

static void add_behavior(struct type *type, uint32_t transitions)
{
    if (type->behaviors < BEHAVIORS) type->behavior[type->behaviors++] = transitions;
}

/* A ring of places, with behaviors that walk it in two parts: up from the initial place, and down to it again. Where it is
   crowded, tokens start in several places and one behavior goes all round, so that they meet. */
static void draw_ring(struct random *r, struct type *type, bool crowded)
{
    unsigned turn = crowded ? type->places : pick_from(r, 1, type->places);
    type->initial = bit(0) | (crowded ? pick_set(r, type->places, 40) : 0);
    for (unsigned p = 0; p < type->places; p++) add_transition(type, p, (p + 1) % type->places);
    uint32_t up = below(turn) & below(type->transitions);
    add_behavior(type, up);
    add_behavior(type, below(type->transitions) & ~up);
}

/* Places in layers: all forward transitions are one behavior, those from the last places back to the first another. */
static void draw_layers(struct random *r, struct type *type)
{
    uint32_t left = 0, back = 0;
    type->initial = bit(0);
    for (unsigned p = 1; p < type->places; p++) {
        unsigned from = pick(r, p);
        left |= bit(from);
        add_transition(type, from, p);
        if (p > 1 && chance(r, 40)) add_transition(type, pick(r, p), p);
    }
    for (unsigned t = 0; t < type->transitions; t++) left |= bit(type->source[t]);
    add_behavior(type, below(type->transitions));
    for (unsigned p = 1; p < type->places; p++)
        if ((left & bit(p)) == 0 && type->transitions < TRANSITIONS) {
            back |= bit(type->transitions);
            add_transition(type, p, 0);
        }
    add_behavior(type, back);
}

static void draw_loose(struct random *r, struct type *type)
{
    type->initial = pick_set(r, type->places, chance(r, 50) ? 20 : 60);
    if (type->initial == 0) type->initial = bit(pick(r, type->places));
}

/* Whatever the style gave is filled up at random to the counts drawn. */
static void fill_type(struct random *r, struct type *type, enum richness richness)
{
    unsigned transitions = draw_size(r, 0, TRANSITIONS, richness), behaviors = draw_size(r, 0, BEHAVIORS, richness);
    unsigned dense = pick_from(r, 10, 90);
    while (type->places > 1 && type->transitions < transitions) {
        unsigned source = pick(r, type->places);
        add_transition(type, source, pick(r, type->places));
    }
    while (type->behaviors < behaviors) add_behavior(type, pick_set(r, type->transitions, dense));
}

/* The transitions that lead to one of some places, so that a group is entered by its own transitions. */
static uint32_t leading_to(const struct type *type, uint32_t places)
{
    uint32_t leading = 0;
    for (unsigned t = 0; t < type->transitions; t++)
        if ((places & bit(type->destination[t])) != 0) leading |= bit(t);
    return leading;
}

static struct port draw_port(struct random *r, const struct type *type)
{
    static const unsigned densities[] = { 0, 10, 30, 60, 100 };
    struct port port = { (uint8_t)chance(r, 50), 0, 0 };
    port.places = chance(r, 40) ? bit(pick(r, type->places)) : pick_set(r, type->places, densities[pick(r, 5)]);
    if (port.use || chance(r, 40)) port.places &= ~type->initial;
    port.transitions = chance(r, 40) ? leading_to(type, port.places) : pick_set(r, type->transitions, densities[pick(r, 4)]);
    return port;
}

/* The same group once more, so that ports of one instance turn active and inactive together. */
static struct port twin_port(struct random *r, const struct type *type, const struct port *other)
{
    struct port port = *other;
    port.use = (uint8_t)chance(r, 50);
    if (port.use) port.places &= ~type->initial;
    return port;
}

/* The aims that need ports, a start's connections among them; 65 connections are to be had only with many. */
enum { OF_A_START = 50 };

static unsigned fewest_ports(unsigned aim)
{
    if (aim == 16) return 10;
    if (aim == OF_A_START) return 3;
    return (aim >= 13 && aim <= 18) || aim == 22 || (aim >= 34 && aim <= 36) || aim == 38 ? 2 : 0;
}

static void draw_ports(struct random *r, struct type *type, unsigned count)
{
    for (type->ports = 0; type->ports < count; type->ports++) {
        struct port *port = &type->port[type->ports];
        *port = type->ports > 0 && chance(r, 30) ? twin_port(r, type, &port[-1]) : draw_port(r, type);
    }
}

static void draw_type(struct random *r, struct type *type, enum richness richness, unsigned aim)
{
    unsigned style = pick(r, 100);
    type->places = (uint8_t)draw_size(r, 1, PLACES, richness);
    if (style < 40) draw_ring(r, type, chance(r, aim == 33 ? 80 : 10));
    else if (style < 75) draw_layers(r, type);
    else draw_loose(r, type);
    fill_type(r, type, richness);
    draw_ports(r, type, draw_size(r, fewest_ports(aim), PORTS, richness));
}

void draw_great_type(struct random *r, struct type *type)
{
    memset(type, 0, sizeof *type);
    draw_type(r, type, LIMIT, 16);
    for (unsigned p = 0; p < type->ports; p++) {
        struct port *port = &type->port[p];
        port->places = pick_set(r, type->places, 90) & ~(port->use ? type->initial : 0);
        port->transitions = pick_set(r, type->transitions, 90);
    }
}

void draw_little_type(struct random *r, struct type *type)
{
    memset(type, 0, sizeof *type);
    draw_type(r, type, MEDIUM, 0);
}

void draw_tables(struct paper *paper)
{
    static const unsigned weights[RICHNESSES] = { 58, 30, 9, 3 };
    struct random *r = &paper->random;
    enum richness richness = (enum richness)pick_weighted(r, weights, RICHNESSES);
    bool wired = paper->started && chance(r, 50);
    memset(&paper->tables, 0, sizeof paper->tables);
    paper->tables.depth = (uint8_t)pick(r, DEPTH + 1);
    paper->tables.count = (uint8_t)(richness == MEDIUM ? pick_from(r, 1, 4) : draw_size(r, 1, TYPES, richness));
    for (unsigned k = 0; k < paper->tables.count; k++) {
        enum richness own = richness > SMALL && chance(r, 60) ? richness - 1 : richness;
        draw_type(r, &paper->tables.type[k], own, paper->full ? 16 : wired ? OF_A_START : paper->aim);
    }
}
