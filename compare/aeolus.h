/* The Aeolus paper a second time: universe, configuration, actions and what makes a configuration correct. */
#ifndef AEOLUS_H
#define AEOLUS_H

#include "result.h"

enum {
    MOST_TYPES = 16, MOST_STATES = 16, MOST_INTERFACES = 16, MOST_ROWS = 48, MOST_COMPONENTS = 32, MOST_BINDINGS = 64, MOST_ACTIONS = 1024,
    GREATEST_NAME = 255, GREATEST_NUMBER = 64
};

enum side { PROVIDES = 1, REQUIRES = 2 };
enum port_row { PROVISION, WEAK, STRONG };
enum action_verb { NEW, DELETE, CHANGE, BIND, UNBIND, ACTION_VERBS };

/* The rows stand as the sheet has them. */
struct row { uint8_t kind, name, number; };
struct state { uint32_t to; unsigned rows; struct row row[MOST_ROWS]; };
struct interface { uint8_t sides, name; };

struct resource_type {
    unsigned states, initial, interfaces;
    struct interface interface[MOST_INTERFACES];
    struct state state[MOST_STATES];
};

struct universe { unsigned types; struct resource_type type[MOST_TYPES]; };

/* new: id, type. del: id. change: id, from, to. bind, unbind: interface, requirer, provider. */
struct action { uint8_t verb, number[3]; };

struct component { bool deployed; uint8_t type, state; };
struct binding { uint8_t interface, requirer, provider; };
struct deployment { struct component component[MOST_COMPONENTS]; unsigned bindings; struct binding binding[MOST_BINDINGS]; };

/* 0 and the action is carried out, or the number that it is refused with and nothing changes. */
unsigned take_action(const struct universe *u, struct deployment *d, const struct action *a);

/* Whether the weak demands are met. */
bool weak_demands_met(const struct universe *u, const struct deployment *d);

/* Whether the type has the interface on that side. */
bool has_interface(const struct resource_type *t, unsigned name, enum side side);

judging judge_plan;

#endif
