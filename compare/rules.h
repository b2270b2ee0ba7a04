/* The tables, the configuration and the step rules of the rules' document, "State and step rules". */
#ifndef RULES_H
#define RULES_H

#include <stdbool.h>
#include <stddef.h>
#include <stdint.h>

/* "The two texts": the greatest counts, and the depth that 0 stands for. */
enum {
    TYPES = 16, PLACES = 16, TRANSITIONS = 32, BEHAVIORS = 8, PORTS = 16, INSTRUCTIONS = 256, STEPS = 1024,
    INSTANCES = 32, CONNECTIONS = 64, DEPTH = 8, DEFAULT_DEPTH = 8, TICKETS = 256
};

enum instruction_verb { ADD, DEL, PUSHB, CON, DCON, WAIT, INSTRUCTION_VERBS };
enum step_verb { NEXT, FIRE, END, ENTER, FINISH, STEP_VERBS };
enum port_kind { PROVIDE, USE };

struct port { uint8_t use; uint32_t places, transitions; };

struct type {
    uint8_t places, transitions, behaviors, ports;
    uint32_t initial;
    uint8_t source[TRANSITIONS], destination[TRANSITIONS];
    uint32_t behavior[BEHAVIORS];
    struct port port[PORTS];
};

/* C-21: in a `sheet=2` "every push has a ticket, and a wait may have one"; the hall keeps to `sheet=1`. */
struct tables { uint8_t depth, count; bool ticketed; struct type type[TYPES]; };

/* `number` is the type of add, the behavior of pushb, the use port of con and dcon; `id` is their user. `ticketed` says whether
   the line has a ticket. */
struct instruction { uint8_t verb, id, number, provider, provideport; bool ticketed; uint8_t ticket; };
struct program { uint32_t count; struct instruction line[INSTRUCTIONS]; };

/* A set of tickets. */
struct tickets { uint32_t word[TICKETS / 32]; };

/* `ticket` stands beside the queue, and `pushed` are all tickets since the `add`, or known of the start; both only with tickets. */
struct instance {
    uint8_t present, kind, queued;
    uint32_t marked, running, ended;
    uint8_t queue[DEPTH], ticket[DEPTH];
    struct tickets pushed;
};
struct connection { uint8_t user, useport, provider, provideport; };

struct configuration {
    struct instance instance[INSTANCES];
    struct connection connection[CONNECTIONS];
    uint8_t count;
    uint32_t done;
};

struct step { uint8_t verb, id, number; };

static inline uint32_t bit(unsigned member) { return (uint32_t)1 << member; }

/* The set of the numbers below `count`, which may be 32. */
static inline uint32_t below(unsigned count) { return count >= 32 ? UINT32_MAX : bit(count) - 1; }

static inline void add_ticket(struct tickets *set, unsigned ticket) { set->word[ticket / 32] |= bit(ticket % 32); }
static inline bool has_ticket(const struct tickets *set, unsigned ticket) { return (set->word[ticket / 32] & bit(ticket % 32)) != 0; }

/* One more than the greatest of them, 0 where there is none: the last ticket pushed, as tickets rise. */
static inline unsigned past_tickets(const struct tickets *set)
{
    unsigned past = TICKETS;
    while (past > 0 && !has_ticket(set, past - 1)) past--;
    return past;
}

/* "depth=D (1 to 8, the queue depth; 0 stands for the default", "From the spring sitting 0 stands for 8" */
unsigned effective_depth(const struct tables *tables);

bool port_active(const struct port *port, const struct instance *instance);

/* Whether a push with that ticket is in the queue. */
bool ticket_queued(const struct instance *instance, unsigned ticket);

/* The connection of a use port, or null: "the use port not yet connected". */
const struct connection *connection_of(const struct configuration *configuration, unsigned user, unsigned useport);

/* Whether a type has a port of that number and kind. */
bool has_port(const struct type *type, unsigned port, enum port_kind kind);

/* A number, or 0, and at 34 and 38 "the use port concerned, the lowest one that fails", else NO_PORT. */
enum { NO_PORT = PORTS };
struct refusal { unsigned number, port; };

/* The number that refuses an instruction or a step, or 0; nothing changes. */
unsigned instruction_number(const struct tables *tables, const struct configuration *configuration,
                            const struct instruction *instruction);
unsigned step_number(const struct tables *tables, const struct program *program,
                     const struct configuration *configuration, const struct step *step);

/* Takes one step: the configuration moves on, or stays as it is and the refusal is answered. */
struct refusal take_step(const struct tables *tables, const struct program *program, struct configuration *configuration,
                         const struct step *step);

#endif
