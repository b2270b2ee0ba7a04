/* The screen in the hall: a single step on lent tables, program and configuration. */
#ifndef HALL_H
#define HALL_H

#include "rules.h"

/* What is lent has no list of connections: it says who serves each use port, 0 for nobody, else 1 + 16 provider + provideport. */
struct lent_configuration { struct instance instance[INSTANCES]; uint16_t server[INSTANCES * PORTS]; uint32_t done; };

/* A configuration of the rules as it is lent. */
void lend_configuration(const struct configuration *configuration, struct lent_configuration *lent);

/* The number 7, or the step rules' refusal with the configuration as it was, or 0 with the configuration moved on. */
struct refusal hall(const struct tables *tables, const struct program *program, struct lent_configuration *lent,
                    const struct step *step);

#endif
