/* A configuration as text: the report's lines from `instances=` on, written and, in a start, read. */
#ifndef STATE_H
#define STATE_H

#include "reader.h"
#include "rules.h"

/* C-21: "The queue .. in reports shows `behavior:ticket`" where the sheet has tickets. */
uint8_t *ink_state(uint8_t *at, const struct configuration *configuration, bool ticketed);

/* Reads a start into an empty configuration; whether all of its lines are good and permitted by the tables. */
bool read_start(struct reader *reader, const struct tables *tables, struct configuration *configuration);

/* C-20: whether "each active use port" is "connected to an active provide port". */
bool all_served(const struct tables *tables, const struct configuration *configuration);

#endif
