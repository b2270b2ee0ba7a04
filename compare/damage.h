/* Texts made faulty on purpose, near the limits of what the reader takes. */
#ifndef DAMAGE_H
#define DAMAGE_H

#include "generate.h"

/* The start of a line, and numbers at its limits or just past them. */
struct edge { const char *key; unsigned count; unsigned numbers[6]; };
struct edges { const struct edge *row; unsigned count; };

/* Those of the first paper's sheet and answer. */
extern const struct edges sheet_edges;

void damage_form(struct random *r, struct draft *text);
void damage_number(struct random *r, struct draft *text, const struct edges *edges);
void damage_end(struct random *r, struct draft *text);
void damage_length(struct random *r, struct draft *text, size_t longest);

/* A ticket too many or too few in an instruction, or another number in the first line of a sheet; then a ticket at its limit or past it. */
void damage_ticket(struct random *r, struct draft *text);
void damage_ticket_number(struct random *r, struct draft *text);

/* Breaks a type's `initial`, `tran` or use port so that its line gets 4; false where the type has none. */
bool damage_tables(struct random *r, struct tables *tables);

#endif
