/* The judge of the first paper. */
#ifndef JUDGE_H
#define JUDGE_H

#include "result.h"
#include "rules.h"

judging judge;

/* What the texts say; without a start nothing is up. */
struct said { struct tables tables; struct program program; struct configuration configuration; struct step step[STEPS]; unsigned steps; };

/* Reads all but the answer's lines; whether that is good, and the result says why not. */
bool read_paper(const struct texts *texts, struct said *said, struct result *result);

/* The three lines "After 1 to 5". */
uint8_t *ink_fault(uint8_t *at, const struct result *result);

#endif
