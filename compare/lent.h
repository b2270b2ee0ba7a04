/* What is lent to the hall's screen, as the bytes of the program that tries it: little-endian, one after the other. */
#ifndef LENT_H
#define LENT_H

#include "hall.h"

enum { TABLES_BYTES = 3970, PROGRAM_BYTES = 1284, CONFIGURATION_BYTES = 1764, STEP_BYTES = 3,
       CONFIGURATION_START = TABLES_BYTES + PROGRAM_BYTES, LENT_BYTES = CONFIGURATION_START + CONFIGURATION_BYTES + STEP_BYTES };

struct lent { struct tables tables; struct program program; struct lent_configuration configuration; struct step step; };

void lent_to_bytes(const struct lent *lent, uint8_t *bytes);
void lent_of_bytes(const uint8_t *bytes, struct lent *lent);

/* Writes the number and the port of a step, ` N PORT` with `-` for none; answers the place after. */
uint8_t *ink_refusal(uint8_t *at, struct refusal refusal);

/* Writes the answer ` OFFSET=VALUE ..` for each byte of the configuration that differs; answers the place after. */
uint8_t *ink_changes(uint8_t *at, const uint8_t *before, const uint8_t *after);

#endif
