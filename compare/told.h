/* What the programs say that read a sheet and a start and no answer, as bytes of standard output and of standard error. */
#ifndef TOLD_H
#define TOLD_H

#include "result.h"

/* An answer of 1,024 steps has fewer bytes. */
enum { LONGEST_TOLD = 20000 };
struct told { uint8_t out[LONGEST_TOLD], err[64]; size_t out_length, err_length; };

/* `texts` has no answer. */
typedef void telling(const struct texts *texts, struct told *told);

/* C-19: a program checked on names alone. */
telling foretell;

/* C-18: a model walk as an answer, and on standard error how it ends. */
telling walk;

#endif
