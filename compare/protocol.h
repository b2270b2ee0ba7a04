/* How a program that judges many papers says what it found: one line, then bytes. */
#ifndef PROTOCOL_H
#define PROTOCOL_H

#include <stdio.h>

#include "judge.h"
#include "told.h"

enum { LONGEST_CASE = 40000, GREATEST_ROOM = 16384, LONGEST_RESULT = 128 };

/* Writes the line `REFUSED ACCEPTED NEXT TEXT LINE WHICH START LEN REPORTLEN`; answers its length. */
static inline size_t result_line(char *line, const struct result *r)
{
    static const char *const names[] = { "-", "sheet", "start", "answer" };
    return (size_t)snprintf(line, LONGEST_RESULT, "%u %u %u %s %u %s %zu %zu %zu\n", r->refused, r->accepted, r->next,
                            names[r->text], r->line, names[r->place.text], r->place.start, r->place.length, r->length);
}

/* What is told where no answer is judged: the line `OUTLEN ERRLEN`, then the bytes of both. */
static inline size_t told_line(char *line, const struct told *told)
{
    return (size_t)snprintf(line, LONGEST_RESULT, "%zu %zu\n", told->out_length, told->err_length);
}

#endif
