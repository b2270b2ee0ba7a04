/* The lines of an answer, written. */
#ifndef LINES_H
#define LINES_H

#include "ink.h"
#include "rules.h"

/* The verb's numbers, each after a comma, and the line's end. */
static inline uint8_t *ink_numbers(uint8_t *at, const uint8_t *numbers, unsigned count)
{
    for (unsigned k = 0; k < count; k++) at = ink_number(ink_byte(at, ','), numbers[k]);
    return ink_byte(at, '\n');
}

static inline uint8_t *ink_step(uint8_t *at, const struct step *step)
{
    static const char *const words[STEP_VERBS] = { "next", "fire", "end", "enter", "finish" };
    static const unsigned counts[STEP_VERBS] = { 0, 2, 2, 2, 1 };
    const uint8_t numbers[] = { step->id, step->number };
    return ink_numbers(ink_word(ink_word(at, "step="), words[step->verb]), numbers, counts[step->verb]);
}

static inline uint8_t *ink_answer(uint8_t *at, const struct step *steps, unsigned count)
{
    at = ink_line(ink_line(at, "answer=", 1), "steps=", count);
    for (unsigned k = 0; k < count; k++) at = ink_step(at, &steps[k]);
    return at;
}

#endif
