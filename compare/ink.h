/* Items of the texts as bytes, written at a place and answering the place after: a word, a number, a list. */
#ifndef INK_H
#define INK_H

#include <stdint.h>
#include <string.h>

static inline uint8_t *ink_word(uint8_t *at, const char *word)
{
    size_t length = strlen(word);
    memcpy(at, word, length);
    return at + length;
}

static inline uint8_t *ink_byte(uint8_t *at, char byte)
{
    *at = (uint8_t)byte;
    return at + 1;
}

static inline uint8_t *ink_number(uint8_t *at, uint32_t number)
{
    uint8_t digits[10];
    unsigned count = 0;
    do digits[count++] = (uint8_t)('0' + number % 10);
    while ((number /= 10) != 0);
    while (count > 0) *at++ = digits[--count];
    return at;
}

/* "A list is numbers joined by `+`, strictly ascending; `-` is the empty list." */
static inline uint8_t *ink_list(uint8_t *at, uint32_t set)
{
    if (set == 0) return ink_byte(at, '-');
    for (unsigned member = 0; set != 0; member++, set >>= 1) {
        if ((set & 1) == 0) continue;
        at = ink_number(at, member);
        if (set != 1) at = ink_byte(at, '+');
    }
    return at;
}

/* A line `key=number`. */
static inline uint8_t *ink_line(uint8_t *at, const char *key, uint32_t number)
{
    return ink_byte(ink_number(ink_word(at, key), number), '\n');
}

#endif
