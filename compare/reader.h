/* Reading a text line by line, "The two texts" of the rules' document: items, the lines that all texts have, faults and places. */
#ifndef READER_H
#define READER_H

#include <string.h>

#include "result.h"

enum { TOO_LONG = 1, FORM = 2, LIMIT = 3, BREACH = 4, LEFT_OVER = 5, NO_ROOM = 6, UNSERVED = 50 };

/* A text on the way: `line` is where the line being read starts, `at` the cursor in it. */
struct reader { const uint8_t *start, *line, *at, *end; unsigned lines; unsigned fault; };

static inline struct reader reader_of(struct bytes text)
{
    return (struct reader){ text.at, text.at, text.at, text.at + text.length, 0, 0 };
}

/* ---- items: each answers whether the form is kept ---- */

static inline bool take_word(struct reader *r, const char *word)
{
    size_t length = strlen(word);
    if ((size_t)(r->end - r->at) < length || memcmp(r->at, word, length) != 0) return false;
    r->at += length;
    return true;
}

static inline bool take_byte(struct reader *r, char byte)
{
    if (r->at == r->end || *r->at != (uint8_t)byte) return false;
    r->at++;
    return true;
}

static inline bool at_digit(const struct reader *r)
{
    return r->at != r->end && *r->at >= '0' && *r->at <= '9';
}

/* "Numbers are decimal, one to five digits, no leading zero." */
static inline bool take_number(struct reader *r, unsigned *number)
{
    const uint8_t *first = r->at;
    unsigned value = 0;
    while (at_digit(r) && r->at - first < 5) value = value * 10 + (unsigned)(*r->at++ - '0');
    *number = value;
    return r->at != first && !(*first == '0' && r->at - first > 1);
}

/* A set and the least count that its members lie below. */
struct list { uint32_t set; unsigned past; };

/* "A list is numbers joined by `+`, strictly ascending; `-` is the empty list." */
static inline bool take_list(struct reader *r, struct list *list)
{
    *list = (struct list){ 0, 0 };
    if (take_byte(r, '-')) return true;
    do {
        unsigned member;
        if (!take_number(r, &member) || member < list->past) return false;
        if (member < 32) list->set |= (uint32_t)1 << member;
        list->past = member + 1;
    } while (take_byte(r, '+'));
    return true;
}

static inline bool take_numbers(struct reader *r, unsigned count, unsigned *numbers)
{
    for (unsigned k = 0; k < count; k++)
        if ((k > 0 && !take_byte(r, ',')) || !take_number(r, &numbers[k])) return false;
    return true;
}

/* ---- lines: "In one line 2 comes before 3 before 4"; each answers whether the line is good ---- */

static inline bool at_fault(struct reader *r, unsigned fault)
{
    r->fault = fault;
    return false;
}

static inline bool line_done(struct reader *r)
{
    r->line = r->at;
    r->lines++;
    return true;
}

static inline bool end_line(struct reader *r)
{
    return take_byte(r, '\n');
}

/* `sheet=1`, `start=1`, `answer=1` and `type=`: another number than the one due is a form fault. */
static inline bool due_line(struct reader *r, const char *key, unsigned due)
{
    unsigned number;
    if (!take_word(r, key) || !take_number(r, &number) || !end_line(r) || number != due) return at_fault(r, FORM);
    return line_done(r);
}

static inline bool count_line(struct reader *r, const char *key, unsigned least, unsigned most, unsigned *count)
{
    if (!take_word(r, key) || !take_number(r, count) || !end_line(r)) return at_fault(r, FORM);
    if (*count < least || *count > most) return at_fault(r, LIMIT);
    return line_done(r);
}

/* A verb's word, how many numbers follow it and how great each may be; a type's limit is the sheet's own. */
struct form { const char *word; unsigned count; unsigned most[4]; };

static inline bool take_verb(struct reader *r, const struct form *forms, unsigned verbs, unsigned *verb)
{
    for (*verb = 0; *verb < verbs; ++*verb)
        if (take_word(r, forms[*verb].word)) return true;
    return false;
}

static inline bool within(const struct form *form, const unsigned *numbers)
{
    for (unsigned k = 0; k < form->count; k++)
        if (numbers[k] > form->most[k]) return false;
    return true;
}

/* "bytes after the last line due" */
static inline bool at_end(struct reader *r)
{
    return r->at == r->end ? true : at_fault(r, LEFT_OVER);
}

/* ---- results and places ---- */

static inline size_t to_line_end(const uint8_t *line, const uint8_t *end)
{
    const uint8_t *found = line == end ? NULL : memchr(line, '\n', (size_t)(end - line));
    return (size_t)((found == NULL ? end : found) - line);
}

/* "for 2 to 5, the line at fault, up to its LF or the text's end, empty at the end when the text ended early" */
static inline struct result after_fault(const struct reader *r, enum text text)
{
    struct place place = { text, (size_t)(r->line - r->start), to_line_end(r->line, r->end) };
    return (struct result){ r->fault, 0, 0, r->lines + 1, text, place, 0 };
}

/* "for 1, the empty start of that text"; C-20's 50 is "answered as 1 is". */
static inline struct result after_whole(unsigned number, enum text text)
{
    return (struct result){ number, 0, 0, 0, text, { text, 0, 0 }, 0 };
}

/* "for a step, its line": the steps' lines come after two others. */
static inline struct place step_place(struct bytes answer, unsigned step)
{
    size_t start = 0;
    for (unsigned k = 0; k < step + 2; k++) start += to_line_end(answer.at + start, answer.at + answer.length) + 1;
    return (struct place){ ANSWER, start, to_line_end(answer.at + start, answer.at + answer.length) };
}

/* "a report that doesn't fit gives 6 in place of the steps' number", and leaves the buffer as it was */
static inline struct result in_room(struct result walked, const uint8_t *bytes, uint8_t *report, size_t room)
{
    if (walked.length > room) return (struct result){ NO_ROOM, 0, 0, 0, NO_TEXT, { ANSWER, 0, 0 }, 0 };
    if (walked.length > 0) memcpy(report, bytes, walked.length);
    return walked;
}

#endif
