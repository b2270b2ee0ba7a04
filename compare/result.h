/* What a judge answers: a verdict, the place of the line at fault, and the length of a report. */
#ifndef RESULT_H
#define RESULT_H

#include <stdbool.h>
#include <stddef.h>
#include <stdint.h>

enum { LONGEST_TEXT = 32768, LONGEST_START = 8192, PROGRAM_ROOM = 8192 };
enum text { NO_TEXT, SHEET, START, ANSWER };

/* A part of one of the texts. */
struct place { enum text text; size_t start, length; };

/* `line` is 0 unless refused is 2 to 5, `text` is NO_TEXT unless it is 1 to 5 or 50, `length` is 0 after 1 to 6 and 50. */
struct result {
    unsigned refused, accepted, next, line;
    enum text text;
    struct place place;
    size_t length;
};

/* The bytes of a text; `at` is null where there is no such text. */
struct bytes { const uint8_t *at; size_t length; };
struct texts { struct bytes sheet, start, answer; };

/* A judge: the texts and the room for a report, judged as the paper's document says. The Aeolus paper has no start. */
typedef void judging(const struct texts *texts, uint8_t *report, size_t room, struct result *result);

#endif
