/* batch <CASES: judges papers, each a line `case SHEETLEN STARTLEN ANSWERLEN ROOM` (STARTLEN `-`: no start) and the bytes of its texts, or
   `plan SHEETLEN ANSWERLEN ROOM` of the Aeolus paper; `foretell SHEETLEN STARTLEN` goes through a program on names alone,
   `walk SHEETLEN STARTLEN` walks it. To measure speed:
   cc -std=c11 -O2 -static -o batch batch.c judge.c start.c state.c rules.c foretell.c walk.c aeolus_judge.c aeolus.c */
#include <string.h>

#include "aeolus.h"
#include "protocol.h"

/* One of `judge` and `tell` is null. */
struct header { size_t sheet, start, answer, room; bool started; judging *judge; telling *tell; };

/* A decimal number without leading zero, up to `most`, and the byte after it. */
static bool parse_number(const char **at, char after, size_t most, size_t *number)
{
    const char *first = *at;
    for (*number = 0; **at >= '0' && **at <= '9' && *number <= most; ++*at) *number = *number * 10 + (size_t)(**at - '0');
    bool form = *at != first && !(*first == '0' && *at - first > 1) && **at == after;
    ++*at;
    return form && *number <= most;
}

/* A start's length, or `-`; a plan's line has neither. */
static bool parse_start(const char **at, char after, struct header *h)
{
    h->start = 0;
    h->started = h->judge != judge_plan && **at != '-';
    if (h->judge == judge_plan) return true;
    if (h->started) return parse_number(at, after, LONGEST_CASE, &h->start);
    *at += 2;
    return (*at)[-1] == after;
}

/* A line's first word, and what it asks for. */
struct word { const char *word; judging *judge; telling *tell; };
static const struct word words[] = { { "case ", judge, NULL }, { "plan ", judge_plan, NULL }, { "foretell ", NULL, foretell },
                                     { "walk ", NULL, walk } };

static const char *parse_word(const char *line, struct header *h)
{
    for (unsigned k = 0; k < sizeof words / sizeof words[0]; k++) {
        size_t length = strlen(words[k].word);
        h->judge = words[k].judge;
        h->tell = words[k].tell;
        if (strncmp(line, words[k].word, length) == 0) return line + length;
    }
    return NULL;
}

static bool parse_header(const char *line, struct header *h)
{
    const char *at = parse_word(line, h);
    h->answer = h->room = 0;
    if (at == NULL || !parse_number(&at, ' ', LONGEST_CASE, &h->sheet) || !parse_start(&at, h->tell != NULL ? '\n' : ' ', h)) return false;
    return h->tell != NULL || (parse_number(&at, ' ', LONGEST_CASE, &h->answer) && parse_number(&at, '\n', GREATEST_ROOM, &h->room));
}

static void tell_case(const struct header *h, const struct texts *texts)
{
    static struct told told;
    char line[LONGEST_RESULT];
    h->tell(texts, &told);
    fwrite(line, 1, told_line(line, &told), stdout);
    fwrite(told.out, 1, told.out_length, stdout);
    fwrite(told.err, 1, told.err_length, stdout);
}

static void judge_case(const struct header *h, const struct texts *texts)
{
    static uint8_t report[GREATEST_ROOM];
    char line[LONGEST_RESULT];
    struct result result;
    h->judge(texts, report, h->room, &result);
    fwrite(line, 1, result_line(line, &result), stdout);
    fwrite(report, 1, result.length, stdout);
}

static bool read_bytes(uint8_t *bytes, size_t count) { return fread(bytes, 1, count, stdin) == count; }

int main(void)
{
    static uint8_t sheet[LONGEST_CASE], start[LONGEST_CASE], answer[LONGEST_CASE];
    char line[64];
    struct header h;
    while (fgets(line, sizeof line, stdin) != NULL) {
        if (!parse_header(line, &h) || !read_bytes(sheet, h.sheet) || !read_bytes(start, h.start) || !read_bytes(answer, h.answer)) {
            fputs("bad header\n", stdout);
            return 0;
        }
        struct texts texts = { { sheet, h.sheet }, { h.started ? start : NULL, h.start }, { answer, h.answer } };
        if (h.tell != NULL) tell_case(&h, &texts);
        else judge_case(&h, &texts);
    }
    return 0;
}
