/* compare pairs|plans|hall|foretell|walks COUNT FOLDER SEED.. [-- COMMAND..]: makes COUNT cases of each seed, has the command answer
   them through files in FOLDER, and compares every byte with the answers of the judge beside this file. Without a command the cases go
   to standard output. Ends with the shares of the numbers; status 1 after a difference or where a number is too rare. */
#define _POSIX_C_SOURCE 200809L

#include <fcntl.h>
#include <inttypes.h>
#include <stdlib.h>
#include <string.h>
#include <sys/wait.h>
#include <unistd.h>

#include "aeolus.h"
#include "generate.h"
#include "hall.h"
#include "ink.h"
#include "protocol.h"

enum { AT_ONCE = 2000, NUMBERS = 71, LONGEST_HALL_CASE = 64 + LENT_BYTES * 9, LONGEST_HALL_ANSWER = 64 + CONFIGURATION_BYTES * 9 };

struct stream { uint8_t *bytes; size_t length, size; };

/* The cases of one run of the command, what is expected of it, and where each case starts in both. */
struct cases { struct stream input, expected; size_t input_at[AT_ONCE + 1], expected_at[AT_ONCE + 1]; unsigned count; };

/* The number of a case, whether it has a start and whether the number is one of the start, whether its sheet has tickets, and how a
   walk ends. */
struct tally { unsigned number; bool started, of_start, ticketed; const char *ending; };

/* How a walk ends, as it is said on standard error. */
static const char *const endings[] = { "walk=done\n", "walk=cut\n", "walk=stuck\n" };
enum { ENDINGS = 3 };

/* Appends a case and its answer. */
typedef struct tally appender(uint64_t seed, uint64_t index, struct cases *cases);

struct job {
    appender *append;
    const char *folder;
    char **command;
    uint64_t count, seen[NUMBERS], total;
    uint64_t seen_of_start[NUMBERS], seen_of_both[NUMBERS], started, ticketed, both, ended[ENDINGS];
    const char *kind;
    bool texts;                       /* whether a case is texts */
    bool told;                        /* whether it has no answer */
};

static void fail(const char *what)
{
    perror(what);
    exit(2);
}

/* ---- streams ---- */

/* Room for so many bytes more at the end. */
static uint8_t *make_room(struct stream *s, size_t more)
{
    if (s->length + more > s->size) {
        s->size = (s->length + more) * 2;
        s->bytes = realloc(s->bytes, s->size);
        if (s->bytes == NULL) fail("memory");
    }
    return s->bytes + s->length;
}

static void append_bytes(struct stream *s, const void *bytes, size_t count)
{
    uint8_t *at = make_room(s, count);
    if (count > 0) memcpy(at, bytes, count);
    s->length += count;
}

static void write_file(const char *path, const uint8_t *bytes, size_t count)
{
    FILE *file = fopen(path, "wb");
    if (file == NULL || fwrite(bytes, 1, count, file) != count || fclose(file) != 0) fail(path);
}

static void read_file(const char *path, struct stream *s)
{
    FILE *file = fopen(path, "rb");
    if (file == NULL) fail(path);
    for (size_t got = 1; got > 0; s->length += got) got = fread(make_room(s, 65536), 1, 65536, file);
    fclose(file);
}

static const char *path_of(const struct job *job, const char *name)
{
    static char path[4096];
    snprintf(path, sizeof path, "%s/%s", job->folder, name);
    return path;
}

/* ---- the cases ---- */

static void append_draft(struct stream *s, const struct draft *text) { append_bytes(s, text->bytes, text->length); }

/* `START` is `STARTLEN `, `- ` where a case has no start, and nothing in a plan. */
static void append_input(struct stream *s, const struct pair *pair, const char *word, const char *start)
{
    char line[LONGEST_RESULT];
    int length = snprintf(line, sizeof line, "%s %zu %s%zu %zu\n", word, pair->sheet.length, start, pair->answer.length, pair->room);
    append_bytes(s, line, (size_t)length);
    append_draft(s, &pair->sheet);
    if (pair->started) append_draft(s, &pair->start);
    append_draft(s, &pair->answer);
}

static struct tally append_answer(struct stream *s, const struct pair *pair, judging *judge)
{
    static uint8_t report[GREATEST_ROOM];
    char line[LONGEST_RESULT];
    struct texts texts = texts_of(pair);
    struct result result;
    judge(&texts, report, pair->room, &result);
    append_bytes(s, line, result_line(line, &result));
    append_bytes(s, report, result.length);
    return (struct tally){ result.refused, pair->started, result.text == START, pair->ticketed, "" };
}

static struct tally append_pair(uint64_t seed, uint64_t index, struct cases *cases)
{
    static struct pair pair;
    char start[32] = "- ";
    generate_pair(seed, index, &pair);
    if (pair.started) snprintf(start, sizeof start, "%zu ", pair.start.length);
    append_input(&cases->input, &pair, "case", start);
    return append_answer(&cases->expected, &pair, judge);
}

/* The number after `refused=`, in the three lines of a fault or in those of a foretelling. */
static unsigned told_number(const char *lines)
{
    const char *found = strstr(lines, "refused=");
    return found == NULL ? 0 : (unsigned)strtoul(found + 8, NULL, 10);
}

/* A sheet and a start, and what is told of them. */
static struct tally append_told(struct cases *cases, const struct pair *pair, const char *word, telling *tell)
{
    static struct told told;
    char line[LONGEST_RESULT], start[32] = "-";
    struct texts texts = texts_of(pair);
    if (pair->started) snprintf(start, sizeof start, "%zu", pair->start.length);
    append_bytes(&cases->input, line, (size_t)snprintf(line, sizeof line, "%s %zu %s\n", word, pair->sheet.length, start));
    append_draft(&cases->input, &pair->sheet);
    if (pair->started) append_draft(&cases->input, &pair->start);
    memset(&told, 0, sizeof told);
    tell(&texts, &told);
    append_bytes(&cases->expected, line, told_line(line, &told));
    append_bytes(&cases->expected, told.out, told.out_length);
    append_bytes(&cases->expected, told.err, told.err_length);
    const char *lines = (const char *)(told.out_length > 0 ? told.out : told.err);
    bool of_start = strncmp(lines, "text=start", 10) == 0;
    return (struct tally){ told_number(lines), pair->started, of_start, pair->ticketed, (const char *)told.err };
}

static struct tally append_foretold(uint64_t seed, uint64_t index, struct cases *cases)
{
    static struct pair pair;
    generate_program(seed, index, &pair, 0);
    return append_told(cases, &pair, "foretell", foretell);
}

static struct tally append_walk(uint64_t seed, uint64_t index, struct cases *cases)
{
    static struct pair pair;
    generate_program(seed, index, &pair, 60);
    return append_told(cases, &pair, "walk", walk);
}

static struct tally append_plan(uint64_t seed, uint64_t index, struct cases *cases)
{
    static struct pair pair;
    generate_plan(seed, index, &pair);
    append_input(&cases->input, &pair, "plan", "");
    return append_answer(&cases->expected, &pair, judge_plan);
}

/* The name of a hall's case is its index. */
static void append_lent(struct stream *s, uint64_t index, const uint8_t *bytes)
{
    uint8_t *first = make_room(s, LONGEST_HALL_CASE), *at = ink_number(ink_byte(first, 'c'), (uint32_t)index);
    for (unsigned k = 0; k < LENT_BYTES; k++)
        if (bytes[k] != 0) at = ink_number(ink_byte(ink_number(ink_byte(at, ' '), k), '='), bytes[k]);
    s->length += (size_t)(ink_byte(at, '\n') - first);
}

static struct tally append_hall(uint64_t seed, uint64_t index, struct cases *cases)
{
    static struct lent lent;
    static uint8_t before[LENT_BYTES], after[LENT_BYTES];
    generate_lent(seed, index, &lent);
    lent_to_bytes(&lent, before);
    append_lent(&cases->input, index, before);
    struct refusal refusal = hall(&lent.tables, &lent.program, &lent.configuration, &lent.step);
    lent_to_bytes(&lent, after);
    uint8_t *first = make_room(&cases->expected, LONGEST_HALL_ANSWER), *at = ink_number(ink_byte(first, 'c'), (uint32_t)index);
    at = ink_changes(ink_refusal(at, refusal), before, after);
    cases->expected.length += (size_t)(ink_byte(at, '\n') - first);
    return (struct tally){ refusal.number, false, false, false, "" };
}

static void make_cases(struct job *job, uint64_t seed, uint64_t from, uint64_t count, struct cases *cases)
{
    cases->input.length = cases->expected.length = 0;
    cases->count = (unsigned)count;
    for (unsigned k = 0; k < count; k++) {
        cases->input_at[k] = cases->input.length;
        cases->expected_at[k] = cases->expected.length;
        struct tally tally = job->append(seed, from + k, cases);
        job->seen[tally.number]++;
        job->started += tally.started;
        job->ticketed += tally.ticketed;
        job->both += tally.started && tally.ticketed;
        for (unsigned e = 0; e < ENDINGS; e++) job->ended[e] += strcmp(tally.ending, endings[e]) == 0;
        job->seen_of_start[tally.number] += tally.of_start;
        job->seen_of_both[tally.number] += tally.started && tally.ticketed && (tally.of_start || tally.number >= 10);
    }
    cases->input_at[count] = cases->input.length;
    cases->expected_at[count] = cases->expected.length;
    job->total += count;
}

/* ---- the command ---- */

static void redirect(const char *path, int flags, int to)
{
    int from = open(path, flags, 0666);
    if (from < 0 || dup2(from, to) < 0) fail(path);
    close(from);
}

/* Whether the command ended well; what it answered is looked at in any case. */
static bool run_command(const struct job *job)
{
    int status;
    pid_t child = fork();
    if (child < 0) fail("fork");
    if (child == 0) {
        redirect(path_of(job, "cases"), O_RDONLY, 0);
        redirect(path_of(job, "answers"), O_WRONLY | O_CREAT | O_TRUNC, 1);
        execvp(job->command[0], job->command);
        fail(job->command[0]);
    }
    if (waitpid(child, &status, 0) != child) fail("waitpid");
    if (status != 0) printf("the command ended with status %d\n", status);
    return status == 0;
}

/* ---- differences ---- */

static size_t first_difference(const struct stream *a, const struct stream *b)
{
    size_t at = 0, least = a->length < b->length ? a->length : b->length;
    while (at < least && a->bytes[at] == b->bytes[at]) at++;
    return at;
}

/* Where the answer to the case ends that starts at a place: a line, and the bytes that its last number announces, or both of what is told. */
static size_t answer_end(const struct job *job, const struct stream *s, size_t start)
{
    size_t end = start;
    while (end < s->length && s->bytes[end] != '\n') end++;
    size_t digits = end;
    while (digits > start && s->bytes[digits - 1] >= '0' && s->bytes[digits - 1] <= '9') digits--;
    size_t more = job->texts && end < s->length ? (size_t)strtoul((const char *)s->bytes + digits, NULL, 10) : 0;
    if (job->told && end < s->length) more += (size_t)strtoul((const char *)s->bytes + start, NULL, 10);
    end += end < s->length;
    return s->length - end < more ? s->length : end + more;
}

static void show(const char *title, const struct stream *s, size_t start, size_t end)
{
    printf("--- %s\n%.*s\n", title, (int)(end - start), (const char *)s->bytes + start);
}

/* The case as the command got it, and its texts beside it; no start of another case is left there. */
static void keep_case(const struct job *job, const struct cases *cases, unsigned k)
{
    const uint8_t *bytes = cases->input.bytes + cases->input_at[k];
    size_t length = cases->input_at[k + 1] - cases->input_at[k];
    char *after;
    write_file(path_of(job, "differs.case"), bytes, length);
    remove(path_of(job, "differs.start"));
    if (!job->texts) return;
    const uint8_t *sheet = (const uint8_t *)memchr(bytes, '\n', length) + 1;
    size_t sheetlen = strtoul(strchr((const char *)bytes, ' '), &after, 10), startlen = 0;
    bool started = job->append != append_plan && after[1] != '-';
    if (started) startlen = strtoul(after, NULL, 10);
    write_file(path_of(job, "differs.sheet"), sheet, sheetlen);
    if (started) write_file(path_of(job, "differs.start"), sheet + sheetlen, startlen);
    if (!job->told) write_file(path_of(job, "differs.answer"), sheet + sheetlen + startlen, length - (size_t)(sheet - bytes) - sheetlen - startlen);
}

static bool agree(const struct job *job, const struct cases *cases, uint64_t seed, uint64_t from)
{
    static struct stream answers;
    unsigned k = 0;
    answers.length = 0;
    read_file(path_of(job, "answers"), &answers);
    size_t at = first_difference(&cases->expected, &answers);
    if (at == cases->expected.length && at == answers.length) return true;
    while (k + 1 < cases->count && cases->expected_at[k + 1] <= at) k++;
    size_t start = cases->expected_at[k];
    printf("case %" PRIu64 " of seed %" PRIu64 " differs; it is kept in %s/differs.*\n", from + k, seed, job->folder);
    show("expected", &cases->expected, start, cases->expected_at[k + 1]);
    show("answered", &answers, start, answer_end(job, &answers, start));
    keep_case(job, cases, k);
    return false;
}

/* ---- the whole ---- */

static bool compare_seed(struct job *job, uint64_t seed)
{
    static struct cases cases;
    for (uint64_t from = 0; from < job->count; from += AT_ONCE) {
        uint64_t left = job->count - from;
        make_cases(job, seed, from, left < AT_ONCE ? left : AT_ONCE, &cases);
        if (job->command == NULL) {
            fwrite(cases.input.bytes, 1, cases.input.length, stdout);
            continue;
        }
        write_file(path_of(job, "cases"), cases.input.bytes, cases.input.length);
        bool ended = run_command(job);
        if (!agree(job, &cases, seed, from) || !ended) return false;
    }
    return true;
}

/* The numbers that must occur: of texts 1 to 6, in the hall 7; then the steps', the actions', or those of names alone. */
static bool due(const struct job *job, unsigned number)
{
    if (job->told) return number <= 5 || (job->append == append_foretold && number >= 11 && number <= 18);
    if (number >= 1 && number <= 7) return job->texts == (number < 7);
    if (job->append == append_plan) return number == 0 || number >= 60;
    return number == 0 || (number >= 10 && number <= 18) || (number >= 20 && number <= 22) || (number >= 30 && number <= 38);
}

/* Prints a number's share; whether it is as great as one in so many. */
static bool share(unsigned number, uint64_t seen, uint64_t total, unsigned many)
{
    bool rare = seen * many < total;
    fprintf(stderr, "%4u %8" PRIu64 " %6.2f%%%s\n", number, seen, 100.0 * (double)seen / (double)total, rare ? " too rare" : "");
    return !rare;
}

/* The same of the cases of one kind, where there are any: whether each of their own numbers has one percent of them. */
static bool shares_of(const char *kind, uint64_t total, const uint64_t *seen, const unsigned *numbers, unsigned count)
{
    bool enough = true;
    if (total > 0) fprintf(stderr, "%" PRIu64 " with %s%s\n", total, kind, count > 0 ? ", whose own numbers are" : "");
    for (unsigned k = 0; total > 0 && k < count; k++) enough = share(numbers[k], seen[numbers[k]], total, 100) && enough;
    return enough;
}

/* Prints how many walks end in each way, and how many have a start and tickets; whether each ending has two percent. */
static bool ends(const struct job *job)
{
    bool enough = true;
    for (unsigned e = 0; e < ENDINGS; e++) {
        fprintf(stderr, "%13" PRIu64 " %s", job->ended[e], endings[e]);
        enough = enough && job->ended[e] * 50 >= job->total;
    }
    fprintf(stderr, "%" PRIu64 " with a start, %" PRIu64 " with tickets\n", job->started, job->ticketed);
    return enough;
}

/* Prints the shares; whether each number that must occur has half a percent, and each of a start, of tickets and of a start with tickets
   one percent of these. Where there is no answer, those of a start aren't asked for, and 23 is left open. */
static bool shares(const struct job *job)
{
    static const unsigned of_start[] = { 1, 2, 3, 4, 5, 50 }, of_tickets[] = { 19, 23, 24 }, of_both[] = { 2, 3, 4, 50, 19, 23, 24 },
                          of_names[] = { 19, 24 };
    bool enough = true;
    fprintf(stderr, "%" PRIu64 " cases of %s\n", job->total, job->kind);
    for (unsigned number = 0; number < NUMBERS; number++)
        if (due(job, number)) enough = share(number, job->seen[number], job->total, 200) && enough;
    if (job->append == append_walk) return ends(job) && enough;
    if (job->told) {
        enough = shares_of("a start", job->started, job->seen_of_start, of_start, 0) && enough;
        return shares_of("tickets", job->ticketed, job->seen, of_names, 2) && enough;
    }
    enough = shares_of("a start", job->started, job->seen_of_start, of_start, 6) && enough;
    enough = shares_of("tickets", job->ticketed, job->seen, of_tickets, 3) && enough;
    return shares_of("a start and tickets", job->both, job->seen_of_both, of_both, 7) && enough;
}

/* What a case of each kind is. */
static const struct job kinds[] = {
    { .kind = "pairs", .append = append_pair, .texts = true },
    { .kind = "plans", .append = append_plan, .texts = true },
    { .kind = "hall", .append = append_hall },
    { .kind = "foretell", .append = append_foretold, .texts = true, .told = true },
    { .kind = "walks", .append = append_walk, .texts = true, .told = true },
};

static const struct job *kind_of(const char *word)
{
    for (unsigned k = 0; k < sizeof kinds / sizeof kinds[0]; k++)
        if (strcmp(word, kinds[k].kind) == 0) return &kinds[k];
    return NULL;
}

int main(int argc, char **argv)
{
    int seeds = 4;
    bool same = true;
    const struct job *kind = argc > 4 ? kind_of(argv[1]) : NULL;
    while (seeds < argc && strcmp(argv[seeds], "--") != 0) seeds++;
    if (seeds <= 4 || kind == NULL) {
        fputs("usage: compare pairs|plans|hall|foretell|walks COUNT FOLDER SEED.. [-- COMMAND..]\n", stderr);
        return 2;
    }
    struct job job = *kind;
    job.folder = argv[3];
    job.command = seeds + 1 < argc ? argv + seeds + 1 : NULL;
    job.count = strtoull(argv[2], NULL, 10);
    for (int k = 4; k < seeds && same; k++) same = compare_seed(&job, strtoull(argv[k], NULL, 10));
    if (!shares(&job) || !same) return 1;
    if (job.command != NULL) printf("%" PRIu64 " cases, no difference\n", job.total);
    return 0;
}
