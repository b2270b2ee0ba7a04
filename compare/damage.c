/* Each function here makes one fault; which number it earns is the judge's business. */
#include "damage.h"

#include <string.h>

#include "ink.h"
#include "judge.h"

struct span { size_t start, length; };

/* ---- parts of a text ---- */

static void splice(struct draft *text, struct span old, const void *bytes, size_t count)
{
    size_t rest = old.start + old.length;
    if (text->length - old.length + count > LONGEST_DRAFT) return;
    memmove(text->bytes + old.start + count, text->bytes + rest, text->length - rest);
    if (count > 0) memcpy(text->bytes + old.start, bytes, count);
    text->length = text->length - old.length + count;
}

static void insert(struct draft *text, size_t at, const char *word)
{
    splice(text, (struct span){ at, 0 }, word, strlen(word));
}

static void set_byte(struct draft *text, size_t at, uint8_t byte)
{
    if (at < text->length) text->bytes[at] = byte;
}

/* The line that a byte lies in, without its LF. */
static struct span line_at(const struct draft *text, size_t at)
{
    size_t start = at, end = at;
    while (start > 0 && text->bytes[start - 1] != '\n') start--;
    while (end < text->length && text->bytes[end] != '\n') end++;
    return (struct span){ start, end - start };
}

static struct span draw_line(struct random *r, const struct draft *text) { return line_at(text, pick(r, (unsigned)text->length)); }

static bool is_digit(uint8_t byte) { return byte >= '0' && byte <= '9'; }

/* A random run of digits in a line; empty at the line's end where it has none. */
static struct span draw_number_in(struct random *r, const struct draft *text, struct span line)
{
    struct span found = { line.start + line.length, 0 };
    unsigned seen = 0;
    for (size_t at = line.start; at < line.start + line.length; at++) {
        size_t first = at;
        while (at < line.start + line.length && is_digit(text->bytes[at])) at++;
        if (at > first && pick(r, ++seen) == 0) found = (struct span){ first, at - first };
    }
    return found;
}

static struct span draw_number(struct random *r, const struct draft *text)
{
    struct span found = { 0, 0 };
    for (unsigned tries = 0; tries < 5 && found.length == 0; tries++) found = draw_number_in(r, text, draw_line(r, text));
    return found;
}

/* ---- faults of form ---- */

static void cut_anywhere(struct random *r, struct draft *text) { text->length = pick(r, (unsigned)text->length + 1); }

static void cut_before_line(struct random *r, struct draft *text) { text->length = draw_line(r, text).start; }

static void cut_last_byte(struct random *r, struct draft *text)
{
    (void)r;
    if (text->length > 0) text->length--;
}

static void join_lines(struct random *r, struct draft *text)
{
    struct span line = draw_line(r, text);
    size_t end = line.start + line.length;
    if (end < text->length) splice(text, (struct span){ end, 1 }, "", 0);
}

static void return_before_end(struct random *r, struct draft *text)
{
    struct span line = draw_line(r, text);
    insert(text, line.start + line.length, "\r");
}

static void end_by_return(struct random *r, struct draft *text)
{
    struct span line = draw_line(r, text);
    set_byte(text, line.start + line.length, '\r');
}

/* A line taken out, doubled, or put somewhere else. */
static void move_line(struct random *r, struct draft *text)
{
    uint8_t copy[1024];
    struct span line = draw_line(r, text);
    line.length += line.start + line.length < text->length;
    if (line.length > sizeof copy) return;
    memcpy(copy, text->bytes + line.start, line.length);
    size_t count = line.length;
    if (chance(r, 66)) splice(text, line, "", 0);
    if (chance(r, 66) && text->length > 0) splice(text, (struct span){ draw_line(r, text).start, 0 }, copy, count);
}

static void any_byte(struct random *r, struct draft *text)
{
    size_t at = pick(r, (unsigned)text->length);
    set_byte(text, at, (uint8_t)pick(r, 256));
}

static void flip_bit(struct random *r, struct draft *text)
{
    size_t at = pick(r, (unsigned)text->length);
    if (text->length > 0) text->bytes[at] ^= (uint8_t)bit(pick(r, 8));
}

static void near_byte(struct random *r, struct draft *text)
{
    static const char near[] = "\n\r +,-=0123456789sS\tx.;:/";
    size_t at = pick(r, (unsigned)text->length);
    set_byte(text, at, (uint8_t)near[pick(r, sizeof near - 1)]);
}

static void insert_byte(struct random *r, struct draft *text)
{
    static const char *const words[] = { "\n", " ", "+", ",", "-", "=", "0", "1", "9", "x", "\r", "-1", "+-", ",,", "\n\n" };
    size_t at = pick(r, (unsigned)text->length + 1);
    insert(text, at, words[pick(r, 15)]);
}

static void drop_byte(struct random *r, struct draft *text)
{
    if (text->length > 0) splice(text, (struct span){ pick(r, (unsigned)text->length), 1 }, "", 0);
}

static void leading_zero(struct random *r, struct draft *text)
{
    struct span number = draw_number(r, text);
    insert(text, number.start, chance(r, 80) ? "0" : "0000");
}

/* Six digits and more, among them some that wrap to a small number in 16, 32 or 64 bits. */
static void many_digits(struct random *r, struct draft *text)
{
    static const char *const words[] = { "100000", "000001", "123456", "999999", "65536", "65537", "4294967296", "4294967297",
                                         "18446744073709551616", "18446744073709551617", "00000", "000000", "99999" };
    const char *word = words[pick(r, 13)];
    splice(text, draw_number(r, text), word, strlen(word));
}

static void no_number(struct random *r, struct draft *text)
{
    static const char *const words[] = { "", "-", "x", "+1", "-1", " 1", "1 ", "0x1", "1.", "+", "1+", "+0", "--" };
    const char *word = words[pick(r, 13)];
    splice(text, draw_number(r, text), word, strlen(word));
}

static unsigned value_of(const struct draft *text, struct span number)
{
    unsigned value = 0;
    for (size_t k = 0; k < number.length && k < 6; k++) value = value * 10 + (unsigned)(text->bytes[number.start + k] - '0');
    return value;
}

/* A number followed by itself, by a neighbour or by any other: a list where none is due, or one that need not ascend. */
static void longer_list(struct random *r, struct draft *text)
{
    uint8_t member[16];
    struct span number = draw_number(r, text);
    unsigned value = value_of(text, number);
    unsigned next = chance(r, 40) ? value : chance(r, 40) ? value - (value > 0) : chance(r, 50) ? value + 1 : pick(r, 34);
    uint8_t *end = ink_number(ink_byte(member, '+'), next);
    splice(text, (struct span){ number.start + number.length, 0 }, member, (size_t)(end - member));
}

static void other_field(struct random *r, struct draft *text)
{
    struct span line = draw_line(r, text);
    size_t end = line.start + line.length, comma = end;
    while (comma > line.start && text->bytes[comma - 1] != ',') comma--;
    if (comma == line.start || chance(r, 50)) insert(text, end, chance(r, 50) ? ",0" : ",");
    else splice(text, (struct span){ comma - 1, end - comma + 1 }, "", 0);
}

static void blank(struct random *r, struct draft *text)
{
    struct span line = draw_line(r, text);
    size_t at = chance(r, 50) ? line.start : line.start + line.length;
    insert(text, at, chance(r, 50) ? " " : "\t");
}

static void upper_case(struct random *r, struct draft *text)
{
    struct span line = draw_line(r, text);
    size_t at = line.start + pick(r, (unsigned)line.length);
    if (at < text->length && text->bytes[at] >= 'a' && text->bytes[at] <= 'z') text->bytes[at] -= 'a' - 'A';
}

static void other_word(struct random *r, struct draft *text)
{
    static const char *const words[] = { "next", "next,", "fire,", "end,", "enter,", "finish,", "add,", "del,", "pushb,", "con,",
                                         "dcon,", "wait,", "use,", "provide,", "adds,", "delete,", "co,", "dcons,", "nexts",
                                         "used,", "nop", "" };
    struct span line = draw_line(r, text);
    size_t from = line.start, end = line.start + line.length;
    while (from < end && text->bytes[from] != '=') from++;
    size_t to = from < end ? ++from : from;
    while (to < end && text->bytes[to] != ',') to++;
    const char *word = words[pick(r, 22)];
    splice(text, (struct span){ from, to - from + (to < end) }, word, strlen(word));
}

static void nothing_left(struct random *r, struct draft *text)
{
    (void)r;
    text->length = 0;
}

typedef void fault(struct random *, struct draft *);

void damage_form(struct random *r, struct draft *text)
{
    static fault *const faults[] = { cut_anywhere, cut_before_line, cut_last_byte, join_lines, return_before_end, end_by_return,
                                     move_line, move_line, any_byte, flip_bit, flip_bit, near_byte, near_byte, insert_byte,
                                     insert_byte, drop_byte, drop_byte, leading_zero, leading_zero, many_digits, many_digits,
                                     no_number, longer_list, longer_list, other_field, blank, upper_case, other_word, other_word,
                                     nothing_left };
    faults[pick(r, sizeof faults / sizeof faults[0])](r, text);
}

/* ---- numbers at and past the limits ---- */

static const struct edge rows[] = {
    { "depth=", 3, { 8, 9, 10 } }, { "types=", 3, { 0, 16, 17 } }, { "type=", 3, { 0, 1, 16 } }, { "places=", 3, { 0, 16, 17 } },
    { "initial=", 4, { 0, 15, 16, 32 } }, { "transitions=", 3, { 0, 32, 33 } }, { "tran=", 5, { 0, 1, 2, 15, 16 } },
    { "behaviors=", 3, { 0, 8, 9 } }, { "behavior=", 5, { 0, 1, 2, 31, 32 } }, { "ports=", 3, { 0, 16, 17 } },
    { "port=", 6, { 0, 1, 15, 16, 31, 32 } }, { "program=", 3, { 0, 256, 257 } }, { "do=add", 6, { 0, 1, 2, 16, 31, 32 } },
    { "do=del", 3, { 0, 31, 32 } }, { "do=pushb", 5, { 8, 31, 32, 255, 256 } }, { "do=con", 2, { 16, 32 } }, { "do=con", 2, { 16, 32 } },
    { "do=dcon", 2, { 16, 32 } }, { "do=dcon", 2, { 16, 32 } }, { "do=wait", 5, { 0, 31, 32, 255, 256 } },
    { "steps=", 4, { 0, 1, 1024, 1025 } }, { "step=fire", 3, { 16, 31, 32 } }, { "step=end", 3, { 16, 31, 32 } },
    { "step=enter", 3, { 16, 31, 32 } }, { "step=finish", 3, { 0, 31, 32 } }, { "sheet=", 4, { 0, 1, 2, 3 } }, { "answer=", 2, { 0, 2 } },
};
const struct edges sheet_edges = { rows, sizeof rows / sizeof rows[0] };

/* A random line that starts with the key; empty at the text's end where there is none. */
static struct span draw_line_of(struct random *r, const struct draft *text, const char *key)
{
    struct span found = { text->length, 0 };
    size_t length = strlen(key), end;
    unsigned seen = 0;
    for (size_t start = 0; start < text->length; start = end + 1) {
        for (end = start; end < text->length && text->bytes[end] != '\n'; end++) continue;
        if (end - start < length || memcmp(text->bytes + start, key, length) != 0) continue;
        if (pick(r, ++seen) == 0) found = (struct span){ start, end - start };
    }
    return found;
}

static void replace_number(struct draft *text, struct span old, unsigned number)
{
    uint8_t digits[16];
    uint8_t *end = ink_number(digits, number);
    splice(text, old, digits, (size_t)(end - digits));
}

static void any_number(struct random *r, struct draft *text)
{
    static const unsigned limits[] = { 0, 1, 4, 7, 8, 9, 15, 16, 17, 31, 32, 33, 64, 255, 256, 257, 1023, 1024, 1025, 9999, 32768,
                                       65535, 99999 };
    struct span number = draw_number(r, text);
    replace_number(text, number, limits[pick(r, sizeof limits / sizeof limits[0])]);
}

/* A line of a random key gets a number of its edge, and sometimes a fault of form behind it. */
static void edge_number(struct random *r, struct draft *text, const struct edges *edges)
{
    static const char *const words[] = { "x", ",0", " ", "\r", "+", ",", "+0" };
    for (unsigned tries = 0; tries < 10; tries++) {
        const struct edge *edge = &edges->row[pick(r, edges->count)];
        struct span line = draw_line_of(r, text, edge->key);
        if (line.length == 0) continue;
        struct span number = draw_number_in(r, text, line);
        replace_number(text, number, edge->numbers[pick(r, edge->count)]);
        line = line_at(text, line.start);
        if (chance(r, 8)) insert(text, line.start + line.length, words[pick(r, 7)]);
        else if (chance(r, 4)) text->length = line.start + line.length;
        return;
    }
}

/* A push, a wait or, where there is none, an empty span at the end. */
static struct span draw_ticketed_line(struct random *r, const struct draft *text)
{
    struct span line = draw_line_of(r, text, chance(r, 50) ? "do=pushb" : "do=wait");
    return line.length > 0 ? line : draw_line_of(r, text, "do=pushb");
}

void damage_ticket(struct random *r, struct draft *text)
{
    struct span line = chance(r, 20) ? line_at(text, 0) : draw_ticketed_line(r, text);
    size_t end = line.start + line.length, comma = end;
    if (line.length == 0) return;
    while (comma > line.start && text->bytes[comma - 1] != ',') comma--;
    if (line.start == 0) replace_number(text, draw_number_in(r, text, line), pick(r, 4));
    else if (chance(r, 50)) insert(text, end, chance(r, 80) ? ",5" : chance(r, 50) ? ",256" : ",");
    else splice(text, (struct span){ comma - 1, end - comma + 1 }, "", 0);
}

void damage_ticket_number(struct random *r, struct draft *text)
{
    static const unsigned numbers[] = { 255, 256, 256, 256, 257, 99999 };
    struct span line = draw_ticketed_line(r, text);
    size_t end = line.start + line.length, digits = end;
    if (line.length == 0) return;
    while (digits > line.start && is_digit(text->bytes[digits - 1])) digits--;
    replace_number(text, (struct span){ digits, end - digits }, numbers[pick(r, 6)]);
}

void damage_number(struct random *r, struct draft *text, const struct edges *edges)
{
    if (chance(r, 75)) edge_number(r, text, edges);
    else any_number(r, text);
    if (chance(r, 8)) damage_number(r, text, edges);
}

/* ---- bytes after the last line due ---- */

void damage_end(struct random *r, struct draft *text)
{
    static const char *const words[] = { "\n", " ", "x", "\r\n", "step=next\n", "do=wait,0\n", "do=add", "sheet=1\n",
                                         "answer=1\nsteps=0\n", "0", "connection=0,0,1,0\n" };
    size_t times = chance(r, 80) ? 1 : pick_from(r, 2, 400);
    if (chance(r, 10)) splice(text, (struct span){ text->length, 0 }, "", 1);
    else
        while (times-- > 0) insert(text, text->length, words[pick(r, 11)]);
}

/* A line that goes on as a list does, until the text has that length. */
static void stretch_list(struct random *r, struct draft *text, size_t length)
{
    struct span line = draw_line(r, text);
    size_t end = line.start + line.length;
    if (length > text->length && (length - text->length) % 2 == 1) insert(text, end, "+10");
    while (text->length < length) insert(text, end, "+0");
}

/* Bytes appended up to a length at the text's limit or past it, or a list in it that is so long. */
void damage_length(struct random *r, struct draft *text, size_t longest)
{
    static const unsigned past[] = { 1, 1, 2, 3232, 7232, 7232 };
    size_t length = chance(r, 25) ? longest - pick(r, 2) : longest + past[pick(r, 6)];
    uint8_t byte = (uint8_t)"\nx0"[pick(r, 3)];
    if (chance(r, 15)) stretch_list(r, text, length);
    if (text->length < length) memset(text->bytes + text->length, byte, length - text->length);
    text->length = length;
}

/* ---- tables whose lines break a rule of the sheet: 4 ---- */

/* Both ends one place, of the type or past it: 3 comes before 4. */
static bool close_transition(struct random *r, struct type *type)
{
    unsigned t = pick(r, type->transitions);
    if (type->transitions == 0) return false;
    if (chance(r, 20)) type->source[t] = (uint8_t)(type->places + pick(r, 3));
    type->destination[t] = type->source[t];
    return true;
}

/* A use port with an initial place, and sometimes with a number past the type too. */
static bool start_in_use(struct random *r, struct type *type)
{
    unsigned first = pick(r, type->ports);
    for (unsigned k = 0; k < type->ports; k++) {
        struct port *port = &type->port[(first + k) % type->ports];
        if (!port->use) continue;
        port->places |= type->initial;
        if (chance(r, 10)) port->transitions |= bit(31);
        return true;
    }
    return false;
}

bool damage_tables(struct random *r, struct tables *tables)
{
    struct type *type = &tables->type[pick(r, tables->count)];
    switch (pick(r, 5)) {
    case 0: type->initial = 0; return true;
    case 1: case 2: return close_transition(r, type);
    default: return start_in_use(r, type);
    }
}
