/* The texts of papers from a seed: a paper aimed at a number, written out, damaged where the aim is a fault of the texts. */
#include "generate.h"

#include "damage.h"
#include "lines.h"
#include "protocol.h"

/* ---- a paper's sheet and answer ---- */

static uint8_t *ink_port(uint8_t *at, const struct port *port)
{
    at = ink_word(at, port->use ? "port=use," : "port=provide,");
    at = ink_byte(ink_list(at, port->places), ',');
    return ink_byte(ink_list(at, port->transitions), '\n');
}

static uint8_t *ink_tran(uint8_t *at, const struct type *type, unsigned t)
{
    at = ink_byte(ink_number(ink_word(at, "tran="), type->source[t]), ',');
    return ink_byte(ink_number(at, type->destination[t]), '\n');
}

static uint8_t *ink_type(uint8_t *at, const struct type *type, unsigned number)
{
    at = ink_line(ink_line(at, "type=", number), "places=", type->places);
    at = ink_byte(ink_list(ink_word(at, "initial="), type->initial), '\n');
    at = ink_line(at, "transitions=", type->transitions);
    for (unsigned t = 0; t < type->transitions; t++) at = ink_tran(at, type, t);
    at = ink_line(at, "behaviors=", type->behaviors);
    for (unsigned b = 0; b < type->behaviors; b++) at = ink_byte(ink_list(ink_word(at, "behavior="), type->behavior[b]), '\n');
    at = ink_line(at, "ports=", type->ports);
    for (unsigned p = 0; p < type->ports; p++) at = ink_port(at, &type->port[p]);
    return at;
}

static uint8_t *ink_instruction(uint8_t *at, const struct instruction *i)
{
    static const char *const words[INSTRUCTION_VERBS] = { "add", "del", "pushb", "con", "dcon", "wait" };
    static const unsigned counts[INSTRUCTION_VERBS] = { 2, 1, 2, 4, 4, 1 };
    uint8_t numbers[] = { i->id, i->number, i->provider, i->provideport };
    if (i->ticketed) numbers[counts[i->verb]] = i->ticket;
    return ink_numbers(ink_word(ink_word(at, "do="), words[i->verb]), numbers, counts[i->verb] + i->ticketed);
}

void write_sheet(const struct paper *paper, struct draft *text)
{
    uint8_t *at = ink_line(text->bytes, "sheet=", paper->tables.ticketed ? 2 : 1);
    at = ink_line(ink_line(at, "depth=", paper->tables.depth), "types=", paper->tables.count);
    for (unsigned k = 0; k < paper->tables.count; k++) at = ink_type(at, &paper->tables.type[k], k);
    at = ink_line(at, "program=", paper->program.count);
    for (unsigned k = 0; k < paper->program.count; k++) at = ink_instruction(at, &paper->program.line[k]);
    text->length = (size_t)(at - text->bytes);
}

void write_answer(const struct paper *paper, struct draft *text)
{
    text->length = (size_t)(ink_answer(text->bytes, paper->step, paper->steps) - text->bytes);
}

/* ---- a sheet of an exact length ---- */

/* An instruction whose line has so many bytes, 9 to 20. */
static struct instruction of_length(struct random *r, unsigned length, bool ticketed)
{
    struct instruction i;
    uint8_t line[32];
    do {
        i = (struct instruction){ .verb = (uint8_t)pick(r, INSTRUCTION_VERBS), .id = (uint8_t)pick(r, INSTANCES) };
        i.ticketed = ticketed && (i.verb == PUSHB || (i.verb == WAIT && chance(r, 50)));
        if (i.ticketed) i.ticket = (uint8_t)pick(r, TICKETS);
        if (i.verb == CON || i.verb == DCON) {
            i.number = (uint8_t)pick(r, PORTS);
            i.provider = (uint8_t)pick(r, INSTANCES);
            i.provideport = (uint8_t)pick(r, PORTS);
        }
    } while ((size_t)(ink_instruction(line, &i) - line) != length);
    return i;
}

/* The length of the next line on the way to a sheet that wants so many bytes more. */
static unsigned line_towards(size_t left)
{
    if (left > 40) return 20;
    if (left > 20) return (unsigned)(left - 9 < 20 ? left - 9 : 20);
    return left < 9 ? 9 : (unsigned)left;
}

/* Appends instructions until the sheet has exactly that length, where the program's limit lets it. */
static void fill_sheet(struct paper *paper, struct draft *text, size_t length)
{
    write_sheet(paper, text);
    size_t now = text->length;
    while (now < length && paper->program.count < INSTRUCTIONS) {
        unsigned line = line_towards(length - now);
        paper->program.line[paper->program.count++] = of_length(&paper->random, line, paper->tables.ticketed);
        now += line + (paper->program.count == 10 || paper->program.count == 100);
    }
    write_sheet(paper, text);
}

/* Appends a type, great ones as long as there is much room, unless it leaves too little for the program. */
static void append_type(struct paper *paper, struct draft *text)
{
    struct tables *tables = &paper->tables;
    size_t before = text->length;
    if (before < LONGEST_TEXT - 6000) draw_great_type(&paper->random, &tables->type[tables->count++]);
    else draw_little_type(&paper->random, &tables->type[tables->count++]);
    write_sheet(paper, text);
    if (text->length <= LONGEST_TEXT - 1000) return;
    tables->count--;
    text->length = before;
}

/* Types appended until the tables come near the longest text, and the program filled up to it or one byte past it. */
static void fill_to_the_limit(struct paper *paper, struct draft *text)
{
    write_sheet(paper, text);
    for (unsigned tries = 0; tries < 40 && paper->tables.count < TYPES && text->length < LONGEST_TEXT - 4000; tries++)
        append_type(paper, text);
    fill_sheet(paper, text, LONGEST_TEXT + pick(&paper->random, 2));
}

/* ---- the texts ---- */

/* How often each number is aimed at; 19, 23 and 24 only where the sheet has tickets. */
static const unsigned aims[39] = {
    [0] = 60, [1] = 20, [2] = 60, [3] = 90, [4] = 25, [5] = 25, [6] = 20,
    [10] = 20, [11] = 20, [12] = 20, [13] = 25, [14] = 25, [15] = 25, [16] = 25, [17] = 20, [18] = 20,
    [19] = 50, [20] = 25, [21] = 20, [22] = 40, [23] = 75, [24] = 60, [30] = 20, [31] = 25, [32] = 20, [33] = 40, [34] = 30, [35] = 60, [36] = 80, [37] = 25, [38] = 20,
};

static void write_texts(const struct paper *paper, struct pair *pair)
{
    write_sheet(paper, &pair->sheet);
    write_answer(paper, &pair->answer);
}

/* A text made too long: the sheet through its own rules, or either of them by bytes appended. */
static void make_long(struct paper *paper, struct pair *pair)
{
    struct random *r = &paper->random;
    write_texts(paper, pair);
    if (chance(r, 30)) fill_to_the_limit(paper, &pair->sheet);
    else if (chance(r, 50)) damage_length(r, &pair->sheet, LONGEST_TEXT);
    else damage_length(r, &pair->answer, LONGEST_TEXT);
    if (chance(r, 10)) damage_length(r, &pair->answer, LONGEST_TEXT);
    if (chance(r, 15)) damage_form(r, &pair->sheet);
}

static void make_faulty(struct paper *paper, struct pair *pair, unsigned number)
{
    struct random *r = &paper->random;
    if (number == 4)
        for (unsigned tries = 0; tries < 8 && !damage_tables(r, &paper->tables); tries++) continue;
    write_texts(paper, pair);
    struct draft *text = chance(r, 60) ? &pair->sheet : &pair->answer;
    bool of_tickets = chance(r, 20);
    if (number == 2 && of_tickets) damage_ticket(r, &pair->sheet);
    else if (number == 2) damage_form(r, text);
    if (number == 3 && of_tickets && paper->tables.ticketed) damage_ticket_number(r, &pair->sheet);
    else if (number == 3) damage_number(r, text, &sheet_edges);
    if (number == 5) damage_end(r, text);
    if (chance(r, 5)) damage_form(r, chance(r, 50) ? &pair->sheet : &pair->answer);
    if (chance(r, 5)) damage_number(r, chance(r, 50) ? &pair->sheet : &pair->answer, &sheet_edges);
}

struct texts texts_of(const struct pair *pair)
{
    struct bytes start = { pair->started ? pair->start.bytes : NULL, pair->start.length };
    return (struct texts){ { pair->sheet.bytes, pair->sheet.length }, start, { pair->answer.bytes, pair->answer.length } };
}

static size_t report_length(const struct pair *pair, judging *judge)
{
    static uint8_t report[GREATEST_ROOM];
    struct texts texts = texts_of(pair);
    struct result result;
    judge(&texts, report, sizeof report, &result);
    return result.length;
}

size_t draw_room(struct random *r, const struct pair *pair, bool short_room, judging *judge)
{
    if (!short_room && chance(r, 80)) return PROGRAM_ROOM;
    size_t length = report_length(pair, judge);
    switch (pick(r, 4)) {
    case 0: return short_room ? (length == 0 ? 0 : length - 1) : length;
    case 1: return short_room ? pick(r, (unsigned)length) : length + pick(r, (unsigned)(GREATEST_ROOM - length) + 1);
    case 2: return short_room ? 0 : length + 1;
    default: return short_room ? pick(r, 60) : chance(r, 50) ? GREATEST_ROOM : length;
    }
}

void cut_to_case(struct draft *text)
{
    if (text->length > LONGEST_CASE) text->length = LONGEST_CASE;
}

static unsigned draw_aim(struct random *r, bool ticketed)
{
    unsigned aim = pick_weighted(r, aims, 39);
    while (!ticketed && (aim == 19 || aim == 23 || aim == 24)) aim = pick_weighted(r, aims, 39);
    return aim;
}

/* What the walk aims at: a room too short takes the place of a step's number too. */
static unsigned steps_aim(struct random *r, unsigned aim, bool ticketed)
{
    unsigned other = draw_aim(r, ticketed);
    if (aim == 6) aim = other;
    return aim >= 10 ? aim : 0;
}

/* A third of the papers have a start, half of these a faulty one; what else is faulty is drawn beside that. */
static unsigned draw_start_aim(struct paper *paper)
{
    static const unsigned numbers[] = { 0, 1, 2, 3, 4, 5, 50 }, weights[] = { 45, 6, 7, 16, 17, 4, 5 };
    paper->started = chance(&paper->random, 34);
    return paper->started ? numbers[pick_weighted(&paper->random, weights, 7)] : 0;
}

/* The numbers that a program can earn on names alone, and faults of the sheet; then what 20 to 23 leave. */
static unsigned draw_program_aim(struct random *r, bool ticketed)
{
    static const unsigned weights[25] = {
        [0] = 60, [1] = 8, [2] = 20, [3] = 20, [4] = 10, [5] = 8, [11] = 25, [12] = 25, [13] = 25, [14] = 25, [15] = 25, [16] = 35,
        [17] = 25, [18] = 30, [19] = 40, [20] = 10, [21] = 10, [22] = 15, [23] = 15, [24] = 40,
    };
    unsigned aim = pick_weighted(r, weights, 25);
    while (!ticketed && (aim == 19 || aim >= 23)) aim = pick_weighted(r, weights, 25);
    return aim;
}

static bool of_names(unsigned aim) { return aim < 20 || aim == 24; }

void generate_program(uint64_t seed, uint64_t index, struct pair *pair, unsigned sound)
{
    static struct paper paper;
    paper.random = random_of(seed, index);
    struct random *r = &paper.random;
    pair->ticketed = chance(r, 34);
    unsigned aim = chance(r, sound) ? 0 : draw_program_aim(r, pair->ticketed), walked = aim >= 10 ? aim : 0;
    unsigned start_aim = draw_start_aim(&paper);
    if (of_names(aim) && chance(r, 60)) draw_by_names(&paper, walked, pair->ticketed);
    else draw_paper(&paper, walked, pair->ticketed);
    if (aim == 4)
        for (unsigned tries = 0; tries < 8 && !damage_tables(r, &paper.tables); tries++) continue;
    write_sheet(&paper, &pair->sheet);
    if (aim == 1) damage_length(r, &pair->sheet, LONGEST_TEXT);
    if (aim == 2) damage_form(r, &pair->sheet);
    if (aim == 3) damage_number(r, &pair->sheet, &sheet_edges);
    if (aim == 5) damage_end(r, &pair->sheet);
    pair->started = paper.started;
    if (paper.started) write_start(&paper, &pair->start, start_aim);
    pair->answer.length = 0;
    cut_to_case(&pair->sheet);
}

void generate_pair(uint64_t seed, uint64_t index, struct pair *pair)
{
    static struct paper paper;
    paper.random = random_of(seed, index);
    bool ticketed = chance(&paper.random, 34);
    unsigned aim = draw_aim(&paper.random, ticketed), start_aim = draw_start_aim(&paper);
    draw_paper(&paper, steps_aim(&paper.random, aim, ticketed), ticketed);
    if (aim == 1) make_long(&paper, pair);
    else if (aim >= 2 && aim <= 5) make_faulty(&paper, pair, aim);
    else write_texts(&paper, pair);
    pair->started = paper.started;
    pair->ticketed = ticketed;
    if (paper.started) write_start(&paper, &pair->start, start_aim);
    if (start_aim == 1 && chance(&paper.random, 30)) {
        struct draft *other = chance(&paper.random, 50) ? &pair->sheet : &pair->answer;
        damage_length(&paper.random, other, LONGEST_TEXT);
    }
    cut_to_case(&pair->sheet);
    cut_to_case(&pair->answer);
    pair->room = draw_room(&paper.random, pair, aim == 6, judge);
}
