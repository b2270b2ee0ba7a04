/* "The two texts", "Refusal numbers" and "The report and its program": reader, walk, report, place. */
#include "judge.h"

#include "ink.h"
#include "state.h"

/* The longest report has 32 instances with all sets full and 64 connections: below 11,000 bytes whatever they hold. */
enum { LONGEST_REPORT = 16384 };

static bool initial_line(struct reader *r, struct type *type)
{
    struct list list;
    if (!take_word(r, "initial=") || !take_list(r, &list) || !end_line(r)) return at_fault(r, FORM);
    if (list.past > type->places) return at_fault(r, LIMIT);
    if (list.set == 0) return at_fault(r, BREACH);
    type->initial = list.set;
    return line_done(r);
}

/* "`tran` with source equal to destination" is 4. */
static bool tran_line(struct reader *r, struct type *type, unsigned t)
{
    unsigned ends[2];
    if (!take_word(r, "tran=") || !take_numbers(r, 2, ends) || !end_line(r)) return at_fault(r, FORM);
    if (ends[0] >= type->places || ends[1] >= type->places) return at_fault(r, LIMIT);
    if (ends[0] == ends[1]) return at_fault(r, BREACH);
    type->source[t] = (uint8_t)ends[0];
    type->destination[t] = (uint8_t)ends[1];
    return line_done(r);
}

static bool behavior_line(struct reader *r, struct type *type, unsigned b)
{
    struct list list;
    if (!take_word(r, "behavior=") || !take_list(r, &list) || !end_line(r)) return at_fault(r, FORM);
    if (list.past > type->transitions) return at_fault(r, LIMIT);
    type->behavior[b] = list.set;
    return line_done(r);
}

static bool take_kind(struct reader *r, uint8_t *use)
{
    *use = take_word(r, "port=use,");
    return *use || take_word(r, "port=provide,");
}

/* "a use port whose group has an initial place" is 4. */
static bool port_line(struct reader *r, struct type *type, unsigned p)
{
    struct list places, transitions;
    struct port *port = &type->port[p];
    if (!take_kind(r, &port->use) || !take_list(r, &places) || !take_byte(r, ',') || !take_list(r, &transitions)
        || !end_line(r)) return at_fault(r, FORM);
    if (places.past > type->places || transitions.past > type->transitions) return at_fault(r, LIMIT);
    if (port->use && (places.set & type->initial) != 0) return at_fault(r, BREACH);
    port->places = places.set;
    port->transitions = transitions.set;
    return line_done(r);
}

static const struct form instruction_forms[INSTRUCTION_VERBS] = {
    [ADD] = { "add,", 2, { 31, 0 } },
    [DEL] = { "del,", 1, { 31 } },
    [PUSHB] = { "pushb,", 2, { 31, 7 } },
    [CON] = { "con,", 4, { 31, 15, 31, 15 } },
    [DCON] = { "dcon,", 4, { 31, 15, 31, 15 } },
    [WAIT] = { "wait,", 1, { 31 } },
};

static const struct form step_forms[STEP_VERBS] = {
    [NEXT] = { "next", 0, { 0 } },
    [FIRE] = { "fire,", 2, { 31, 15 } },
    [END] = { "end,", 2, { 31, 31 } },
    [ENTER] = { "enter,", 2, { 31, 15 } },
    [FINISH] = { "finish,", 1, { 31 } },
};

/* C-21: "`do=pushb,id,behavior,ticket` and `do=wait,id,ticket` .. in sheets that open with `sheet=2`; there every push has a ticket,
   and a wait may have one": one number more than the verb's own. */
static bool take_ticket(struct reader *r, const struct tables *tables, unsigned verb, bool *ticketed, unsigned *ticket)
{
    *ticketed = tables->ticketed && (verb == PUSHB || verb == WAIT) && take_byte(r, ',');
    *ticket = 0;
    if (*ticketed) return take_number(r, ticket);
    return !tables->ticketed || verb != PUSHB;
}

static bool do_line(struct reader *r, const struct tables *tables, struct instruction *i)
{
    unsigned verb, ticket, n[4] = { 0, 0, 0, 0 };
    bool ticketed;
    if (!take_word(r, "do=") || !take_verb(r, instruction_forms, INSTRUCTION_VERBS, &verb)
        || !take_numbers(r, instruction_forms[verb].count, n) || !take_ticket(r, tables, verb, &ticketed, &ticket) || !end_line(r))
        return at_fault(r, FORM);
    bool inside = verb == ADD ? n[0] < INSTANCES && n[1] < tables->count : within(&instruction_forms[verb], n);
    if (!inside || ticket >= TICKETS) return at_fault(r, LIMIT);
    *i = (struct instruction){ (uint8_t)verb, (uint8_t)n[0], (uint8_t)n[1], (uint8_t)n[2], (uint8_t)n[3], ticketed, (uint8_t)ticket };
    return line_done(r);
}

static bool step_line(struct reader *r, struct step *step)
{
    unsigned verb, n[2] = { 0, 0 };
    if (!take_word(r, "step=") || !take_verb(r, step_forms, STEP_VERBS, &verb)
        || !take_numbers(r, step_forms[verb].count, n) || !end_line(r)) return at_fault(r, FORM);
    if (!within(&step_forms[verb], n)) return at_fault(r, LIMIT);
    *step = (struct step){ (uint8_t)verb, (uint8_t)n[0], (uint8_t)n[1] };
    return line_done(r);
}

/* ---- the sheet and the answer, in their fixed order ---- */

static bool read_transitions(struct reader *r, struct type *type)
{
    unsigned count;
    if (!count_line(r, "transitions=", 0, TRANSITIONS, &count)) return false;
    type->transitions = (uint8_t)count;
    for (unsigned t = 0; t < count; t++)
        if (!tran_line(r, type, t)) return false;
    return true;
}

static bool read_behaviors(struct reader *r, struct type *type)
{
    unsigned count;
    if (!count_line(r, "behaviors=", 0, BEHAVIORS, &count)) return false;
    type->behaviors = (uint8_t)count;
    for (unsigned b = 0; b < count; b++)
        if (!behavior_line(r, type, b)) return false;
    return true;
}

static bool read_ports(struct reader *r, struct type *type)
{
    unsigned count;
    if (!count_line(r, "ports=", 0, PORTS, &count)) return false;
    type->ports = (uint8_t)count;
    for (unsigned p = 0; p < count; p++)
        if (!port_line(r, type, p)) return false;
    return true;
}

static bool read_type(struct reader *r, struct type *type, unsigned due)
{
    unsigned places;
    if (!due_line(r, "type=", due) || !count_line(r, "places=", 1, PLACES, &places)) return false;
    type->places = (uint8_t)places;
    return initial_line(r, type) && read_transitions(r, type) && read_behaviors(r, type) && read_ports(r, type);
}

static bool read_program(struct reader *r, const struct tables *tables, struct program *program)
{
    unsigned count;
    if (!count_line(r, "program=", 0, INSTRUCTIONS, &count)) return false;
    program->count = count;
    for (unsigned k = 0; k < count; k++)
        if (!do_line(r, tables, &program->line[k])) return false;
    return true;
}

/* `sheet=1`, or `sheet=2` for tickets: any other number is a form fault. */
static bool sheet_line(struct reader *r, bool *ticketed)
{
    unsigned number;
    if (!take_word(r, "sheet=") || !take_number(r, &number) || !end_line(r) || number < 1 || number > 2) return at_fault(r, FORM);
    *ticketed = number == 2;
    return line_done(r);
}

static bool read_sheet(struct reader *r, struct tables *tables, struct program *program)
{
    unsigned depth, types;
    if (!sheet_line(r, &tables->ticketed) || !count_line(r, "depth=", 0, DEPTH, &depth)
        || !count_line(r, "types=", 1, TYPES, &types)) return false;
    tables->depth = (uint8_t)depth;
    tables->count = (uint8_t)types;
    for (unsigned k = 0; k < types; k++)
        if (!read_type(r, &tables->type[k], k)) return false;
    return read_program(r, tables, program) && at_end(r);
}

static bool read_answer(struct reader *r, struct step *steps, unsigned *count)
{
    if (!due_line(r, "answer=", 1) || !count_line(r, "steps=", 0, STEPS, count)) return false;
    for (unsigned k = 0; k < *count; k++)
        if (!step_line(r, &steps[k])) return false;
    return at_end(r);
}

/* ---- the report ---- */

/* "After 1 to 5 it prints `text=sheet` or `text=answer`, `line=`.., `refused=`", or `text=start` */
uint8_t *ink_fault(uint8_t *at, const struct result *result)
{
    at = ink_word(at, result->text == SHEET ? "text=sheet\n" : result->text == START ? "text=start\n" : "text=answer\n");
    return ink_line(ink_line(at, "line=", result->line), "refused=", result->refused);
}

/* C-11: "in a line `port=` after `refused=`; it is `-` for every verdict but 34 and 38" */
static uint8_t *ink_port(uint8_t *at, unsigned port)
{
    return port == NO_PORT ? ink_word(at, "port=-\n") : ink_line(at, "port=", port);
}

static size_t write_report(uint8_t *bytes, unsigned accepted, struct refusal refusal, const struct said *said)
{
    uint8_t *at = ink_line(bytes, "accepted=", accepted);
    at = ink_port(ink_line(at, "refused=", refusal.number), refusal.port);
    at = ink_line(at, "next=", said->configuration.done);
    return (size_t)(ink_state(at, &said->configuration, said->tables.ticketed) - bytes);
}

/* ---- the whole ---- */

/* The length is known before the first byte is lent out: "the report buffer holds its old bytes" after 6. */
static struct result after_walk(struct result walked, struct refusal refusal, const struct said *said, uint8_t *report, size_t room)
{
    uint8_t bytes[LONGEST_REPORT];
    walked.refused = refusal.number;
    walked.next = said->configuration.done;
    walked.length = write_report(bytes, walked.accepted, refusal, said);
    return in_room(walked, bytes, report, room);
}

/* "The three lengths come first (sheet, start, answer)"; SHEET, START or ANSWER, or NO_TEXT where none is too long. */
static enum text too_long(const struct texts *texts)
{
    if (texts->sheet.length > LONGEST_TEXT) return SHEET;
    if (texts->start.at != NULL && texts->start.length > LONGEST_START) return START;
    return texts->answer.length > LONGEST_TEXT ? ANSWER : NO_TEXT;
}

/* 50 "for an unserved use port, after the start's last line" */
static bool started(struct bytes start, struct said *said, struct result *result)
{
    memset(&said->configuration, 0, sizeof said->configuration);
    if (start.at == NULL) return true;
    struct reader of_start = reader_of(start);
    if (!read_start(&of_start, &said->tables, &said->configuration)) *result = after_fault(&of_start, START);
    else if (!all_served(&said->tables, &said->configuration)) *result = after_whole(UNSERVED, START);
    else return true;
    return false;
}

/* "then the lines in that order" */
bool read_paper(const struct texts *texts, struct said *said, struct result *result)
{
    struct reader of_sheet = reader_of(texts->sheet);
    enum text longer = too_long(texts);
    if (longer != NO_TEXT) *result = after_whole(TOO_LONG, longer);
    else if (!read_sheet(&of_sheet, &said->tables, &said->program)) *result = after_fault(&of_sheet, SHEET);
    else return started(texts->start, said, result);
    return false;
}

static bool read_texts(const struct texts *texts, struct said *said, struct result *result)
{
    struct reader of_answer = reader_of(texts->answer);
    if (!read_paper(texts, said, result)) return false;
    if (read_answer(&of_answer, said->step, &said->steps)) return true;
    *result = after_fault(&of_answer, ANSWER);
    return false;
}

void judge(const struct texts *texts, uint8_t *report, size_t room, struct result *result)
{
    struct said said;
    struct result walked = { .place = { ANSWER, texts->answer.length, 0 } };
    struct refusal refusal = { 0, NO_PORT };
    if (!read_texts(texts, &said, result)) return;
    while (walked.accepted < said.steps && refusal.number == 0) {
        refusal = take_step(&said.tables, &said.program, &said.configuration, &said.step[walked.accepted]);
        if (refusal.number == 0) walked.accepted++;
    }
    if (refusal.number != 0) walked.place = step_place(texts->answer, walked.accepted);
    *result = after_walk(walked, refusal, &said, report, room);
}
