/* C-18: "From the empty start take at each turn the first allowed step in this order: `next`; then, per instance by ascending id,
   `finish`, `enter` by place, `end` by transition, `fire` by place. Stop when no step is allowed or after 1,024." C-20: "C-18 and C-19
   take a start as well." */
#include "ink.h"
#include "judge.h"
#include "lines.h"
#include "told.h"

static bool allowed(const struct said *said, struct step step)
{
    return step_number(&said->tables, &said->program, &said->configuration, &step) == 0;
}

/* The first allowed move of an instance; NEXT where there is none. */
static struct step first_move(const struct said *said, unsigned id)
{
    static const uint8_t verbs[] = { FINISH, ENTER, END, FIRE }, counts[] = { 1, PLACES, TRANSITIONS, PLACES };
    for (unsigned k = 0; k < 4; k++)
        for (unsigned number = 0; number < counts[k]; number++) {
            struct step step = { verbs[k], (uint8_t)id, (uint8_t)number };
            if (allowed(said, step)) return step;
        }
    return (struct step){ NEXT, 0, 0 };
}

/* Whether any step is allowed; which is first. */
static bool first_step(const struct said *said, struct step *step)
{
    *step = (struct step){ NEXT, 0, 0 };
    if (allowed(said, *step)) return true;
    for (unsigned id = 0; id < INSTANCES && step->verb == NEXT; id++) *step = first_move(said, id);
    return step->verb != NEXT;
}

/* "program at its end, all queues empty" */
static bool done(const struct said *said)
{
    for (unsigned id = 0; id < INSTANCES; id++)
        if (said->configuration.instance[id].present && said->configuration.instance[id].queued > 0) return false;
    return said->configuration.done == said->program.count;
}

/* "done (.., at whatever length), cut (1,024 steps and not done), or stuck (fewer, and not done)" */
static const char *ending(const struct said *said)
{
    if (done(said)) return "walk=done\n";
    return said->steps == STEPS ? "walk=cut\n" : "walk=stuck\n";
}

void walk(const struct texts *texts, struct told *told)
{
    static struct said said;
    struct result result;
    told->out_length = 0;
    if (!read_paper(texts, &said, &result)) {
        told->err_length = (size_t)(ink_fault(told->err, &result) - told->err);
        return;
    }
    for (said.steps = 0; said.steps < STEPS && first_step(&said, &said.step[said.steps]); said.steps++)
        take_step(&said.tables, &said.program, &said.configuration, &said.step[said.steps]);
    told->out_length = (size_t)(ink_answer(told->out, said.step, said.steps) - told->out);
    told->err_length = (size_t)(ink_word(told->err, ending(&said)) - told->err);
}
