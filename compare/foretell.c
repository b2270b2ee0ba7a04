/* C-19: "Go through the program on names alone, before any answer exists, and report the first instruction that would get 11 to 18,
   with its number"; C-21: "C-19 foretells 19 and 24 too". */
#include "foretell.h"

#include "ink.h"
#include "judge.h"
#include "told.h"

void forget_tokens(struct configuration *c)
{
    for (unsigned id = 0; id < INSTANCES; id++) {
        struct instance *i = &c->instance[id];
        i->queued = 0;
        i->marked = i->running = i->ended = 0;
    }
}

/* The instructions' lines are the sheet's last. */
static unsigned line_of(struct bytes sheet, const struct said *said)
{
    unsigned lines = 0;
    for (size_t k = 0; k < sheet.length; k++) lines += sheet.at[k] == '\n';
    return lines - said->program.count + said->configuration.done + 1;
}

static uint8_t *ink_foretold(uint8_t *at, struct bytes sheet, struct said *said)
{
    static const struct step next = { NEXT, 0, 0 };
    unsigned number = 0;
    while (said->configuration.done < said->program.count && number == 0) {
        forget_tokens(&said->configuration);
        number = take_step(&said->tables, &said->program, &said->configuration, &next).number;
    }
    at = ink_line(ink_line(at, "next=", said->configuration.done), "refused=", number);
    return ink_line(at, "line=", number == 0 ? 0 : line_of(sheet, said));
}

void foretell(const struct texts *texts, struct told *told)
{
    static struct said said;
    struct result result;
    bool read = read_paper(texts, &said, &result);
    uint8_t *end = read ? ink_foretold(told->out, texts->sheet, &said) : ink_fault(told->out, &result);
    told->out_length = (size_t)(end - told->out);
    told->err_length = 0;
}
