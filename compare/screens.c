/* screens <CASES: one step in the hall a line, `NAME OFFSET=VALUE ..` for the bytes lent that are not 0; answers `NAME N PORT` and
   ` OFFSET=VALUE` for each byte of the configuration that the step changed. */
#include <stdio.h>
#include <stdlib.h>

#include "hall.h"
#include "ink.h"
#include "lent.h"

enum { LONGEST_LINE = 128 + LENT_BYTES * 9 };

/* Reads the pairs after the name; false where a line is not of the form. */
static bool read_bytes(char *at, uint8_t *bytes)
{
    memset(bytes, 0, LENT_BYTES);
    while (*at == ' ') {
        unsigned long offset = strtoul(at + 1, &at, 10);
        if (offset >= LENT_BYTES || *at != '=') return false;
        unsigned long value = strtoul(at + 1, &at, 10);
        if (value > 255) return false;
        bytes[offset] = (uint8_t)value;
    }
    return *at == '\n';
}

static void answer(const char *name, size_t length, const uint8_t *before)
{
    static struct lent lent;
    static uint8_t after[LENT_BYTES], line[LONGEST_LINE];
    lent_of_bytes(before, &lent);
    struct refusal refusal = hall(&lent.tables, &lent.program, &lent.configuration, &lent.step);
    lent_to_bytes(&lent, after);
    uint8_t *end = ink_byte(ink_changes(ink_refusal(line, refusal), before, after), '\n');
    fwrite(name, 1, length, stdout);
    fwrite(line, 1, (size_t)(end - line), stdout);
}

int main(void)
{
    static char line[LONGEST_LINE];
    static uint8_t bytes[LENT_BYTES];
    while (fgets(line, sizeof line, stdin) != NULL) {
        size_t name = strcspn(line, " \n");
        if (!read_bytes(line + name, bytes)) {
            fputs("bad case\n", stdout);
            return 0;
        }
        answer(line, name, bytes);
    }
    return 0;
}
