/* rows FOLDER <NAMES: a plain loop over answer files, each name ended by a LF: the judge in C on each against FOLDER/sheet.txt, and a row as the register has it,
   without the mark: candidate,outcome,number,port,line,accepted,next,program. Names must need no showing. */
#include <stdio.h>

#include "judge.h"
#include "reader.h"

enum { ROOM = 16384, LONGEST_PATH = 4096 };

static bool read_file(const char *path, uint8_t *bytes, size_t *length)
{
    FILE *file = fopen(path, "rb");
    if (file == NULL) return false;
    *length = fread(bytes, 1, LONGEST_TEXT + 1, file);
    return fclose(file) == 0;
}

/* The number after a word of the report; -1 where that is `-`. */
static int reported(const char *report, const char *word)
{
    int number = -1;
    sscanf(strstr(report, word) + strlen(word), "%d", &number);
    return number;
}

/* "program at its end, all queues empty": the last item of every instance= line is its queue. */
static bool at_end_of(const char *report, unsigned next, unsigned program)
{
    for (const char *line = strstr(report, "\ninstance="); line != NULL; line = strstr(line + 1, "\ninstance="))
        if (memcmp(strchr(line + 1, '\n') - 2, ",-", 2) != 0) return false;
    return next == program;
}

static void print_row(const char *name, const char *report, const struct result *r, unsigned program)
{
    if (r->text == ANSWER) {
        printf("%s,fault,%u,,%u,,,%u\n", name, r->refused, r->line, program);
    } else if (r->refused != 0) {
        int port = reported(report, "\nport=");
        printf("%s,refused,%u,", name, r->refused);
        if (port >= 0) printf("%d", port);
        printf(",%u,%u,%u,%u\n", r->accepted + 3, r->accepted, r->next, program);
    } else {
        printf("%s,%s,0,,,%u,%u,%u\n", name, at_end_of(report, r->next, program) ? "done" : "unfinished", r->accepted, r->next, program);
    }
}

int main(int count, char **words)
{
    static uint8_t sheet[LONGEST_TEXT + 1], answer[LONGEST_TEXT + 1], report[ROOM];
    static struct said said;
    char path[LONGEST_PATH];
    struct texts texts = { { sheet, 0 }, { NULL, 0 }, { answer, 0 } };
    struct result result;
    if (count != 2 || snprintf(path, sizeof path, "%s/sheet.txt", words[1]) >= LONGEST_PATH || !read_file(path, sheet, &texts.sheet.length)) return 2;
    if (!read_paper(&texts, &said, &result)) return 4;
    while (fgets(path, sizeof path, stdin) != NULL) {
        path[strcspn(path, "\n")] = 0;
        if (!read_file(path, answer, &texts.answer.length)) return 3;
        judge(&texts, report, ROOM - 1, &result);
        report[result.length] = 0;
        const char *base = strrchr(path, '/');
        print_row(base == NULL ? path : base + 1, (const char *)report, &result, said.program.count);
    }
    return fflush(stdout) == 0 ? 0 : 3;
}
