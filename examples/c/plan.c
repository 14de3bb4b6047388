#include "plan.h"

#include <stdbool.h>
#include <stdio.h>

static uint8_t file[GATE_MAX_FILE_BYTES + 1];

int refused(const char *program, const char *call, uint32_t number)
{
    fprintf(stderr, "%s: %s: refusal %u, %s\n", program, call, (unsigned)number, gate_refusal_text(number));
    return 1;
}

/* Reads into `file`, up to one byte more than a plan can have. Returns whether it could be read. */
static bool read_file(const char *name, size_t *length)
{
    FILE *f = fopen(name, "rb");
    if (f == NULL)
        return false;
    *length = fread(file, 1, sizeof file, f);
    bool whole = !ferror(f);
    fclose(f);
    return whole;
}

int get_plan(struct plan *p, const char *program, int count, char **words)
{
    size_t length;
    if (count != 2) {
        fprintf(stderr, "usage: %s PLAN\n", program);
        return 2;
    }
    if (!read_file(words[1], &length)) {
        fprintf(stderr, "%s: %s cannot be read\n", program, words[1]);
        return 2;
    }
    if (length > GATE_MAX_FILE_BYTES) {
        fprintf(stderr, "%s: %s is larger than any plan file\n", program, words[1]);
        return 1;
    }
    uint32_t r = gate_read(file, length, p->size, sizeof p->size, p->rows, sizeof p->rows, p->firsts, sizeof p->firsts,
                           p->outcomes, sizeof p->outcomes);
    return r == GATE_OK ? 0 : refused(program, "gate_read", r);
}
