#include "trials.h"

struct tables tables_of(const struct plan *p, const struct image *image)
{
    struct tables tables = {
        .name = p->name,
        .n = p->size[0],
        .m = p->size[1],
        .t = p->size[2],
        .start = p->size[3],
        .file = p->file,
        .size = image->size,
        .rows = image->rows,
        .firsts = image->firsts,
        .outcomes = image->outcomes,
        .ranks = image->ranks,
        .commands = image->commands,
        .marks = image->marks,
        .scratch = image->scratch,
        .tally = image->tally,
        .answer = image->answer,
        .walked = image->walked,
    };
    return tables;
}
