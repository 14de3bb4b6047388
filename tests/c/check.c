#include "check.h"

#include <stdarg.h>
#include <stdio.h>

static unsigned long passed, failed;

void check(bool holds, const char *file, int line, const char *what, ...)
{
    if (holds) {
        passed++;
        return;
    }
    failed++;
    va_list words;
    va_start(words, what);
    fprintf(stderr, "%s:%d: failed: ", file, line);
    vfprintf(stderr, what, words);
    fputc('\n', stderr);
    va_end(words);
}

int checks_done(void)
{
    if (failed != 0)
        printf("%lu checks failed\n", failed);
    printf("%lu checks passed\n", passed);
    return failed == 0 ? 0 : 1;
}
