/* Checks that are counted. */
#ifndef CHECK_H
#define CHECK_H

#include <stdbool.h>

/* Counts a check; where it fails, says which and where. */
#define CHECK(test) check((test), __FILE__, __LINE__, "%s", #test)

void check(bool holds, const char *file, int line, const char *what, ...) __attribute__((format(printf, 4, 5)));

/* Prints how many checks passed, as the last line, and returns the program's exit status. */
int checks_done(void);

#endif
