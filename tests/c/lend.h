/*
 * A trial: one call on slices whose bytes, before and after, are known.
 *
 * The library is not compiled with a sanitizer, so each slice is lent from pages of its own between two that nobody may touch: once
 * so that it ends where the pages end, once so that it begins where they begin. A byte read or written outside stops the
 * program, and the spare bytes on the slice's other side are compared after the call.
 */
#ifndef LEND_H
#define LEND_H

#include <stdbool.h>
#include <stddef.h>
#include <stdint.h>

enum { SLICES = 9 };

struct slice {
    const char *name;
    const uint8_t *before; /* what its first bytes hold when it is lent, or NULL */
    const uint8_t *after;  /* what the call leaves in its first bytes, or NULL for a slice that it only reads */
    size_t count;          /* how many bytes that is, and so how many the call needs */
    size_t unit;           /* bytes of an entry, or of a row; 0 for a slice that counts to its last byte */
    uint32_t refusal;      /* what the call returns if the slice is shorter */
    size_t length;         /* bytes lent */
    bool null;             /* lent as a null pointer, with length 0 */
};

struct trial {
    const char *name;
    uint32_t (*call)(const struct trial *trial, uint8_t *const *bytes);
    size_t start; /* for the search */
    size_t slices;
    struct slice slice[SLICES];
};

/* A slice that is read, and one that is written, both as long as needed. */
struct slice lent_in(const char *name, const uint8_t *before, size_t count, size_t unit, uint32_t refusal);
struct slice lent_out(const char *name, const uint8_t *after, size_t count, size_t unit, uint32_t refusal);

/* Makes the call, and checks what it returns and every byte of every slice. */
#define EXPECT(trial, returns) expect((trial), (returns), __FILE__, __LINE__)
void expect(const struct trial *trial, uint32_t returns, const char *file, int line);

/* The call as it stands, which must answer, then with each slice, and each two, shorter, and with each longer. */
#define VARY(trial) vary((trial), __FILE__, __LINE__)
void vary(const struct trial *trial, const char *file, int line);

#endif
