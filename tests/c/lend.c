#define _DEFAULT_SOURCE
#include "lend.h"

#include "check.h"

#include <stdio.h>
#include <stdlib.h>
#include <string.h>
#include <sys/mman.h>
#include <unistd.h>

enum place { AT_END, AT_START };

/* The pages of a lent slice. */
struct pages {
    uint8_t *map;   /* with the two that nobody may touch */
    uint8_t *open;  /* those between */
    uint8_t *was;   /* what they held before the call */
    size_t length;  /* of `open` */
    uint8_t *bytes; /* the slice */
};

static void *have(void *memory)
{
    if (memory == NULL || memory == MAP_FAILED) {
        perror("memory for a slice");
        exit(2);
    }
    return memory;
}

static uint8_t filler(size_t i)
{
    return (uint8_t)(0xA5u ^ (i * 7u));
}

static struct pages map_slice(const struct slice *s, enum place place)
{
    size_t page = (size_t)sysconf(_SC_PAGESIZE);
    struct pages p;
    p.length = (s->length / page + 2) * page;
    p.map = have(mmap(NULL, p.length + 2 * page, PROT_NONE, MAP_PRIVATE | MAP_ANONYMOUS, -1, 0));
    p.open = p.map + page;
    if (mprotect(p.open, p.length, PROT_READ | PROT_WRITE) != 0)
        have(NULL);
    p.bytes = place == AT_END ? p.open + (p.length - s->length) : p.open;
    for (size_t i = 0; i < p.length; i++)
        p.open[i] = filler(i);
    if (s->before != NULL)
        memcpy(p.bytes, s->before, s->count < s->length ? s->count : s->length);
    p.was = have(malloc(p.length));
    memcpy(p.was, p.open, p.length);
    return p;
}

static void unmap_slice(struct pages *p)
{
    free(p->was);
    munmap(p->map, p->length + 2 * (size_t)sysconf(_SC_PAGESIZE));
}

/* Whether the open pages hold what they should after the call. */
static bool left_right(const struct slice *s, const struct pages *p, bool answered)
{
    if (answered && s->after != NULL)
        memcpy(p->was + (p->bytes - p->open), s->after, s->count);
    return memcmp(p->was, p->open, p->length) == 0;
}

static void expect_at(const struct trial *t, uint32_t returns, enum place place, const char *file, int line)
{
    struct pages pages[SLICES];
    uint8_t *bytes[SLICES];
    const char *side = place == AT_END ? "end" : "start";
    for (size_t i = 0; i < t->slices; i++) {
        pages[i] = map_slice(&t->slice[i], place);
        bytes[i] = t->slice[i].null ? NULL : pages[i].bytes;
    }
    uint32_t got = t->call(t, bytes);
    check(got == returns, file, line, "%s: returned %u, not %u", t->name, (unsigned)got, (unsigned)returns);
    for (size_t i = 0; i < t->slices; i++) {
        bool right = left_right(&t->slice[i], &pages[i], returns == 0 && got == 0);
        check(right, file, line, "%s: %s (%zu bytes, at the %s of its pages) is not as it should be", t->name, t->slice[i].name,
              t->slice[i].length, side);
        unmap_slice(&pages[i]);
    }
}

void expect(const struct trial *t, uint32_t returns, const char *file, int line)
{
    expect_at(t, returns, AT_END, file, line);
    expect_at(t, returns, AT_START, file, line);
}

/* The call with slice i of another length. */
static void with_length(const struct trial *t, size_t i, size_t length, bool null, const char *file, int line)
{
    struct trial other = *t;
    char name[128];
    struct slice *s = &other.slice[i];
    s->length = length;
    s->null = null;
    snprintf(name, sizeof name, "%s, %zu bytes of %s%s", t->name, length, s->name, null ? " (null)" : "");
    other.name = name;
    expect(&other, length < s->count ? s->refusal : 0, file, line);
}

/* The call with both slices i and j a byte too short: 10 comes before 9. */
static void with_both_short(const struct trial *t, size_t i, size_t j, const char *file, int line)
{
    struct trial other = *t;
    char name[128];
    struct slice *s = &other.slice[i], *r = &other.slice[j];
    s->length = s->count - 1;
    r->length = r->count - 1;
    snprintf(name, sizeof name, "%s, %s and %s short", t->name, s->name, r->name);
    other.name = name;
    expect(&other, s->refusal > r->refusal ? s->refusal : r->refusal, file, line);
}

static void vary_length(const struct trial *t, size_t i, const char *file, int line)
{
    size_t count = t->slice[i].count, unit = t->slice[i].unit;
    size_t longer[] = { 1, unit, unit + 1, 64 };
    with_length(t, i, 0, false, file, line);
    with_length(t, i, 0, true, file, line);
    if (count > 0) {
        with_length(t, i, count - 1, false, file, line);
        with_length(t, i, count - unit, false, file, line);
    }
    for (size_t k = 0; k < sizeof longer / sizeof *longer; k++)
        with_length(t, i, count + longer[k], false, file, line);
}

void vary(const struct trial *t, const char *file, int line)
{
    expect(t, 0, file, line);
    for (size_t i = 0; i < t->slices; i++) {
        if (t->slice[i].unit == 0)
            continue;
        vary_length(t, i, file, line);
        for (size_t j = 0; j < i; j++)
            if (t->slice[j].unit != 0 && t->slice[i].count > 0 && t->slice[j].count > 0)
                with_both_short(t, i, j, file, line);
    }
}

struct slice lent_in(const char *name, const uint8_t *before, size_t count, size_t unit, uint32_t refusal)
{
    struct slice s = { name, before, NULL, count, unit, refusal, count, false };
    return s;
}

struct slice lent_out(const char *name, const uint8_t *after, size_t count, size_t unit, uint32_t refusal)
{
    struct slice s = { name, NULL, after, count, unit, refusal, count, false };
    return s;
}
