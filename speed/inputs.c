#include "inputs.h"

#include <string.h>

enum { NIL, DONE, FULL, PUSH = 1, BOTTOM_POP, TOP_POP, NO_MOMENT = 65535 };

struct entry {
    unsigned process, queue, kind, result, node, start, end, moment;
};

struct worst {
    const char *name;
    struct entry (*entry)(unsigned i, unsigned n);
};

static uint32_t seed = 1;

static unsigned random_below(unsigned n) {
    seed = seed * 1664525u + 1013904223u;
    return (seed >> 8) % n;
}

static void put(uint8_t *at, unsigned x) { at[0] = (uint8_t)(x / 256), at[1] = (uint8_t)x; }

size_t make_file(uint8_t *f, unsigned p, unsigned calls, const char *codes, unsigned steps) {
    size_t at = 4 + p;
    unsigned node = 1;
    f[0] = 2, f[1] = 8, f[2] = 64, f[3] = (uint8_t)p;
    memset(f + 4, (int)calls, p);
    put(f + at, p * calls), at += 2;
    for (unsigned k = 0; k < p * calls; k++, at += 3) {
        unsigned code = (unsigned)(codes[random_below((unsigned)strlen(codes))] - '0');
        f[at] = (uint8_t)code;
        put(f + at + 1, code == PUSH ? node++ : code == TOP_POP ? random_below(p) : 0);
    }
    put(f + at, steps), at += 2;
    for (unsigned i = 0; i < steps; i++) f[at++] = (uint8_t)random_below(p);
    return at;
}

static struct entry falling_nodes(unsigned i, unsigned n) { return (struct entry){0, 0, PUSH, DONE, n - i, 3 * i, 3 * i + 2, 6 * i + 4}; }

static struct entry falling_moments(unsigned i, unsigned n) {
    unsigned p = i % 8, first = 2 * (i - p);
    (void)n;
    return (struct entry){p, p, PUSH, DONE, i + 1, first, first + 8 + p, 2 * (first + 7 - p)};
}

static struct entry first_moments_last(unsigned i, unsigned n) {
    unsigned p = i + 7 < n ? 0 : i + 8 - n, start = 8 + 3 * i;
    return (struct entry){p, p, PUSH, DONE, i + 1, p == 0 ? start : 0, start + 2, p == 0 ? 2 * start + 4 : p};
}

static struct entry wide_nils(unsigned i, unsigned n) {
    unsigned p = i % 8, first = 2 * (i - p);
    (void)n;
    return (struct entry){p, 0, TOP_POP, NIL, 0, first, first + 8 + p, NO_MOMENT};
}

static struct entry both_nils(unsigned i, unsigned n) {
    return i < n / 2 ? (struct entry){0, 0, BOTTOM_POP, NIL, 0, i, i, 2 * i} : (struct entry){1, 0, TOP_POP, NIL, 0, i, i, NO_MOMENT};
}

static struct entry full(unsigned i, unsigned n) {
    (void)n;
    return i == 0 ? (struct entry){0, 0, PUSH, DONE, 1, 0, 2, 4} : (struct entry){0, 0, PUSH, FULL, i + 1, i + 2, i + 2, NO_MOMENT};
}

static struct entry push_and_pop(unsigned i, unsigned n) {
    unsigned start = 4 * i;
    (void)n;
    return (struct entry){0, 0, i % 2 == 0 ? PUSH : BOTTOM_POP, DONE, i / 2 + 1, start, start + 3, 2 * start + 2};
}

static struct entry bottom_nils(unsigned i, unsigned n) {
    (void)n;
    return (struct entry){0, 0, BOTTOM_POP, NIL, 0, i, i, 2 * i};
}

static const struct worst worst[WORST] = {
    {"pushes of falling nodes", falling_nodes},
    {"moments that fall in blocks of 8", falling_moments},
    {"the first moments in the 7 last entries", first_moments_last},
    {"NIL top pops with wide windows", wide_nils},
    {"half bottom NIL, then half top NIL", both_nils},
    {"FULL throughout", full},
    {"push, pop, push, pop", push_and_pop},
    {"bottom NIL throughout", bottom_nils},
};

const char *worst_name(unsigned which) { return worst[which].name; }

size_t make_worst(uint8_t *log, unsigned which, unsigned n) {
    uint8_t *at = log + 5;
    log[0] = 2, log[1] = 8, log[2] = 1;
    put(log + 3, n);
    for (unsigned i = 0; i < n; i++, at += 12) {
        struct entry e = worst[which].entry(i, n);
        at[0] = (uint8_t)e.process, at[1] = (uint8_t)e.queue, at[2] = (uint8_t)e.kind, at[3] = (uint8_t)e.result;
        put(at + 4, e.node), put(at + 6, e.start), put(at + 8, e.end), put(at + 10, e.moment);
    }
    return 5 + 12 * n;
}
