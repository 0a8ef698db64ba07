/* A queue is its row of the caller's table from the start, so that nothing is copied at the end. A process has its next call loaded as soon as
 * one ends, so that a step need not ask whether one begins. When no process has a call left, the rest of the schedule is idle: it is counted,
 * not walked through. */
#include "plain.h"

#include <stdbool.h>
#include <string.h>

enum stage { P1, P2, P3, T1, T2, T3, T4, B1, B2, B3, B4, B5, B6, B7 };

enum { BOTTOM, TOP, TAG, SLOTS, ROW = 67, TABLE = 8 * ROW };

struct process {
    enum stage stage;
    unsigned queue, kind, node, b, x, t, g, start, back, seen;
    const uint8_t *next, *stop;
};

struct run {
    struct process processes[8];
    unsigned resets[8], mask, size, live, gone;
    uint16_t *table;
    uint8_t *entry;
};

static inline unsigned two(const uint8_t *at) { return (unsigned)at[0] << 8 | at[1]; }

/* The number that refuses the calls, 0 for none. */
static unsigned check_calls(const uint8_t *call, unsigned n, unsigned p) {
    uint8_t marks[8192] = {0};
    for (const uint8_t *stop = call + 3 * n; call < stop; call += 3) {
        unsigned code = call[0], argument = two(call + 1);
        if (code == 1) {
            unsigned bit = 1u << argument % 8;
            if (argument == 0 || marks[argument / 8] & bit) return 5;
            marks[argument / 8] |= (uint8_t)bit;
        } else if (code == 2 ? argument != 0 : code != 3 || argument >= p) {
            return 4;
        }
    }
    return 0;
}

/* Without an exit, which compilers make into a search of many bytes at once. */
static bool all_below(const uint8_t *bytes, unsigned n, uint8_t p) {
    uint8_t above = 0;
    for (unsigned i = 0; i < n; i++) above |= bytes[i] >= p;
    return !above;
}

/* The number that refuses the file, 0 for none. */
static unsigned check(const uint8_t *f, size_t len) {
    if (len < 1) return 1;
    if (f[0] != 2) return 2;
    if (len < 3) return 1;
    if (f[1] > 16 || f[2] < 1 || f[2] > 64) return 2;
    if (len < 4) return 1;
    unsigned p = f[3], sum = 0;
    if (p < 1 || p > 8) return 3;
    if (len < 4 + p) return 1;
    for (unsigned i = 0; i < p; i++) {
        if (f[4 + i] > 32) return 3;
        sum += f[4 + i];
    }
    if (len < 6 + p) return 1;
    unsigned n = two(f + 4 + p);
    if (n != sum) return 4;
    size_t at = 6 + p + 3 * n;
    if (len < at) return 1;
    unsigned number = check_calls(f + 6 + p, n, p);
    if (number != 0) return number;
    if (len < at + 2) return 1;
    unsigned m = two(f + at);
    if (m > 4096) return 6;
    if (len < at + 2 + m) return 1;
    if (!all_below(f + at + 2, m, (uint8_t)p)) return 6;
    return len > at + 2 + m ? 7 : 0;
}

static void put(uint8_t *at, unsigned x) {
    at[0] = (uint8_t)(x >> 8);
    at[1] = (uint8_t)x;
}

/* Loads the process's next call; without one the process is no longer live. */
static inline void load(struct run *r, unsigned p) {
    static const uint8_t first[] = {0, P1, B1, T1};
    struct process *c = &r->processes[p];
    const uint8_t *call = c->next;
    if (call == c->stop) {
        r->live &= ~(1u << p), c->stage = P1;
        return;
    }
    c->next = call + 3;
    c->kind = call[0];
    c->node = two(call + 1);
    c->queue = c->kind == 3 ? call[2] : p;
    c->stage = first[c->kind];
}

static inline void entry(struct run *r, unsigned p, unsigned result, unsigned node, unsigned end, unsigned moment) {
    struct process *c = &r->processes[p];
    uint8_t *at = r->entry;
    at[0] = (uint8_t)p, at[1] = (uint8_t)c->queue, at[2] = (uint8_t)c->kind, at[3] = (uint8_t)result;
    put(at + 4, node), put(at + 6, c->start), put(at + 8, end), put(at + 10, moment);
    r->entry = at + 12;
    load(r, p);
}

static inline void reset(struct run *r, const struct process *c, uint16_t *q) {
    q[TOP] = 0, q[TAG] = (uint16_t)((c->g + 1) & r->mask);
    r->resets[c->queue]++;
}

/* Of a taken node: where its owner is past B2 in a pop of the same, it left at that B2. */
static inline unsigned taken_at(const struct run *r, const struct process *c, unsigned n) {
    const struct process *owner = &r->processes[c->queue];
    return 2 * (owner->stage > B2 && owner->b - 1 == c->t ? owner->back : n);
}

static inline void step(struct run *r, unsigned p, unsigned n) {
    struct process *c = &r->processes[p];
    uint16_t *q = r->table + ROW * c->queue;
    bool same = q[TOP] == c->t && q[TAG] == c->g;
    switch (c->stage) {
    case P1:
        c->start = n, c->b = q[BOTTOM], c->stage = P2;
        if (c->b == r->size) entry(r, p, 2, c->node, n, 65535);
        break;
    case P2: q[SLOTS + c->b] = (uint16_t)c->node, c->stage = P3; break;
    case P3: q[BOTTOM] = (uint16_t)(c->b + 1), entry(r, p, 1, c->node, n, 2 * n); break;
    case T1: c->start = n, c->t = q[TOP], c->g = q[TAG], c->seen = r->resets[c->queue], c->stage = T2; break;
    case T2:
        c->stage = T3;
        if (q[BOTTOM] <= c->t) entry(r, p, 0, 0, n, 65535);
        break;
    case T3: c->x = q[SLOTS + c->t], c->stage = T4; break;
    case T4:
        if (same) q[TOP]++, r->gone += c->seen != r->resets[c->queue], entry(r, p, 1, c->x, n, taken_at(r, c, n));
        else entry(r, p, 3, 0, n, 65535);
        break;
    case B1:
        c->start = n, c->b = q[BOTTOM], c->stage = B2;
        if (c->b == 0) entry(r, p, 0, 0, n, 2 * n);
        break;
    case B2: q[BOTTOM] = (uint16_t)(c->b - 1), c->back = n, c->stage = B3; break;
    case B3: c->x = q[SLOTS + c->b - 1], c->stage = B4; break;
    case B4:
        c->t = q[TOP], c->g = q[TAG], c->stage = B5;
        if (c->b - 1 > c->t) entry(r, p, 1, c->x, n, 2 * c->back);
        break;
    case B5: q[BOTTOM] = 0, c->stage = c->b - 1 == c->t ? B6 : B7; break;
    case B6:
        if (same) reset(r, c, q), entry(r, p, 1, c->x, n, 2 * c->back);
        else c->stage = B7;
        break;
    case B7: reset(r, c, q), entry(r, p, 0, 0, n, 2 * c->back + 1); break;
    }
}

static void walk(struct run *r, const uint8_t *schedule, unsigned m) {
    for (unsigned i = 0; i < m && r->live != 0; i++)
        if (r->live >> schedule[i] & 1) step(r, schedule[i], i);
}

static bool begun(const struct process *c) { return c->stage != P1 && c->stage != T1 && c->stage != B1; }

/* Ends the process's call, without beginning its next one; gives the number of steps then. */
static unsigned finish(struct run *r, unsigned p, unsigned n) {
    for (; begun(&r->processes[p]); n++) step(r, p, n);
    return n;
}

static void begin(struct run *r, const uint8_t *f, unsigned p) {
    const uint8_t *call = f + 6 + p;
    memset(r->processes, 0, p * sizeof *r->processes);
    memset(r->resets, 0, sizeof r->resets);
    r->mask = (1u << f[1]) - 1, r->size = f[2], r->live = (1u << p) - 1, r->gone = 0;
    for (unsigned i = 0; i < p; i++) {
        r->processes[i].next = call;
        r->processes[i].stop = call += 3 * f[4 + i];
        load(r, i);
    }
}

size_t plain_run(const uint8_t *f, size_t len, uint8_t *log, size_t log_len, uint16_t report[4], uint16_t table[536]) {
    memset(report, 0, 4 * sizeof *report);
    memset(table, 0, TABLE * sizeof *table);
    report[0] = (uint16_t)check(f, len);
    if (report[0] != 0) return 0;
    unsigned p = f[3], n = two(f + 4 + p), m = two(f + 6 + p + 3 * n), steps = m;
    if (log_len < 5 + 12 * n) {
        report[0] = 8;
        return 0;
    }
    struct run r;
    r.table = table, r.entry = log + 5;
    begin(&r, f, p);
    walk(&r, f + 8 + p + 3 * n, m);
    for (unsigned i = 0; i < p; i++) steps = finish(&r, i, steps);
    size_t length = (size_t)(r.entry - log);
    log[0] = 2, log[1] = (uint8_t)p, log[2] = f[2];
    put(log + 3, (unsigned)(length - 5) / 12);
    report[1] = (uint16_t)((length - 5) / 12), report[2] = (uint16_t)steps, report[3] = (uint16_t)r.gone;
    return length;
}
