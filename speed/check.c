/* Holds the plain programs to the library: reads the cases that the second implementation makes (tests/host/cases.c says how they are written),
 * racks apart, and counts those with another reply. A rival that does less work would be no measure. */
#include "plain.h"
#include "scarpgoblet.h"

#include <stdio.h>
#include <stdlib.h>
#include <string.h>

typedef size_t run_fn(const uint8_t *, size_t, uint8_t *, size_t, uint16_t *, uint16_t *);

enum { ROOM = 1 << 13, BYTES = 1 << 20, NUMBERS = 20 };

struct reply {
    uint8_t log[ROOM];
    uint16_t report[4], table[536];
    size_t length;
};

static unsigned met[NUMBERS];

static void get(uint8_t *bytes, size_t n) {
    if (n > BYTES || fread(bytes, 1, n, stdin) != n) {
        fprintf(stderr, "check: a case ends early, or is too long\n");
        exit(2);
    }
}

static size_t get_number(void) {
    uint8_t b[4];
    get(b, sizeof b);
    return (size_t)b[0] << 24 | (size_t)b[1] << 16 | (size_t)b[2] << 8 | b[3];
}

static int judges_differ(const uint8_t *log, size_t n) {
    uint32_t number = scarpgoblet_judge(log, n);
    met[number]++;
    return number != plain_judge(log, n) || scarpgoblet_judge_entry(log, n) != plain_judge_entry(log, n);
}

/* Both begin with the same bytes, so that one left unwritten is seen. */
static void ran(run_fn *run, const uint8_t *file, size_t n, size_t room, struct reply *r) {
    memset(r, 0xA5, sizeof *r);
    r->length = run(file, n, r->log, room, r->report, r->table);
}

static int runs_differ(const uint8_t *file, size_t n, size_t room) {
    static struct reply proved, plain;
    ran(scarpgoblet_run, file, n, room, &proved), ran(plain_run, file, n, room, &plain);
    met[proved.report[0]] += proved.report[0] != 0;
    return memcmp(&proved, &plain, sizeof plain) != 0 || (proved.report[0] == 0 && judges_differ(proved.log, proved.length));
}

static int differs(int letter) {
    static uint8_t bytes[BYTES];
    size_t room = letter == 'J' ? 0 : get_number();
    if (letter == 'K') get_number();
    size_t n = get_number();
    get(bytes, n);
    return letter == 'J' ? judges_differ(bytes, n) : letter == 'R' && runs_differ(bytes, n, room < ROOM ? room : ROOM);
}

int main(void) {
    unsigned cases = 0, different = 0;
    for (int letter = getchar(); letter != EOF; letter = getchar(), cases++)
        if (differs(letter)) printf("case %u differs\n", cases), different++;
    printf("check: %u cases, %u differ; numbers met:", cases, different);
    for (unsigned i = 0; i < NUMBERS; i++)
        if (met[i] > 0) printf(" %u (%u)", i, met[i]);
    printf("\n");
    return different != 0 || cases == 0;
}
