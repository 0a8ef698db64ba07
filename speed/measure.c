/* Times the proved bench and judge against plain ones in C and the second implementation, in Rust, on the same files and logs, and one call of
 * the rack against single calls, in turn, in one run, and prints the ratios; then how the times grow. `measure count JOB PROGRAM TIMES` does
 * one job by one program so many times, for a counter of instructions, and prints its name; exit status 1 where there is no such job. */
#include "inputs.h"
#include "plain.h"
#include "scarpgoblet.h"

#include <stdbool.h>
#include <stdio.h>
#include <stdlib.h>
#include <string.h>
#include <time.h>

typedef size_t run_fn(const uint8_t *, size_t, uint8_t *, size_t, uint16_t *, uint16_t *);
typedef uint32_t judge_fn(const uint8_t *, size_t);

run_fn second_run;
judge_fn second_judge;

enum { ROUNDS = 40, TIMES = 50, TABLE = 536, FILES = 300, REPLY = 8, BENCH_JOBS = 10, JOBS = BENCH_JOBS + WORST };

enum program { PROVED, C, RUST, PROGRAMS };

static run_fn *const runs[PROGRAMS] = {scarpgoblet_run, plain_run, second_run};
static judge_fn *const judges[PROGRAMS] = {scarpgoblet_judge, plain_judge, second_judge};

enum work { RUN, JUDGE, BOTH };

/* A file to run, a log to judge, or a file to run whose log is judged. */
struct job {
    enum work work;
    const char *name;
    unsigned calls;
    size_t file_len, log_len;
    uint8_t file[FILE_MOST], log[SCARPGOBLET_LOG_MOST];
};

struct reply {
    uint8_t log[SCARPGOBLET_LOG_MOST];
    uint16_t report[4], table[TABLE];
    size_t length;
    uint32_t number;
};

struct racked {
    uint8_t log[SCARPGOBLET_LOG_MOST], replies[REPLY * FILES];
};

typedef void rack_fn(const uint8_t *, size_t, struct racked *);

static const char *const work_names[] = {"run", "judge", "run and judge"};

static void do_job(const struct job *j, enum program p, struct reply *r) {
    if (j->work != JUDGE) r->length = runs[p](j->file, j->file_len, r->log, sizeof r->log, r->report, r->table);
    if (j->work == JUDGE) r->number = judges[p](j->log, j->log_len);
    if (j->work == BOTH) r->number = judges[p](r->log, r->length);
}

static void bench_job(struct job *j, enum work work, const char *name, unsigned processes, unsigned calls, const char *codes, unsigned steps) {
    static struct reply r;
    j->work = work, j->name = name, j->calls = processes * calls;
    j->file_len = make_file(j->file, processes, calls, codes, steps);
    j->log_len = scarpgoblet_run(j->file, j->file_len, j->log, sizeof j->log, r.report, r.table);
}

static void worst_job(struct job *j, unsigned which, unsigned entries) {
    j->work = JUDGE, j->name = worst_name(which), j->calls = entries;
    j->log_len = make_worst(j->log, which, entries);
}

static void make_job(struct job *j, unsigned k) {
    switch (k) {
    case 0: bench_job(j, RUN, "a full file (8 processes, 32 calls each, 4,096 steps)", 8, 32, "123", 4096); break;
    case 1: bench_job(j, RUN, "a morning's file (3 processes, 10 calls each, 150 steps)", 3, 10, "123", 150); break;
    case 2: bench_job(j, RUN, "four calls (2 processes, 2 calls each, 12 steps)", 2, 2, "123", 12); break;
    case 3: bench_job(j, RUN, "256 pushes (8 processes, 32 pushes each, no step)", 8, 32, "1", 0); break;
    case 4: bench_job(j, BOTH, "four calls (2 processes, 2 calls each, 12 steps)", 2, 2, "123", 12); break;
    case 5: bench_job(j, JUDGE, "a full log (256 entries)", 8, 32, "123", 4096); break;
    case 6: bench_job(j, JUDGE, "a full log of pushes and top pops", 8, 32, "13", 4096); break;
    case 7: bench_job(j, JUDGE, "a morning's log (30 entries)", 3, 10, "123", 150); break;
    case 8: bench_job(j, JUDGE, "four entries", 2, 2, "123", 64); break;
    case 9: bench_job(j, JUDGE, "no entry", 1, 0, "1", 0); break;
    default: worst_job(j, k - BENCH_JOBS, 256);
    }
}

static double now(void) {
    struct timespec t;
    clock_gettime(CLOCK_PROCESS_CPUTIME_ID, &t);
    return (double)t.tv_sec * 1e9 + (double)t.tv_nsec;
}

static double time_of(const struct job *j, enum program p) {
    static struct reply r;
    double start = now();
    for (unsigned i = 0; i < TIMES; i++) do_job(j, p, &r);
    return (now() - start) / TIMES;
}

static void least(double *x, double y) {
    if (y < *x) *x = y;
}

/* The least times of the programs up to the one given, in turn. */
static void times_of(const struct job *j, enum program last, double times[PROGRAMS]) {
    for (unsigned p = 0; p <= last; p++) times[p] = 1e18;
    for (unsigned k = 0; k < ROUNDS * (last + 1); k++) least(&times[k % (last + 1)], time_of(j, k % (last + 1)));
}

/* Of all programs; and a log to judge has all its calls and is accepted, as its name says. */
static bool replies_agree(const struct job *j) {
    static struct reply replies[PROGRAMS];
    memset(replies, 0, sizeof replies);
    for (unsigned p = 0; p < PROGRAMS; p++) do_job(j, p, &replies[p]);
    return !memcmp(&replies[PROVED], &replies[C], sizeof *replies) && !memcmp(&replies[PROVED], &replies[RUST], sizeof *replies)
        && (j->work == RUN || replies[PROVED].number == 0) && (j->work != JUDGE || j->log_len == 5 + 12 * j->calls);
}

static int compare(const struct job *j) {
    double t[PROGRAMS];
    if (!replies_agree(j)) {
        printf("%s, %s: the replies differ, or the log is not accepted or lacks calls\n", work_names[j->work], j->name);
        return 1;
    }
    times_of(j, RUST, t);
    printf("%s, %s: proved %.0f ns; C %.0f ns, ratio %.2f; Rust %.0f ns, ratio %.2f\n", work_names[j->work], j->name, t[PROVED], t[C],
           t[PROVED] / t[C], t[RUST], t[PROVED] / t[RUST]);
    return 0;
}

static int compare_jobs(void) {
    static struct job j;
    int differ = 0;
    for (unsigned k = 0; k < JOBS; k++) make_job(&j, k), differ |= compare(&j);
    return differ;
}

/* A file of n calls, its log, or a worst log of n entries. */
static void grown_job(struct job *j, unsigned k, unsigned n) {
    if (k < 2) bench_job(j, k == 0 ? RUN : JUDGE, "8 processes, 16 steps a call", 8, n / 8, "123", 16 * n);
    else worst_job(j, k - 2, n);
}

static void print_growth(unsigned k) {
    static struct job j;
    double t[PROGRAMS];
    for (unsigned n = 8; n <= 256; n *= 2) {
        grown_job(&j, k, n);
        times_of(&j, C, t);
        if (n == 8) printf("%s, %s, ns a call for 8, 16, .. 256 calls, proved (C):", work_names[j.work], j.name);
        printf(" %.1f (%.1f)", t[PROVED] / n, t[C] / n);
    }
    printf("\n");
}

static size_t make_rack(uint8_t *rack) {
    size_t at = 2;
    rack[0] = FILES / 256, rack[1] = FILES % 256;
    for (unsigned i = 0; i < FILES; i++) {
        size_t len = make_file(rack + at + 2, 3, 10, "123", 150);
        rack[at] = (uint8_t)(len / 256), rack[at + 1] = (uint8_t)len;
        at += 2 + len;
    }
    return at;
}

static void one_call(const uint8_t *rack, size_t len, struct racked *r) {
    scarpgoblet_rack(rack, len, r->log, sizeof r->log, r->replies, sizeof r->replies);
}

/* What a host does without the rack, for the same eight bytes a file. */
static void single_calls(const uint8_t *rack, size_t len, struct racked *r) {
    uint16_t report[4], table[TABLE];
    uint8_t *reply = r->replies;
    for (size_t at = 2; at < len; reply += REPLY) {
        size_t n = 256u * rack[at] + rack[at + 1];
        size_t written = scarpgoblet_run(rack + at + 2, n, r->log, sizeof r->log, report, table);
        reply[0] = (uint8_t)report[0];
        reply[1] = (uint8_t)(report[1] / 256), reply[2] = (uint8_t)report[1];
        reply[3] = (uint8_t)(report[2] / 256), reply[4] = (uint8_t)report[2];
        reply[5] = (uint8_t)(report[3] / 256), reply[6] = (uint8_t)report[3];
        reply[7] = report[0] == 0 ? (uint8_t)scarpgoblet_judge(r->log, written) : 0;
        at += 2 + n;
    }
}

static double rack_time(rack_fn *calls, const uint8_t *rack, size_t len) {
    static struct racked r;
    double start = now();
    calls(rack, len, &r);
    return now() - start;
}

static int compare_racks(void) {
    static uint8_t rack[2 + FILES * (2 + FILE_MOST)];
    static struct racked one, singles;
    size_t len = make_rack(rack);
    one_call(rack, len, &one), single_calls(rack, len, &singles);
    if (memcmp(&one, &singles, sizeof one)) {
        printf("rack: the replies differ\n");
        return 1;
    }
    double x = 1e18, y = 1e18;
    for (unsigned round = 0; round < ROUNDS; round++)
        least(&x, rack_time(one_call, rack, len)), least(&y, rack_time(single_calls, rack, len));
    printf("rack, %d of the morning's files: one call %.0f ns, %d single calls of run and judge %.0f ns, ratio %.2f\n", FILES, x, FILES, y, x / y);
    return 0;
}

static int count(unsigned k, unsigned p, unsigned times) {
    static struct job j;
    static struct reply r;
    if (k >= JOBS || p >= PROGRAMS) return 1;
    for (unsigned i = 0; i <= k; i++) make_job(&j, i); /* in turn, for the same bytes as are timed */
    for (unsigned i = 0; i < times; i++) do_job(&j, p, &r);
    printf("%s, %s\n", work_names[j.work], j.name);
    return 0;
}

int main(int words, char **word) {
    if (words == 5 && !strcmp(word[1], "count")) return count((unsigned)atoi(word[2]), (unsigned)atoi(word[3]), (unsigned)atoi(word[4]));
    int differ = compare_jobs() | compare_racks();
    for (unsigned k = 0; k < 2 + WORST; k++) print_growth(k);
    return differ;
}
