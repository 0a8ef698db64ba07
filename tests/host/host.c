/* Tries the library from C. Judges the logs of a file, one to a line, a name and its bytes in hexadecimal ("-" for none), and logs
 * that are too long to be written out: prints for each its name, the judge's number and the entry at fault. Then runs the run files of
 * a second file, a name, the room for the log, and bytes, and the longest: prints for each its name, how many bytes were written, the
 * report, and where it was run the judge's number and entry, the log and the queues that are not all 0. Then gives the library the
 * racks of a third file, a name, the room for the logs, the room for the replies, and bytes: prints for each its name, the rack's number,
 * and all bytes of both buffers; and racks of many files: prints whether both buffers are as single calls leave them. */
#include <stdio.h>
#include <stdlib.h>
#include <string.h>

#include "scarpgoblet.h"

enum { HEAD = 5, ENTRY = 12, MOST = 256, PROCESSES = 8, SCRIPT = 32, STEPS = 4096, ROW = 67, TABLE = PROCESSES * ROW, UNTOUCHED = 0xA5 };

static uint8_t buffer[8192]; /* longer than any good log or run file */

static size_t put_two(size_t at, unsigned x)
{
    buffer[at] = (uint8_t)(x / 256);
    buffer[at + 1] = (uint8_t)(x % 256);
    return at + 2;
}

static size_t put(size_t at, const uint8_t *bytes, size_t n)
{
    memcpy(buffer + at, bytes, n);
    return at + n;
}

/* The bytes of a word in hexadecimal, into the buffer; gives their number. */
static size_t bytes_of(const char *hex)
{
    size_t n = 0;
    if (strcmp(hex, "-") == 0) {
        return 0;
    }
    for (; n < sizeof buffer && hex[2 * n] != 0 && hex[2 * n + 1] != 0; n++) {
        char pair[3] = {hex[2 * n], hex[2 * n + 1], 0};
        buffer[n] = (uint8_t)strtoul(pair, NULL, 16);
    }
    return n;
}

/* ---- the judge */

static void judge(const char *name, size_t length)
{
    static uint8_t copy[sizeof buffer];
    memcpy(copy, buffer, length);
    printf("%s %u %u\n", name, (unsigned)scarpgoblet_judge(buffer, length), (unsigned)scarpgoblet_judge_entry(buffer, length));
    if (memcmp(copy, buffer, length) != 0) {
        printf("%s was written to\n", name);
    }
}

/* A log of one process that pops n times at the bottom of its empty queue, a step each. */
static size_t pops(unsigned n)
{
    size_t at = put_two(put(0, (const uint8_t[]){2, 1, 4}, 3), n);
    for (unsigned i = 0; i < n; i++) {
        at = put(at, (const uint8_t[]){0, 0, 2, 0}, 4);
        at = put_two(at, 0);
        at = put_two(at, i);
        at = put_two(at, i);
        at = put_two(at, 2 * i);
    }
    return at;
}

static void long_logs(void)
{
    judge("pops-256", pops(MOST));
    judge("pops-257", pops(MOST + 1));
    judge("pops-256-short", pops(MOST) - 1);
    size_t whole = pops(MOST);
    put_two(whole - 2, 2 * (MOST - 1) + 2);
    judge("pops-256-late-moment", whole);
}

/* ---- the bench */

static struct {
    uint8_t log[SCARPGOBLET_LOG_MOST + 1];
    uint16_t report[4];
    uint16_t table[TABLE];
} lent;

static size_t run(const char *name, size_t length, size_t room)
{
    static uint8_t copy[sizeof buffer];
    memcpy(copy, buffer, length);
    memset(&lent, UNTOUCHED, sizeof lent);
    size_t wrote = scarpgoblet_run(buffer, length, lent.log, room, lent.report, lent.table);
    printf("%s wrote %zu, report %u %u %u %u", name, wrote, lent.report[0], lent.report[1], lent.report[2], lent.report[3]);
    if (memcmp(copy, buffer, length) != 0) {
        printf(", THE FILE WAS WRITTEN TO");
    }
    for (size_t i = wrote; i < sizeof lent.log; i++) {
        if (lent.log[i] != UNTOUCHED) {
            printf(", BYTE %zu AFTER THE LOG WAS WRITTEN TO", i);
        }
    }
    return wrote;
}

static void show_verdict(size_t wrote)
{
    printf(", judge %u %u", (unsigned)scarpgoblet_judge(lent.log, wrote), (unsigned)scarpgoblet_judge_entry(lent.log, wrote));
}

static void show_bytes(const char *what, const uint8_t *bytes, size_t n)
{
    printf(", %s %s", what, n == 0 ? "-" : "");
    for (size_t i = 0; i < n; i++) {
        printf("%02x", bytes[i]);
    }
}

/* A queue that is not all 0: bottom, top, tag, and its slots up to the last that is not 0. */
static void show_queue(int q)
{
    const uint16_t *row = lent.table + ROW * q;
    int shown = ROW;
    while (shown > 0 && row[shown - 1] == 0) {
        shown--;
    }
    if (shown == 0) {
        return;
    }
    printf(", queue %d:", q);
    for (int i = 0; i < shown || i < 3; i++) {
        printf(" %u", row[i]);
    }
}

static void run_and_show(const char *name, size_t length, size_t room)
{
    size_t wrote = run(name, length, room);
    if (lent.report[0] == 0) {
        show_verdict(wrote);
        show_bytes("log", lent.log, wrote);
    }
    for (int q = 0; q < PROCESSES; q++) {
        show_queue(q);
    }
    printf("\n");
}

/* K9: one process, no call, and a schedule of n steps. */
static size_t idle(unsigned n)
{
    size_t at = put_two(put(0, (const uint8_t[]){2, 8, 4, 1, 0, 0, 0}, 7), n);
    memset(buffer + at, 0, n);
    return at + n;
}

/* The longest file: each process pushes 32 nodes, 1 to 32 the first, and the processes step in turn. */
static size_t longest(void)
{
    size_t at = put(0, (const uint8_t[]){2, 16, 64, PROCESSES}, 4);
    memset(buffer + at, SCRIPT, PROCESSES);
    at = put_two(at + PROCESSES, MOST);
    for (unsigned i = 0; i < MOST; i++) {
        at = put_two(put(at, (const uint8_t[]){1}, 1), i + 1);
    }
    at = put_two(at, STEPS);
    for (unsigned i = 0; i < STEPS; i++) {
        at = put(at, (const uint8_t[]){(uint8_t)(i % PROCESSES)}, 1);
    }
    return at;
}

/* The longest file, but its last call pushes the node of its first. */
static size_t longest_repeating(void)
{
    size_t n = longest();
    put_two(n - STEPS - 4, 1);
    return n;
}

/* The longest file's log: push k of process p has the steps 8 * 3k + p, 8 * (3k + 1) + p and 8 * (3k + 2) + p. */
static size_t longest_log(void)
{
    size_t at = put_two(put(0, (const uint8_t[]){2, PROCESSES, 64}, 3), MOST);
    for (unsigned i = 0; i < MOST; i++) {
        unsigned k = i / PROCESSES, p = i % PROCESSES;
        at = put(at, (const uint8_t[]){(uint8_t)p, (uint8_t)p, 1, 1}, 4);
        at = put_two(at, SCRIPT * p + k + 1);
        at = put_two(at, 8 * 3 * k + p);
        at = put_two(at, 8 * (3 * k + 2) + p);
        at = put_two(at, 2 * (8 * (3 * k + 2) + p));
    }
    return at;
}

/* Whether each queue has bottom 32, top and tag 0, and its 32 nodes. */
static int longest_table(void)
{
    int right = 1;
    for (int i = 0; i < TABLE; i++) {
        int q = i / ROW, at = i % ROW, slot = at - 3;
        int wanted = at == 0 ? SCRIPT : at < 3 || slot >= SCRIPT ? 0 : SCRIPT * q + slot + 1;
        right = right && lent.table[i] == wanted;
    }
    return right;
}

/* Whether the log leaves in each queue what the table has, and in no other queue a node. */
static int longest_left(size_t wrote)
{
    int right = 1;
    for (int q = 0; q <= PROCESSES; q++) {
        uint16_t count[1] = {UNTOUCHED}, nodes[MOST];
        memset(nodes, UNTOUCHED, sizeof nodes);
        right = right && scarpgoblet_left(lent.log, wrote, (uint8_t)q, count, nodes) == 0 && count[0] == (q < PROCESSES ? SCRIPT : 0);
        for (int i = 0; i < MOST; i++) {
            right = right && nodes[i] == (i < count[0] ? SCRIPT * q + i + 1 : 0);
        }
    }
    return right;
}

/* A log that is cut: nothing is left of it. */
static int cut_left(size_t wrote)
{
    uint16_t count[1] = {UNTOUCHED}, nodes[MOST], none[MOST] = {0};
    memset(nodes, UNTOUCHED, sizeof nodes);
    return scarpgoblet_left(lent.log, wrote - 1, 0, count, nodes) == 11 && count[0] == 0 && memcmp(nodes, none, sizeof nodes) == 0;
}

static void long_files(void)
{
    run_and_show("K9-4096", idle(STEPS), HEAD);
    run_and_show("K9-4097", idle(STEPS + 1), HEAD);
    run_and_show("longest-a-byte-short-of-room", longest(), SCARPGOBLET_LOG_MOST - 1);
    run_and_show("longest-a-byte-short", longest() - 1, SCARPGOBLET_LOG_MOST);
    run_and_show("longest-a-byte-more", longest() + 1, SCARPGOBLET_LOG_MOST);
    run_and_show("longest-with-its-first-node-last", longest_repeating(), SCARPGOBLET_LOG_MOST);
    size_t wrote = run("longest", longest(), SCARPGOBLET_LOG_MOST);
    show_verdict(wrote);
    printf(", log %s", wrote == longest_log() && memcmp(buffer, lent.log, wrote) == 0 ? "right" : "wrong");
    printf(", table %s", longest_table() ? "right" : "wrong");
    printf(", left %s, cut %s\n", longest_left(wrote) ? "right" : "wrong", cut_left(wrote) ? "right" : "wrong");
}

/* ---- the rack */

enum { REPLY = 8, FILES_MOST = 65535, FILE_MOST = 65535, LENT_LOG = 238, LENT_REPLIES = 221 };

static struct {
    uint8_t bytes[1 << 18];
    size_t length, files;
} rack;

struct buffers {
    uint8_t log[SCARPGOBLET_LOG_MOST + 1];
    uint8_t replies[REPLY * FILES_MOST + 1];
};

static struct buffers racked, single;

static void lend(struct buffers *b)
{
    memset(b->log, LENT_LOG, sizeof b->log);
    memset(b->replies, LENT_REPLIES, sizeof b->replies);
}

static void give_rack(const char *name, size_t room, size_t space)
{
    static uint8_t copy[sizeof rack.bytes];
    memcpy(copy, rack.bytes, rack.length);
    lend(&racked);
    printf("%s rack %u", name, (unsigned)scarpgoblet_rack(rack.bytes, rack.length, racked.log, room, racked.replies, space));
    if (memcmp(copy, rack.bytes, rack.length) != 0) {
        printf(", THE RACK WAS WRITTEN TO");
    }
    if (racked.log[room] != LENT_LOG || racked.replies[space] != LENT_REPLIES) {
        printf(", A BYTE AFTER A BUFFER WAS WRITTEN TO");
    }
}

static void rack_and_show(const char *name, size_t room, size_t space)
{
    give_rack(name, room, space);
    show_bytes("replies", racked.replies, space);
    show_bytes("log", racked.log, room);
    printf("\n");
}

/* Puts a count or a length at a place of the rack. */
static void count_at(size_t at, size_t x)
{
    rack.bytes[at] = (uint8_t)(x / 256);
    rack.bytes[at + 1] = (uint8_t)(x % 256);
}

static void empty_rack(void)
{
    rack.length = 2;
    rack.files = 0;
    count_at(0, 0);
}

static void add_file(const uint8_t *file, size_t n)
{
    if (sizeof rack.bytes - rack.length < n + 2) {
        fprintf(stderr, "host: the rack has no room\n");
        exit(2);
    }
    count_at(rack.length, n);
    memcpy(rack.bytes + rack.length + 2, file, n);
    rack.length += n + 2;
    count_at(0, ++rack.files);
}

/* Runs and judges one file; gives where its reply ends. */
static uint8_t *reply_singly(const uint8_t *file, size_t n, size_t room, uint8_t *reply)
{
    uint16_t report[4];
    size_t wrote = scarpgoblet_run(file, n, single.log, room, report, lent.table);
    *reply++ = (uint8_t)report[0];
    for (int i = 1; i < 4; i++) {
        *reply++ = (uint8_t)(report[i] / 256);
        *reply++ = (uint8_t)(report[i] % 256);
    }
    *reply++ = report[0] == 0 ? (uint8_t)scarpgoblet_judge(single.log, wrote) : 0;
    return reply;
}

static void all_singly(size_t room)
{
    lend(&single);
    uint8_t *reply = single.replies;
    for (size_t at = 2; at < rack.length;) {
        size_t n = 256u * rack.bytes[at] + rack.bytes[at + 1];
        reply = reply_singly(rack.bytes + at + 2, n, room, reply);
        at += 2 + n;
    }
}

/* Compares both buffers with what single calls left there, or with the bytes that were lent. */
static void rack_and_compare(const char *name, size_t room, size_t space)
{
    give_rack(name, room, space);
    printf(", replies %s", memcmp(racked.replies, single.replies, sizeof racked.replies) == 0 ? "right" : "wrong");
    printf(", log %s\n", memcmp(racked.log, single.log, sizeof racked.log) == 0 ? "right" : "wrong");
}

/* The run files of the second file over and over, each time with the longest file after them. */
static void fill_rack(FILE *runs, size_t files)
{
    char hex[1024];
    empty_rack();
    rewind(runs);
    while (rack.files < files) {
        if (fscanf(runs, "%*s %*u %1023s", hex) == 1) {
            add_file(buffer, bytes_of(hex));
        } else {
            add_file(buffer, longest());
            rewind(runs);
        }
    }
}

static void many_files(FILE *runs)
{
    const size_t replies = REPLY * 300;
    fill_rack(runs, 300);
    all_singly(SCARPGOBLET_LOG_MOST);
    rack_and_compare("300-files", SCARPGOBLET_LOG_MOST, replies);
    rack_and_compare("300-files-and-room-to-spare", SCARPGOBLET_LOG_MOST, replies + 5);
    all_singly(40);
    rack_and_compare("300-files-little-room", 40, replies);
    lend(&single);
    rack_and_compare("300-files-a-reply-byte-short", SCARPGOBLET_LOG_MOST, replies - 1);
    rack.length--;
    rack_and_compare("300-files-a-byte-short", SCARPGOBLET_LOG_MOST, replies);
}

static void fill_with_empty_files(size_t files)
{
    empty_rack();
    while (rack.files < files) {
        add_file(buffer, 0);
    }
}

/* Eight times 8,192 is 0 in two bytes; 65,535 is the most that a count can be. */
static void empty_files(void)
{
    fill_with_empty_files(8192);
    lend(&single);
    rack_and_compare("8192-empty-files-no-room", HEAD, 0);
    fill_with_empty_files(FILES_MOST);
    all_singly(HEAD);
    rack_and_compare("65535-empty-files", HEAD, REPLY * FILES_MOST);
}

/* The longest good file, and K8 with as many bytes after it as a length can count. */
static void long_files_of_a_rack(void)
{
    static uint8_t file[FILE_MOST];
    empty_rack();
    add_file(buffer, longest());
    memcpy(file, buffer, idle(0));
    add_file(file, FILE_MOST);
    give_rack("longest-and-65535-bytes", SCARPGOBLET_LOG_MOST, REPLY * 2 + 1);
    show_bytes("replies", racked.replies, REPLY * 2 + 1);
    printf(", log %s\n", memcmp(buffer, racked.log, longest_log()) == 0 ? "right" : "wrong");
}

/* ---- */

static FILE *opened(const char *name)
{
    FILE *file = fopen(name, "r");
    if (file == NULL) {
        perror(name);
        exit(2);
    }
    return file;
}

static size_t at_most(size_t most, size_t n)
{
    return n <= most ? n : most;
}

static void judge_logs(FILE *logs)
{
    char name[64], hex[1024];
    while (fscanf(logs, "%63s %1023s", name, hex) == 2) {
        judge(name, bytes_of(hex));
    }
}

static void run_files(FILE *runs)
{
    char name[64], hex[1024];
    size_t room;
    while (fscanf(runs, "%63s %zu %1023s", name, &room, hex) == 3) {
        run_and_show(name, bytes_of(hex), at_most(SCARPGOBLET_LOG_MOST, room));
    }
}

static void give_racks(FILE *racks)
{
    char name[64], hex[1024];
    size_t room, space;
    while (fscanf(racks, "%63s %zu %zu %1023s", name, &room, &space, hex) == 4) {
        rack.length = bytes_of(hex);
        memcpy(rack.bytes, buffer, rack.length);
        rack_and_show(name, at_most(SCARPGOBLET_LOG_MOST, room), at_most(REPLY * FILES_MOST, space));
    }
}

int main(int argc, char **argv)
{
    if (argc != 4) {
        fprintf(stderr, "usage: host LOGS RUNS RACKS\n");
        return 2;
    }
    FILE *logs = opened(argv[1]), *runs = opened(argv[2]), *racks = opened(argv[3]);
    judge_logs(logs);
    long_logs();
    run_files(runs);
    long_files();
    give_racks(racks);
    many_files(runs);
    empty_files();
    long_files_of_a_rack();
    fclose(logs);
    fclose(runs);
    fclose(racks);
    return 0;
}
