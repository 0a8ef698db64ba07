/* Replies to the cases on standard input, one line each, by the library. A case is a letter and what it is about, lengths in
 * four bytes, high byte first: R, the length of the buffer for the log, a run file's length, the run file; J, a log's length, the
 * log; or K, the lengths of the buffers for the logs and for the replies, a rack's length, the rack. Every file, log, rack and
 * buffer is given just its own bytes of memory, so that a memory checker sees a touch beyond them. */
#include <stdio.h>
#include <stdlib.h>
#include <string.h>

#include "scarpgoblet.h"

enum { PROCESSES = 8, ROW = 67, TABLE = PROCESSES * ROW, NODES = 256 };

static void give_up(const char *why)
{
    fflush(stdout);
    fprintf(stderr, "cases: %s\n", why);
    exit(2);
}

static uint8_t *room_for(size_t n)
{
    uint8_t *room = malloc(n > 0 ? n : 1); /* no pointer may be null */
    if (room == NULL) {
        give_up("no memory");
    }
    return room;
}

static void get(uint8_t *bytes, size_t n)
{
    if (n > 0 && fread(bytes, 1, n, stdin) != n) {
        give_up("a case ends early");
    }
}

static size_t get_number(void)
{
    uint8_t four[4];
    get(four, sizeof four);
    return (size_t)four[0] << 24 | (size_t)four[1] << 16 | (size_t)four[2] << 8 | four[3];
}

static uint8_t *get_counted(size_t *n)
{
    *n = get_number();
    uint8_t *bytes = room_for(*n);
    get(bytes, *n);
    return bytes;
}

static uint8_t *copy_of(const uint8_t *bytes, size_t n)
{
    uint8_t *copy = room_for(n);
    if (n > 0) {
        memcpy(copy, bytes, n);
    }
    return copy;
}

static void say_if_written(const uint8_t *bytes, const uint8_t *copy, size_t n)
{
    if (n > 0 && memcmp(bytes, copy, n) != 0) {
        printf(" written");
    }
}

/* What a buffer's byte holds before the run: no two neighbours are alike. */
static uint8_t before(size_t position)
{
    return (uint8_t)(position * 37 + 165);
}

static uint8_t *filled_room_for(size_t n)
{
    uint8_t *room = room_for(n);
    for (size_t i = 0; i < n; i++) {
        room[i] = before(i);
    }
    return room;
}

static void print_hex(const uint8_t *bytes, size_t n)
{
    if (n == 0) {
        putchar('-');
    }
    for (size_t i = 0; i < n; i++) {
        putchar("0123456789abcdef"[bytes[i] >> 4]);
        putchar("0123456789abcdef"[bytes[i] & 15]);
    }
}

static void print_table(const uint16_t *table)
{
    const char *between = "";
    for (size_t q = 0; q < PROCESSES; q++) {
        const uint16_t *row = table + ROW * q;
        size_t n = ROW;
        while (n > 0 && row[n - 1] == 0) {
            n--;
        }
        for (size_t i = 0; i < n; i++) {
            i == 0 ? printf("%s%zu:%u", between, q, row[i]) : printf(",%u", row[i]);
        }
        between = n > 0 ? ";" : between;
    }
    if (*between == 0) {
        putchar('-');
    }
}

static void print_run(const uint8_t *file, size_t file_len, size_t room)
{
    uint8_t *log = filled_room_for(room);
    uint16_t report[4];
    uint16_t *table = (uint16_t *)room_for(TABLE * sizeof *table);
    memset(report, 0xA5, sizeof report);
    memset(table, 0xA5, TABLE * sizeof *table);
    size_t written = scarpgoblet_run(file, file_len, log, room, report, table);
    printf("run %u %u %u %u %zu ", report[0], report[1], report[2], report[3], written);
    print_hex(log, written <= room ? written : 0);
    const char *rest = "kept";
    for (size_t i = written; i < room; i++) {
        rest = log[i] == before(i) ? rest : "altered";
    }
    printf(" %s ", rest);
    print_table(table);
    free(table);
    free(log);
}

static void print_rack(const uint8_t *rack, size_t rack_len, size_t room, size_t space)
{
    uint8_t *log = filled_room_for(room);
    uint8_t *replies = filled_room_for(space);
    printf("rack %u ", (unsigned)scarpgoblet_rack(rack, rack_len, log, room, replies, space));
    print_hex(replies, space);
    putchar(' ');
    print_hex(log, room);
    free(replies);
    free(log);
}

/* The nodes left in each queue that has some, one above the last process among them, which no log has. */
static void print_left(const uint8_t *log, size_t length)
{
    uint16_t count[1];
    uint16_t *nodes = (uint16_t *)room_for(NODES * sizeof *nodes);
    const char *between = "";
    for (unsigned q = 0; q <= PROCESSES; q++) {
        memset(count, 0xA5, sizeof count);
        memset(nodes, 0xA5, NODES * sizeof *nodes);
        unsigned number = (unsigned)scarpgoblet_left(log, length, (uint8_t)q, count, nodes);
        if (q == 0) {
            printf(" left %u ", number);
        }
        for (unsigned i = 0; i < count[0] && i < NODES; i++) {
            i == 0 ? printf("%s%u:%u", between, q, nodes[i]) : printf(",%u", nodes[i]);
        }
        for (unsigned i = count[0]; i < NODES; i++) {
            if (nodes[i] != 0) {
                printf(" not 0");
                break;
            }
        }
        between = count[0] > 0 ? ";" : between;
    }
    if (*between == 0) {
        putchar('-');
    }
    free(nodes);
}

static void reply(int letter)
{
    size_t room = letter == 'J' ? 0 : get_number();
    size_t space = letter == 'K' ? get_number() : 0;
    size_t n;
    uint8_t *bytes = get_counted(&n);
    uint8_t *copy = copy_of(bytes, n);
    if (letter == 'R') {
        print_run(bytes, n, room);
    } else if (letter == 'K') {
        print_rack(bytes, n, room, space);
    } else {
        printf("judge %u %u", (unsigned)scarpgoblet_judge(bytes, n), (unsigned)scarpgoblet_judge_entry(bytes, n));
        print_left(bytes, n);
    }
    say_if_written(bytes, copy, n);
    putchar('\n');
    fflush(stdout); /* a case that ends this program is the first without a reply */
    free(copy);
    free(bytes);
}

int main(void)
{
    for (int letter = getchar(); letter != EOF; letter = getchar()) {
        if (letter != 'R' && letter != 'J' && letter != 'K') {
            give_up("no such case");
        }
        reply(letter);
    }
    return 0;
}
