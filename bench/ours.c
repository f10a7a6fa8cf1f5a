/* Replays the trace of bench/trace.c by the calls of the library, and times each call: on a replica of site 1,
   which makes the patches (local), and on one of site 2, which receives them (remote). Beside them, in turns,
   it times the floor, bench/floor.c. Every round has the same edits, so of each call the least time of the
   rounds counts: the round in which nothing else disturbed it. Prints lines of system, kind, rows in use and
   nanoseconds, and the checksum of the script at the end. Fails where a call does not answer 0 or the two
   replicas end unlike. */
#include "script_replica.h"
#include <stdio.h>
#include <stdlib.h>
#include <string.h>
#include <time.h>

enum { FILL = 511, EDITS = FILL + 2 * 4000, BIN = 32, ROUNDS = 12 };

struct edit {
    char sign; /* + adds a line, - strikes one */
    size_t row;
    uint32_t draw;
    char text[REPLICA_TEXT + 1];
};

/* The table begins with a cache line, which is the best case for the floor: it is held to a strict one. */
struct replica {
    _Alignas(64) uint8_t table[REPLICA_TABLE];
    uint8_t record[REPLICA_RECORD];
};

struct patch {
    uint8_t bytes[REPLICA_PATCH];
    size_t length;
};

typedef uint8_t floor_function(const uint8_t *bytes, size_t length);
floor_function floor_cc, floor_clang;

static struct edit edits[EDITS];
static struct patch patches[EDITS];
static struct replica local, remote;
static double local_least[EDITS], remote_least[EDITS], check_least[EDITS];
static double cc_least[EDITS], clang_least[EDITS];
static double clock_cost;
static volatile uint8_t sink;

static void fail(const char *reason)
{
    fprintf(stderr, "bench/ours: %s\n", reason);
    exit(1);
}

static void read_trace(const char *name)
{
    FILE *file = fopen(name, "r");
    if (file == NULL)
        fail("the trace cannot be read");
    for (int i = 0; i < EDITS; i++) {
        struct edit *edit = &edits[i];
        if (fscanf(file, " %c %zu", &edit->sign, &edit->row) != 2)
            fail("the trace is short");
        if (edit->sign == '+' && fscanf(file, "%u %48s", &edit->draw, edit->text) != 2)
            fail("an added line of the trace is short");
    }
    fclose(file);
}

static double now(void)
{
    struct timespec t;
    clock_gettime(CLOCK_MONOTONIC, &t);
    return t.tv_sec * 1e9 + t.tv_nsec;
}

static void keep_least(double *least, double time)
{
    if (time < *least)
        *least = time;
}

/* What two readings of the clock cost by themselves: it is taken off each call's time. */
static double cost_of_clock(void)
{
    double least = 1e9;
    for (int i = 0; i < 100000; i++) {
        double start = now();
        keep_least(&least, now() - start);
    }
    return least;
}

static void start(struct replica *replica, uint32_t site)
{
    if (replica_start(replica->record, REPLICA_RECORD, replica->table, REPLICA_TABLE, site) != REPLICA_DONE)
        fail("start is refused");
}

static uint32_t edit_here(struct replica *replica, const struct edit *edit, struct patch *patch)
{
    if (edit->sign == '-')
        return replica_delete(replica->record, REPLICA_RECORD, replica->table, REPLICA_TABLE, edit->row,
                              patch->bytes, REPLICA_PATCH, &patch->length);
    return replica_insert(replica->record, REPLICA_RECORD, replica->table, REPLICA_TABLE, edit->row,
                          (const uint8_t *)edit->text, REPLICA_TEXT, edit->draw, patch->bytes, REPLICA_PATCH,
                          &patch->length);
}

static void local_round(void)
{
    start(&local, 1);
    for (int i = 0; i < EDITS; i++) {
        double began = now();
        uint32_t answer = edit_here(&local, &edits[i], &patches[i]);
        keep_least(&local_least[i], now() - began - clock_cost);
        if (answer != REPLICA_DONE)
            fail("a local edit is refused");
    }
}

static void remote_round(void)
{
    start(&remote, 2);
    for (int i = 0; i < EDITS; i++) {
        double began = now();
        uint32_t answer = replica_receive(remote.record, REPLICA_RECORD, remote.table, REPLICA_TABLE,
                                          patches[i].bytes, patches[i].length);
        keep_least(&remote_least[i], now() - began - clock_cost);
        if (answer != REPLICA_DONE)
            fail("a patch is refused");
    }
}

/* Reading a row is the soundness check of record and table, and next to nothing more. */
static void check_round(void)
{
    size_t start, length;
    for (int i = 0; i < EDITS; i++) {
        double began = now();
        uint32_t answer = replica_row_text(local.record, REPLICA_RECORD, local.table, REPLICA_TABLE, 0, &start,
                                           &length);
        keep_least(&check_least[i], now() - began - clock_cost);
        if (answer != REPLICA_DONE)
            fail("a row is missing");
    }
}

static void floor_round(floor_function *or_all, double *least)
{
    for (int i = 0; i < EDITS; i++) {
        double began = now();
        sink = or_all(local.table, REPLICA_TABLE);
        keep_least(&least[i], now() - began - clock_cost);
    }
}

static void run_rounds(void)
{
    for (int i = 0; i < EDITS; i++)
        local_least[i] = remote_least[i] = check_least[i] = cc_least[i] = clang_least[i] = 1e18;
    for (int round = 0; round < ROUNDS; round++) {
        local_round();
        remote_round();
        check_round();
        floor_round(floor_cc, cc_least);
#ifdef WITH_CLANG
        floor_round(floor_clang, clang_least);
#endif
    }
}

/* The mean over every `step`th call from `from` to before `to`. */
static double mean(const double *times, int from, int to, int step)
{
    double sum = 0;
    int calls = 0;
    for (int i = from; i < to; i += step, calls++)
        sum += times[i];
    return sum / calls;
}

/* Call i of the fill meets i rows in use. */
static void print_fill(const char *kind, const double *times)
{
    for (int from = 0; from < FILL; from += BIN) {
        int to = from + BIN < FILL ? from + BIN : FILL;
        printf("ours fill-%s %d %.1f\n", kind, (from + to) / 2, mean(times, from, to, 1));
    }
}

/* After the fill, strikes and adds take turns. */
static void print_changes(const char *kind, const double *times)
{
    printf("ours %s-strike %d %.1f\n", kind, FILL, mean(times, FILL, EDITS, 2));
    printf("ours %s-add %d %.1f\n", kind, FILL - 1, mean(times, FILL + 1, EDITS, 2));
}

/* FNV-1a of 32 bits over the texts in the order of the script. */
static uint32_t checksum(const struct replica *replica)
{
    uint32_t sum = 2166136261u;
    for (size_t row = 0, start, length; row < FILL; row++) {
        if (replica_row_text(replica->record, REPLICA_RECORD, replica->table, REPLICA_TABLE, row, &start,
                             &length) != REPLICA_DONE)
            fail("a row is missing");
        for (size_t i = 0; i < length; i++)
            sum = (sum ^ replica->table[start + i]) * 16777619u;
    }
    return sum;
}

int main(int count, char **arguments)
{
    if (count != 2)
        fail("give the name of the trace");
    read_trace(arguments[1]);
    clock_cost = cost_of_clock();
    run_rounds();
    if (checksum(&local) != checksum(&remote))
        fail("the two replicas end unlike");
    print_fill("local", local_least);
    print_fill("remote", remote_least);
    print_changes("local", local_least);
    print_changes("remote", remote_least);
    printf("ours check %d %.1f\n", FILL, mean(check_least, 0, EDITS, 1));
    printf("floor-cc or-ing %d %.1f\n", REPLICA_ROWS, mean(cc_least, 0, EDITS, 1));
#ifdef WITH_CLANG
    printf("floor-clang or-ing %d %.1f\n", REPLICA_ROWS, mean(clang_least, 0, EDITS, 1));
#endif
    printf("ours checksum %d %u\n", FILL, checksum(&local));
    return 0;
}
