/*
 * The morning that failed, made right: nine runs of one test, in which the network hands the patches over in
 * nine different orders, loses some and repeats others; and each run releases its events in the same order.
 *
 * Three hosts hold a copy of one event script. Host 1 writes it. Then, at one tick, hosts 1 and 2 each add
 * two lines at the same spot and host 3 strikes one, before any of them has heard of the others' edits.
 *
 * It is also the model of a host program: every answer is looked at, each host keeps the patches that it
 * has, asks by replica_compare what the others lack, and sends that again.
 */
#include <stdbool.h>
#include <stdio.h>
#include <stdlib.h>
#include <string.h>

#include "script_replica.h"

enum { HOSTS = 3, RUNS = 9, KEPT = 4096, QUEUE = 256, ROUNDS = 1000, ORDER = 1024 };

/* What a host keeps: its record and table, and all patches that it has, one behind the other. */
struct host {
    uint8_t record[REPLICA_RECORD];
    uint8_t table[REPLICA_TABLE];
    uint8_t kept[KEPT];
    size_t kept_len;
};

/* A patch on its way to a host. */
struct message {
    int to;
    size_t len;
    uint8_t patch[REPLICA_PATCH];
};

/* One run of the test: its hosts, its network, and what the network did. */
struct run {
    struct host hosts[HOSTS];
    struct message queue[QUEUE];
    size_t queued;
    uint32_t dice;
    int lost, repeated, early, again;
    char arrivals[ORDER];
};

static void fail(const char *what, uint32_t answer)
{
    fprintf(stderr, "nine_runs: %s: answer %u\n", what, (unsigned)answer);
    exit(EXIT_FAILURE);
}

static void append(char *text, const char *more)
{
    if (strlen(text) + strlen(more) >= ORDER)
        fail("text too long", 0);
    strcat(text, more);
}

/* The network's dice: the same for the same run, so that what is printed can be compared. */
static uint32_t roll(struct run *run, uint32_t sides)
{
    run->dice ^= run->dice << 13;
    run->dice ^= run->dice >> 17;
    run->dice ^= run->dice << 5;
    return run->dice % sides;
}

/* A number in a record, a patch or a result: four bytes, the high one first. */
static uint32_t number_at(const uint8_t *bytes)
{
    return (uint32_t)bytes[0] << 24 | (uint32_t)bytes[1] << 16 | (uint32_t)bytes[2] << 8 | bytes[3];
}

static void keep(struct host *host, const uint8_t *patch, size_t len)
{
    if (len > KEPT - host->kept_len)
        fail("no room to keep a patch", 0);
    memcpy(host->kept + host->kept_len, patch, len);
    host->kept_len += len;
}

/* Hands a patch to the network, which loses one in three and repeats one in four. */
static void send_to(struct run *run, int to, const uint8_t *patch, size_t len)
{
    int copies = 1;
    if (roll(run, 3) == 0) {
        run->lost++;
        copies = 0;
    } else if (roll(run, 4) == 0) {
        run->repeated++;
        copies = 2;
    }
    while (copies-- > 0) {
        if (run->queued == QUEUE)
            fail("the network is full", 0);
        struct message *m = &run->queue[run->queued++];
        m->to = to;
        m->len = len;
        memcpy(m->patch, patch, len);
    }
}

static void send_to_others(struct run *run, int from, const uint8_t *patch, size_t len)
{
    for (int to = 0; to < HOSTS; to++)
        if (to != from)
            send_to(run, to, patch, len);
}

/* An own line, before a row: done, the patch is kept and sent. */
static void insert(struct run *run, int at, size_t row, const char *text, uint32_t draw)
{
    struct host *h = &run->hosts[at];
    uint8_t patch[REPLICA_PATCH];
    size_t len;
    uint32_t answer = replica_insert(h->record, sizeof h->record, h->table, sizeof h->table, row,
                                     (const uint8_t *)text, strlen(text), draw, patch, sizeof patch, &len);
    if (answer != REPLICA_DONE)
        fail("insert", answer);
    keep(h, patch, len);
    send_to_others(run, at, patch, len);
}

static void strike(struct run *run, int at, size_t row)
{
    struct host *h = &run->hosts[at];
    uint8_t patch[REPLICA_PATCH];
    size_t len;
    uint32_t answer = replica_delete(h->record, sizeof h->record, h->table, sizeof h->table, row, patch,
                                     sizeof patch, &len);
    if (answer != REPLICA_DONE)
        fail("delete", answer);
    keep(h, patch, len);
    send_to_others(run, at, patch, len);
}

/* A patch comes in. One that is early is dropped here: its host is seen to lack it, and gets it again. */
static void receive(struct run *run, const struct message *m)
{
    struct host *h = &run->hosts[m->to];
    const char *how = "";
    char name[32];
    uint32_t answer =
        replica_receive(h->record, sizeof h->record, h->table, sizeof h->table, m->patch, m->len);
    switch (answer) {
    case REPLICA_DONE:
    case REPLICA_GONE:
        keep(h, m->patch, m->len);
        break;
    case REPLICA_RECEIVED:
        how = "(again)";
        break;
    case REPLICA_EARLY:
        how = "(early)";
        run->early++;
        break;
    default:
        fail("receive", answer);
    }
    snprintf(name, sizeof name, " %u.%u%s", (unsigned)m->patch[REPLICA_PATCH_AUTHOR],
             (unsigned)number_at(m->patch + REPLICA_PATCH_NUMBER), how);
    if (m->to == HOSTS - 1)
        append(run->arrivals, name);
}

/* The network hands over what it holds, in an order of its own. */
static void deliver(struct run *run)
{
    while (run->queued > 0) {
        size_t pick = roll(run, (uint32_t)run->queued);
        struct message m = run->queue[pick];
        run->queue[pick] = run->queue[--run->queued];
        receive(run, &m);
    }
}

/* Sends again those patches of a site that a host keeps, from the first to the last number. */
static void send_again(struct run *run, const struct host *from, int to, uint8_t site, uint32_t first,
                       uint32_t last)
{
    size_t at = 0, len;
    while (at < from->kept_len) {
        const uint8_t *patch = from->kept + at;
        uint32_t answer = replica_patch_first(patch, from->kept_len - at, &len);
        if (answer != REPLICA_DONE)
            fail("a patch that was kept", answer);
        uint32_t number = number_at(patch + REPLICA_PATCH_NUMBER);
        if (patch[REPLICA_PATCH_AUTHOR] == site && first <= number && number <= last) {
            run->again++;
            send_to(run, to, patch, len);
        }
        at += len;
    }
}

/* Compares two hosts' counts; what the second lacks, the first sends again. Says whether it lacked any. */
static bool help(struct run *run, int from, int to)
{
    const struct host *a = &run->hosts[from];
    const struct host *b = &run->hosts[to];
    uint8_t result[REPLICA_COMPARED];
    bool lacked = false;
    uint32_t answer = replica_compare(a->record + REPLICA_RECORD_COUNTS, REPLICA_COUNTS,
                                      b->record + REPLICA_RECORD_COUNTS, REPLICA_COUNTS, result, sizeof result);
    if (answer != REPLICA_DONE)
        fail("compare", answer);
    for (int site = 1; site <= REPLICA_SITES; site++) {
        const uint8_t *lack = result + 9 * (site - 1);
        if (lack[0] == REPLICA_FIRST) {
            lacked = true;
            send_again(run, a, to, (uint8_t)site, number_at(lack + 1), number_at(lack + 5));
        }
    }
    return lacked;
}

/* Until no host lacks a patch that another has: deliver, compare, send again. */
static void settle(struct run *run)
{
    for (int round = 0; round < ROUNDS; round++) {
        bool lacked = false;
        deliver(run);
        for (int from = 0; from < HOSTS; from++)
            for (int to = 0; to < HOSTS; to++)
                if (from != to && help(run, from, to))
                    lacked = true;
        if (!lacked)
            return;
    }
    fail("the hosts never came to hold the same", 0);
}

/* The order in which a host releases its events: the texts of its rows. */
static void order_of(const struct host *h, char *order)
{
    size_t start, len;
    uint32_t answer;
    order[0] = '\0';
    for (size_t row = 0;; row++) {
        char text[REPLICA_TEXT + 3];
        answer = replica_row_text(h->record, sizeof h->record, h->table, sizeof h->table, row, &start, &len);
        if (answer != REPLICA_DONE)
            break;
        snprintf(text, sizeof text, "%s%.*s", row == 0 ? "" : ", ", (int)len, (const char *)h->table + start);
        append(order, text);
    }
    if (answer != REPLICA_NO_ROW)
        fail("reading a row", answer);
}

static void begin(struct run *run, uint32_t number)
{
    memset(run, 0, sizeof *run);
    run->dice = 2463534242u + 7919u * number;
    for (int i = 0; i < HOSTS; i++) {
        struct host *h = &run->hosts[i];
        uint32_t answer =
            replica_start(h->record, sizeof h->record, h->table, sizeof h->table, (uint32_t)(i + 1));
        if (answer != REPLICA_DONE)
            fail("start", answer);
    }
}

/* One run: the script is written, then edited by all at one tick. Leaves the order that all hosts hold. */
static void play(struct run *run, uint32_t number, char *order)
{
    char other[ORDER];
    begin(run, number);
    insert(run, 0, 0, "open range", 11);
    insert(run, 0, 1, "start clocks", 12);
    insert(run, 0, 2, "test message", 13);
    insert(run, 0, 3, "launch", 14);
    settle(run);
    run->arrivals[0] = '\0';
    insert(run, 0, 3, "radar on", 21);
    insert(run, 0, 4, "track target", 22);
    insert(run, 1, 3, "clear airspace", 31);
    insert(run, 1, 4, "sound horn", 32);
    strike(run, 2, 2);
    settle(run);
    order_of(&run->hosts[0], order);
    for (int i = 1; i < HOSTS; i++) {
        order_of(&run->hosts[i], other);
        if (strcmp(order, other) != 0)
            fail("two hosts hold different orders", 0);
    }
}

int main(void)
{
    static struct run run;
    static char arrivals[RUNS][ORDER], orders[RUNS][ORDER];
    int arrived = 0, released = 0;
    for (int i = 0; i < RUNS; i++) {
        bool new_arrival = true, new_order = true;
        play(&run, (uint32_t)i, orders[i]);
        strcpy(arrivals[i], run.arrivals);
        printf("run %d: %d lost, %d repeated, %d early, %d sent again\n", i + 1, run.lost, run.repeated,
               run.early, run.again);
        printf("  came to host 3:%s\n  released: %s\n", arrivals[i], orders[i]);
        for (int k = 0; k < i; k++) {
            new_arrival = new_arrival && strcmp(arrivals[i], arrivals[k]) != 0;
            new_order = new_order && strcmp(orders[i], orders[k]) != 0;
        }
        arrived += new_arrival;
        released += new_order;
    }
    printf("%d runs, %d orders of arrival, %d order of release\n", RUNS, arrived, released);
    return arrived == RUNS && released == 1 ? EXIT_SUCCESS : EXIT_FAILURE;
}
