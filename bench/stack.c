/* Measures how much stack each of the seven calls takes. A call runs on a stack of its own that was filled with
   a pattern; the bytes from its top down to the lowest one changed were touched. What a function that does
   nothing touches in the same way is taken off. Two patterns are tried and the deeper result counts, since a
   byte may be overwritten by its own value. The replicas are full, and all positions share seven of their
   eight identifiers, so that every comparison goes to its last step. Fails where an answer is not the one
   expected: then another path was measured. */
#include "script_replica.h"
#include <stdio.h>
#include <stdlib.h>
#include <string.h>
#include <ucontext.h>

enum { STACK = 1 << 16, ROW = REPLICA_TABLE / REPLICA_ROWS, IDENTIFIERS = 8, COUNT = 1000, MIDDLE = 255 };

/* What a call is lent; it has no parameters itself, so that it can begin a stack. */
static uint8_t record[REPLICA_RECORD], table[REPLICA_TABLE], patch[REPLICA_PATCH], compared[REPLICA_COMPARED];
static const uint8_t text[REPLICA_TEXT] = "a line as long as a line of the script can be...";
static size_t patch_length, start, length;
static uint32_t answer;

static uint8_t stack[STACK] __attribute__((aligned(64)));
static ucontext_t here, there;

static void put(uint8_t *bytes, int size, uint32_t number)
{
    for (int i = size - 1; i >= 0; i--, number >>= 8)
        bytes[i] = number & 255;
}

/* Row i: seven times (1,1), then (gap * (i + 1), 1). */
static void make_row(uint8_t *row, int i, int gap)
{
    row[0] = IDENTIFIERS;
    for (int k = 0; k < IDENTIFIERS; k++) {
        put(row + 1 + 3 * k, 2, k < IDENTIFIERS - 1 ? 1 : gap * (i + 1));
        row[3 + 3 * k] = 1;
    }
    put(row + 25, 4, i + 1);
    row[29] = REPLICA_TEXT;
    memcpy(row + 30, text, REPLICA_TEXT);
}

static void make_replica(uint32_t site, int rows, int gap)
{
    memset(table, 0, REPLICA_TABLE);
    for (int i = 0; i < rows; i++)
        make_row(table + ROW * i, i, gap);
    record[REPLICA_RECORD_SITE] = site;
    put(record + REPLICA_RECORD_ROWS, 2, rows);
    for (int i = 0; i < REPLICA_SITES; i++)
        put(record + REPLICA_RECORD_COUNTS + 4 * i, 4, COUNT);
}

static void nothing(void) { answer = REPLICA_DONE; }

static void start_call(void) { answer = replica_start(record, REPLICA_RECORD, table, REPLICA_TABLE, 1); }

static void insert_call(void)
{
    answer = replica_insert(record, REPLICA_RECORD, table, REPLICA_TABLE, MIDDLE, text, REPLICA_TEXT, 0, patch,
                            REPLICA_PATCH, &patch_length);
}

static void delete_call(void)
{
    answer = replica_delete(record, REPLICA_RECORD, table, REPLICA_TABLE, MIDDLE, patch, REPLICA_PATCH,
                            &patch_length);
}

static void receive_call(void)
{
    answer = replica_receive(record, REPLICA_RECORD, table, REPLICA_TABLE, patch, patch_length);
}

static void row_text_call(void)
{
    answer = replica_row_text(record, REPLICA_RECORD, table, REPLICA_TABLE, MIDDLE, &start, &length);
}

static void compare_call(void)
{
    const uint8_t *counts = record + REPLICA_RECORD_COUNTS;
    answer = replica_compare(counts, REPLICA_COUNTS, counts, REPLICA_COUNTS, compared, REPLICA_COMPARED);
}

static void patch_first_call(void) { answer = replica_patch_first(patch, patch_length, &length); }

/* States that the calls meet. A patch to receive is made by site 2 from the same rows. */
static void full(void) { make_replica(1, REPLICA_ROWS, 2); }
static void one_free(void) { make_replica(1, REPLICA_ROWS - 1, 2); }
static void no_gap(void) { make_replica(1, REPLICA_ROWS - 1, 1); }

static void insert_arrives(void)
{
    make_replica(2, REPLICA_ROWS - 1, 2);
    insert_call();
    one_free();
}

static void delete_arrives(void)
{
    make_replica(2, REPLICA_ROWS, 2);
    delete_call();
    full();
}

/* The line struck has a row of the same position and another number in its place. */
static void late_delete_arrives(void)
{
    delete_arrives();
    put(table + ROW * MIDDLE + 25, 4, COUNT);
}

static size_t touched(void (*call)(void), uint8_t pattern)
{
    memset(stack, pattern, STACK);
    getcontext(&there);
    there.uc_stack.ss_sp = stack;
    there.uc_stack.ss_size = STACK;
    there.uc_link = &here;
    makecontext(&there, call, 0);
    swapcontext(&here, &there);
    size_t untouched = 0;
    while (stack[untouched] == pattern)
        untouched++;
    return STACK - untouched;
}

static size_t deepest(void (*prepare)(void), void (*call)(void), uint32_t expected)
{
    size_t most = 0;
    for (int pattern = 0x5A; pattern <= 0xA5; pattern += 0xA5 - 0x5A) {
        prepare();
        size_t one = touched(call, pattern);
        if (one > most)
            most = one;
        if (answer != expected) {
            fprintf(stderr, "bench/stack: answer %u, not %u\n", answer, expected);
            exit(1);
        }
    }
    return most;
}

static const struct {
    const char *name;
    void (*prepare)(void), (*call)(void);
    uint32_t expected;
} cases[] = {
    {"replica_start", full, start_call, REPLICA_DONE},
    {"replica_insert", one_free, insert_call, REPLICA_DONE},
    {"replica_insert, no place", no_gap, insert_call, REPLICA_NO_PLACE},
    {"replica_delete", full, delete_call, REPLICA_DONE},
    {"replica_receive, an insert", insert_arrives, receive_call, REPLICA_DONE},
    {"replica_receive, a delete", delete_arrives, receive_call, REPLICA_DONE},
    {"replica_receive, a late delete", late_delete_arrives, receive_call, REPLICA_GONE},
    {"replica_row_text", full, row_text_call, REPLICA_DONE},
    {"replica_compare", full, compare_call, REPLICA_DONE},
    {"replica_patch_first", insert_arrives, patch_first_call, REPLICA_DONE},
};

int main(void)
{
    size_t caller = deepest(full, nothing, REPLICA_DONE);
    puts("Stack in bytes, 512 rows, 8 identifiers (the caller's own part is taken off)");
    for (size_t i = 0; i < sizeof cases / sizeof *cases; i++) {
        size_t all = deepest(cases[i].prepare, cases[i].call, cases[i].expected);
        printf("  %-32s %6zu\n", cases[i].name, all - caller);
    }
    return 0;
}
