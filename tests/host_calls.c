/*
 * The seven calls of include/script_replica.h, on the compiled library, held against the rules: lengths, numbers
 * taken whole, bytes of record, table, patch and result, answers at their limits, and that a refusal leaves
 * every byte as it was. Buffers are filled with noise first, and all of their bytes are compared after.
 */
#include <stdbool.h>
#include <stdio.h>
#include <string.h>

#include "script_replica.h"

enum { NOISE = 0xA5, ROOM = 200 };

struct replica {
    uint8_t record[REPLICA_RECORD];
    uint8_t table[REPLICA_TABLE];
};

static int passed, failed;

static void check(const char *name, bool holds)
{
    if (holds) {
        passed++;
    } else {
        failed++;
        printf("FAILED: %s\n", name);
    }
}

static void check_answer(const char *name, uint32_t expected, uint32_t answer)
{
    check(name, answer == expected);
    if (answer != expected)
        printf("  answered %u, not %u\n", (unsigned)answer, (unsigned)expected);
}

static bool all(const uint8_t *bytes, size_t len, uint8_t value)
{
    for (size_t i = 0; i < len; i++)
        if (bytes[i] != value)
            return false;
    return true;
}

static uint32_t start(struct replica *r, uint32_t site)
{
    return replica_start(r->record, sizeof r->record, r->table, sizeof r->table, site);
}

static uint32_t insert(struct replica *r, size_t row, const void *text, size_t len, uint32_t draw, uint8_t *patch,
                       size_t room, size_t *written)
{
    return replica_insert(r->record, sizeof r->record, r->table, sizeof r->table, row, (const uint8_t *)text, len,
                          draw, patch, room, written);
}

static uint32_t strike(struct replica *r, size_t row, uint8_t *patch, size_t room, size_t *written)
{
    return replica_delete(r->record, sizeof r->record, r->table, sizeof r->table, row, patch, room, written);
}

static uint32_t receive(struct replica *r, const uint8_t *patch, size_t len)
{
    return replica_receive(r->record, sizeof r->record, r->table, sizeof r->table, patch, len);
}

static uint32_t row_text(const struct replica *r, size_t row, size_t *at, size_t *len)
{
    return replica_row_text(r->record, sizeof r->record, r->table, sizeof r->table, row, at, len);
}

static void put_4(uint8_t *bytes, uint32_t v)
{
    bytes[0] = (uint8_t)(v >> 24);
    bytes[1] = (uint8_t)(v >> 16);
    bytes[2] = (uint8_t)(v >> 8);
    bytes[3] = (uint8_t)v;
}

/* Start: 14, then 1 (lengths only). A site is taken whole. */
static void starts(void)
{
    static const uint32_t none[] = {0, 17, 257, 272, 65552, 0x80000001u, 0xFFFFFFFFu};
    static struct replica r;
    for (uint32_t site = 1; site <= REPLICA_SITES; site++) {
        memset(&r, NOISE, sizeof r);
        check_answer("start", REPLICA_DONE, start(&r, site));
        check("start sets the site", r.record[REPLICA_RECORD_SITE] == site);
        check("start zeroes rows and counts", all(r.record + 1, sizeof r.record - 1, 0));
        check("start zeroes the table", all(r.table, sizeof r.table, 0));
    }
    memset(&r, NOISE, sizeof r);
    for (size_t i = 0; i < sizeof none / sizeof none[0]; i++)
        check_answer("no site", REPLICA_NO_SITE, start(&r, none[i]));
    check_answer("a record of 66 bytes", REPLICA_UNSOUND,
                 replica_start(r.record, 66, r.table, sizeof r.table, 1));
    check_answer("no record", REPLICA_UNSOUND, replica_start(NULL, 0, r.table, sizeof r.table, 1));
    check_answer("a short table", REPLICA_UNSOUND,
                 replica_start(r.record, sizeof r.record, r.table, sizeof r.table - 1, 1));
    check_answer("no site before a wrong length", REPLICA_NO_SITE,
                 replica_start(r.record, 66, r.table, sizeof r.table - 1, 17));
    check("a refused start changes nothing", all((const uint8_t *)&r, sizeof r, NOISE));
}

/* Insert: the patch, the row and the record, byte for byte; and the grounds of 8, 9, 10. */
static void inserts(void)
{
    static const uint8_t made[] = {1, 3, 0, 0, 0, 1, 0, 1, 0, 6, 3, 2, 'g', 'o'};
    static const uint8_t row[] = {1, 0, 6, 3};
    static struct replica r, was;
    uint8_t patch[ROOM], long_text[49], long_record[68] = {3};
    size_t written = 77;
    start(&r, 3);
    memset(patch, NOISE, sizeof patch);
    memset(long_text, 'x', sizeof long_text);
    was = r;
    check_answer("a buffer of 160 bytes", REPLICA_SHORT_BUFFER, insert(&r, 0, "go", 2, 5, patch, 160, &written));
    check("0 written", written == 0);
    check_answer("behind the rows", REPLICA_NO_ROW, insert(&r, 1, "go", 2, 5, patch, 161, &written));
    check_answer("a row taken whole", REPLICA_NO_ROW,
                 insert(&r, (size_t)1 << 32, "go", 2, 5, patch, 161, &written));
    check_answer("49 bytes", REPLICA_LONG_TEXT, insert(&r, 0, long_text, 49, 5, patch, 161, &written));
    check_answer("a record of 68 bytes", REPLICA_UNSOUND,
                 replica_insert(long_record, 68, r.table, sizeof r.table, 0, NULL, 0, 5, patch, 161, &written));
    check("a refused insert changes nothing", memcmp(&r, &was, sizeof r) == 0 && all(patch, sizeof patch, NOISE));
    check_answer("insert", REPLICA_DONE, insert(&r, 0, "go", 2, 5, patch, sizeof patch, &written));
    check("the patch", written == sizeof made && memcmp(patch, made, sizeof made) == 0);
    check("behind the patch", all(patch + sizeof made, sizeof patch - sizeof made, NOISE));
    check("the row", memcmp(r.table, row, sizeof row) == 0 && all(r.table + 4, 24, 0) && r.table[28] == 1 &&
                         r.table[29] == 2 && memcmp(r.table + 30, "go", 2) == 0 &&
                         all(r.table + 32, sizeof r.table - 32, 0));
    check("the record", r.record[0] == 3 && r.record[2] == 1 && r.record[3 + 4 * 2 + 3] == 1);
    check_answer("48 bytes", REPLICA_DONE, insert(&r, 0, long_text, 48, 5, patch, 161, &written));
    check_answer("no text", REPLICA_DONE, insert(&r, 2, NULL, 0, 5, patch, 161, &written));
}

/* Delete: the patch, and what is left. */
static void deletes(void)
{
    static const uint8_t made[] = {2, 3, 0, 0, 0, 2, 1, 3, 0, 0, 0, 1, 1, 0, 6, 3, 4, 0, 0, 0, 1};
    static struct replica r, was;
    uint8_t patch[ROOM];
    size_t written = 77;
    start(&r, 3);
    insert(&r, 0, "go", 2, 5, patch, sizeof patch, &written);
    was = r;
    memset(patch, NOISE, sizeof patch);
    check_answer("a buffer of 160 bytes", REPLICA_SHORT_BUFFER, strike(&r, 0, patch, 160, &written));
    check_answer("no such row", REPLICA_NO_ROW, strike(&r, 1, patch, 161, &written));
    check("0 written", written == 0);
    check("a refused delete changes nothing", memcmp(&r, &was, sizeof r) == 0 && all(patch, sizeof patch, NOISE));
    check_answer("delete", REPLICA_DONE, strike(&r, 0, patch, sizeof patch, &written));
    check("the patch", written == sizeof made && memcmp(patch, made, sizeof made) == 0);
    check("behind the patch", all(patch + sizeof made, sizeof patch - sizeof made, NOISE));
    check("the table is empty", all(r.table, sizeof r.table, 0) && r.record[2] == 0);
    check("the count", r.record[3 + 4 * 2 + 3] == 2);
}

/* The three patches of the listing example, one behind the other. */
static const uint8_t RUN[] = {2, 3, 0, 0, 0, 1, 1, 1,   0,   0,   0, 1, 1, 0, 1, 1, 4, 0, 0, 0,   1,   1,   1,  0, 0, 0,
                              1, 0, 1, 0, 1, 1, 2, 'g', 'o', 1, 2, 0, 0, 0, 1, 0, 1, 0, 1,   2,   4,   'h', 'o', 'l', 'd'};

static void receives(void)
{
    static struct replica r, was;
    static const size_t first = 21, second = 14, third = 16;
    size_t used = 77;
    start(&r, 16);
    check_answer("the first of a run", REPLICA_DONE, replica_patch_first(RUN, sizeof RUN, &used));
    check("21 bytes", used == first);
    check_answer("the second", REPLICA_DONE, replica_patch_first(RUN + first, sizeof RUN - first, &used));
    check("14 bytes", used == second);
    check_answer("a run cut short", REPLICA_MALFORMED, replica_patch_first(RUN, first - 1, &used));
    check("0 bytes", used == 0);
    check_answer("an empty run", REPLICA_MALFORMED, replica_patch_first(NULL, 0, &used));
    was = r;
    check_answer("early", REPLICA_EARLY, receive(&r, RUN, first));
    check_answer("a byte left over", REPLICA_MALFORMED, receive(&r, RUN + first, second + 1));
    check_answer("no bytes", REPLICA_MALFORMED, receive(&r, NULL, 0));
    check("a refused receive changes nothing", memcmp(&r, &was, sizeof r) == 0);
    check_answer("an insert", REPLICA_DONE, receive(&r, RUN + first, second));
    check_answer("another", REPLICA_DONE, receive(&r, RUN + first + second, third));
    check_answer("received already", REPLICA_RECEIVED, receive(&r, RUN + first, second));
    check_answer("a delete", REPLICA_DONE, receive(&r, RUN, first));
    check_answer("a repeated insert after its line was struck", REPLICA_RECEIVED,
                 receive(&r, RUN + first, second));
    check("one row is left", r.record[1] == 0 && r.record[2] == 1);
    start(&r, 1);
    check_answer("own, and ahead", REPLICA_OWN_AHEAD, receive(&r, RUN + first, second));
    r.table[100] = 1;
    was = r;
    check_answer("a table that is not sound", REPLICA_UNSOUND, receive(&r, RUN + first, second));
    check("and stays so", memcmp(&r, &was, sizeof r) == 0);
}

static void texts(void)
{
    static struct replica r;
    uint8_t patch[ROOM];
    size_t written, at = 77, len = 77;
    start(&r, 3);
    insert(&r, 0, "hold", 4, 5, patch, sizeof patch, &written);
    insert(&r, 1, NULL, 0, 5, patch, sizeof patch, &written);
    check_answer("a row's text", REPLICA_DONE, row_text(&r, 0, &at, &len));
    check("where it stands", at == 30 && len == 4 && memcmp(r.table + at, "hold", 4) == 0);
    check_answer("an empty text", REPLICA_DONE, row_text(&r, 1, &at, &len));
    check("where that stands", at == 108 && len == 0);
    check_answer("no such row", REPLICA_NO_ROW, row_text(&r, 2, &at, &len));
    check("two zeros", at == 0 && len == 0);
    at = len = 77;
    check_answer("a record of 66 bytes", REPLICA_UNSOUND,
                 replica_row_text(r.record, 66, r.table, sizeof r.table, 0, &at, &len));
    check("two zeros again", at == 0 && len == 0);
}

static void compares(void)
{
    static const size_t lengths[][3] = {{63, 64, 144}, {65, 64, 144}, {64, 63, 144}, {64, 65, 144}, {64, 64, 143},
                                        {64, 64, 145}, {0, 64, 144},  {64, 0, 144},  {64, 64, 0}};
    uint8_t first[65] = {0}, second[65] = {0}, result[ROOM], expected[REPLICA_COMPARED] = {0};
    put_4(first + 4, 7);
    put_4(second + 4, 3);
    put_4(second + 60, 1000000);
    expected[9] = REPLICA_FIRST;
    put_4(expected + 10, 4);
    put_4(expected + 14, 7);
    expected[135] = REPLICA_SECOND;
    put_4(expected + 136, 1);
    put_4(expected + 140, 1000000);
    memset(result, NOISE, sizeof result);
    for (size_t i = 0; i < sizeof lengths / sizeof lengths[0]; i++)
        check_answer("a wrong length", REPLICA_UNSOUND,
                     replica_compare(first, lengths[i][0], second, lengths[i][1], result, lengths[i][2]));
    put_4(first + 8, 1000001);
    check_answer("a count above 1,000,000", REPLICA_UNSOUND, replica_compare(first, 64, second, 64, result, 144));
    check_answer("on the other side", REPLICA_UNSOUND, replica_compare(second, 64, first, 64, result, 144));
    check("a refused comparison changes nothing", all(result, sizeof result, NOISE));
    put_4(first + 8, 0);
    check_answer("compare", REPLICA_DONE, replica_compare(first, 64, second, 64, result, 144));
    check("the result", memcmp(result, expected, sizeof expected) == 0);
    check("behind the result", all(result + 144, sizeof result - 144, NOISE));
}

/* 512 rows: an insert, own or received, is refused; a row struck makes room for one. */
static void fills(void)
{
    static struct replica r, other;
    uint8_t patch[ROOM], extra[ROOM];
    size_t written, extra_len;
    start(&r, 1);
    start(&other, 2);
    insert(&other, 0, "x", 1, 9, extra, sizeof extra, &extra_len);
    for (size_t i = 0; i < REPLICA_ROWS; i++)
        check_answer("one more row", REPLICA_DONE, insert(&r, i, "x", 1, 3, patch, sizeof patch, &written));
    check_answer("513 rows", REPLICA_FULL, insert(&r, 0, "x", 1, 3, patch, sizeof patch, &written));
    check_answer("513 rows, received", REPLICA_FULL, receive(&r, extra, extra_len));
    check_answer("delete", REPLICA_DONE, strike(&r, 100, patch, sizeof patch, &written));
    check_answer("insert", REPLICA_DONE, insert(&r, 100, "x", 1, 3, patch, sizeof patch, &written));
}

/* Sites 2 and 3 strike one line; site 1 hears site 2 and writes there again; then site 3's patch comes. */
static void strikes_by_number(void)
{
    static struct replica hosts[3];
    uint8_t line[ROOM], second[ROOM], third[ROOM], again[ROOM];
    size_t line_len, second_len, third_len, again_len, at, len;
    for (uint32_t i = 0; i < 3; i++)
        start(&hosts[i], i + 1);
    insert(&hosts[0], 0, "first", 5, 0, line, sizeof line, &line_len);
    for (int i = 1; i < 3; i++)
        check_answer("the line comes", REPLICA_DONE, receive(&hosts[i], line, line_len));
    strike(&hosts[1], 0, second, sizeof second, &second_len);
    strike(&hosts[2], 0, third, sizeof third, &third_len);
    check_answer("site 2 strikes it", REPLICA_DONE, receive(&hosts[0], second, second_len));
    insert(&hosts[0], 0, "again", 5, 0, again, sizeof again, &again_len);
    check("at the same place", memcmp(hosts[0].table, "\x01\x00\x01\x01", 4) == 0 && hosts[0].table[28] == 2);
    check_answer("site 3 strikes what had gone", REPLICA_GONE, receive(&hosts[0], third, third_len));
    check_answer("number 2 stays", REPLICA_DONE, row_text(&hosts[0], 0, &at, &len));
    check("with its text", len == 5 && memcmp(hosts[0].table + at, "again", 5) == 0);
    check("and site 3 is counted", hosts[0].record[3 + 4 * 2 + 3] == 1);
}

int main(void)
{
    starts();
    inserts();
    deletes();
    receives();
    texts();
    compares();
    fills();
    strikes_by_number();
    printf("%d checks held, %d did not\n", passed, failed);
    return failed == 0 ? 0 : 1;
}
