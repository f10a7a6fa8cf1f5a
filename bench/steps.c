/* Measures the steps that every call of the replica pays for, side by side in one run: what counts is
   the ratio to the plain loop or to memmove in the same run, not the times. bench/run builds it. */
#include <stdbool.h>
#include <stddef.h>
#include <stdint.h>
#include <stdio.h>
#include <string.h>
#include <time.h>

enum { ROWS = 512, ROW = 78, TABLE = ROWS * ROW, RECORD = 67, ROUNDS = 600, CALLS = 40 };

bool bench_all_zero(const uint8_t *bytes, size_t length);
bool bench_sound(const uint8_t *record, size_t record_length, const uint8_t *table, size_t table_length);
void bench_row_in(uint8_t *table, size_t table_length, size_t rows, const uint8_t *row);
void bench_row_out(uint8_t *table, size_t table_length, size_t rows);

static uint8_t empty[TABLE], few[TABLE], full[TABLE], moved[TABLE];
static uint8_t none[RECORD], all[RECORD];
static volatile unsigned sink;

static double now(void)
{
    struct timespec t;
    clock_gettime(CLOCK_MONOTONIC, &t);
    return t.tv_sec * 1e6 + t.tv_nsec / 1e3;
}

/* Row i: its first integer rises with i, so rows rise. */
static void make_row(uint8_t *row, int i, int used, int text)
{
    memset(row, 0, ROW);
    row[0] = used;
    for (int k = 0; k < used; k++) {
        int integer = k == 0 ? i + 1 : 7;
        row[1 + 3 * k] = integer >> 8;
        row[2 + 3 * k] = integer & 255;
        row[3 + 3 * k] = 1 + (i + k) % 16;
    }
    row[28] = 1 + i % 200;
    row[29] = text;
    for (int j = 0; j < text; j++)
        row[30 + j] = 65 + j;
}

static void make_record(uint8_t *record, int rows)
{
    memset(record, 0, RECORD);
    record[0] = 3;
    record[1] = rows >> 8;
    record[2] = rows & 255;
    for (int site = 0; site < 16; site++)
        record[3 + 4 * site + 2] = 4; /* a count of 1,024 */
}

/* The same loop by the C compiler, at its own best. */
#if defined(__GNUC__) && !defined(__clang__)
__attribute__((optimize("O3")))
#endif
static unsigned any_in_c(void)
{
    uint8_t all_bits = 0;
    for (size_t i = 0; i < TABLE; i++)
        all_bits |= few[i];
    __asm__ volatile("" ::: "memory");
    return all_bits;
}

static unsigned any(void) { return bench_all_zero(few, TABLE); }
static unsigned sound_empty(void) { return bench_sound(none, RECORD, empty, TABLE); }
static unsigned sound_few(void) { return bench_sound(all, RECORD, few, TABLE); }
static unsigned sound_full(void) { return bench_sound(all, RECORD, full, TABLE); }
static unsigned row_in(void) { bench_row_in(moved, TABLE, ROWS - 1, few); return moved[0]; }
static unsigned row_out(void) { bench_row_out(moved, TABLE, ROWS); return moved[0]; }
static unsigned move_up(void) { memmove(moved + ROW, moved, TABLE - ROW); return moved[0]; }
static unsigned move_down(void) { memmove(moved, moved + ROW, TABLE - ROW); return moved[0]; }

/* One round: microseconds a call. */
static double round_of(unsigned (*call)(void))
{
    double start = now();
    for (int i = 0; i < CALLS; i++)
        sink += call();
    return (now() - start) / CALLS;
}

/* The two by turns, so that both meet the same conditions; the best round of each counts. */
static void report(const char *name, unsigned (*call)(void), const char *against, unsigned (*base)(void))
{
    double best = 1e9, best_base = 1e9;
    for (int i = 0; i < ROUNDS; i++) {
        double one_base = round_of(base), one = round_of(call);
        if (one_base < best_base)
            best_base = one_base;
        if (one < best)
            best = one;
    }
    printf("%-46s %8.3f us   %5.2f times %s\n", name, best, best / best_base, against);
}

int main(void)
{
    make_record(none, 0);
    make_record(all, ROWS);
    for (int i = 0; i < ROWS; i++) {
        make_row(few + ROW * i, i, 1 + i % 2, 24);
        make_row(full + ROW * i, i, 8, 48);
    }
    if (!sound_empty() || !sound_few() || !sound_full()) {
        puts("a table that is meant to be sound is not");
        return 1;
    }
    memcpy(moved, few, TABLE);
    puts("or-ing: all 39,936 bytes of the table; memmove: the bytes of the rows that move");
    report("or-ing them in C", any_in_c, "or-ing", any);
    report("sound: an empty table", sound_empty, "or-ing", any);
    report("sound: 512 rows, 1 or 2 identifiers, 24 bytes", sound_few, "or-ing", any);
    report("sound: 512 rows, 8 identifiers, 48 bytes", sound_full, "or-ing", any);
    report("row in at row 0, 511 rows in use", row_in, "memmove", move_up);
    report("row out at row 0, 512 rows in use", row_out, "memmove", move_down);
    return 0;
}
