/* Writes the trace that every system of the bench replays: one edit a line, `+ row draw text` to add a line
   before a row, `- row` to strike one. 511 adds fill the script, four in five of them at its end, as a script
   is written; then a random line is struck and one is added before a random row, 4,000 times. One seed, so
   every run and every system has the same edits. Draws are small, as of hosts that append: only the replicas
   that choose places by a draw use them. */
#include <stdint.h>
#include <stdio.h>

enum { FILL = 511, CHANGES = 4000, TEXT = 48 };

static uint32_t state = 2463534242u;

/* Marsaglia's xorshift of 32 bits. */
static uint32_t next_below(uint32_t limit)
{
    state ^= state << 13;
    state ^= state >> 17;
    state ^= state << 5;
    return state % limit;
}

static void write_add(uint32_t row)
{
    printf("+ %u %u ", row, next_below(64));
    for (int i = 0; i < TEXT; i++)
        putchar('a' + next_below(26));
    putchar('\n');
}

int main(void)
{
    for (uint32_t rows = 0; rows < FILL; rows++)
        write_add(next_below(5) < 4 ? rows : next_below(rows + 1));
    for (int i = 0; i < CHANGES; i++) {
        printf("- %u\n", next_below(FILL));
        write_add(next_below(FILL));
    }
    return ferror(stdout) != 0;
}
