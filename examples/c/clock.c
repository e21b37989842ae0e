/* Runs circuit A as a pipeline for seven clocks, on new shares and a new random bit on each, and prints what its OUT shows.
 * From the repository's top, this builds and runs it (the first part proves the library, which takes some minutes once):
 *
 *   tools/build archive && cc -Iinclude -o target/clock examples/c/clock.c target/staticlib/libexports.a && target/clock
 */
#include "masked.h"
#include <inttypes.h>
#include <stdio.h>

enum { CLOCKS = 7, OUT_STAGE = 3 };

static const uint16_t table[] = {
    0, 2,             /* HEAD: two shares */
    1, 1,             /* IN at stage 1, a: wires 0 and 1 */
    1, 0,             /* IN at stage 0, b: wires 2 and 3 */
    6, 0, 0, 1, 2, 3, /* AND, first random 0; the product, at stage 2: wires 24 and 25 */
    5, 24,            /* REG: wire 26, at stage 3 */
    5, 25,            /* REG: wire 27 */
    8, 26, 27,        /* OUT */
};

/* The shares of a, those of b, and the random bit of each clock, as in examples/circuit-a.feed. On clock k those of a, which is at
 * stage 1, are set k-1's; those of b and the random bit, at stage 0, are set k's. */
static const uint8_t feed[CLOCKS][5] = {
    {1, 1, 1, 0, 1}, {1, 0, 1, 1, 1}, {0, 1, 0, 1, 1}, {1, 1, 1, 0, 1}, {0, 1, 0, 0, 0}, {0, 0, 0, 0, 0}, {0, 0, 0, 0, 0},
};

static uint16_t notes[MASKED_NOTES_WORDS];
static uint8_t values[MASKED_MOST_WIRES];
static uint8_t bank[MASKED_MOST_WIRES]; /* all 0 before the first clock; from clock to clock it is only lent */

int main(void)
{
    for (int clock = 0; clock < CLOCKS; clock++) {
        uint64_t a, b, c;
        uint64_t rule = masked_clock(table, sizeof table / sizeof *table, notes, MASKED_NOTES_WORDS, feed[clock], 4, feed[clock] + 4, 1,
                                     values, MASKED_MOST_WIRES, bank, MASKED_MOST_WIRES, &a, &b, &c);
        if (rule != MASKED_ACCEPTED) { /* no clock: bank and values are as they were */
            printf("refused %" PRIu64 " frame %" PRIu64 " word %" PRIu64 "\n", rule, a, b);
            return 1;
        }
        printf("clock %d: OUT %d%d, sum %d", clock, values[26], values[27], values[26] ^ values[27]);
        if (clock >= OUT_STAGE)
            printf(", of set %d", clock - OUT_STAGE);
        putchar('\n');
    }
    return 0;
}
