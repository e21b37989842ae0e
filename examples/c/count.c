/* Counts all sharings and tapes of circuit A under the secrets 0,0 and 1,1, for a probe on each share of its output, and prints a
 * line for each combination of the read wires' values.
 * From the repository's top, this builds and runs it (the first part proves the library, which takes some minutes once):
 *
 *   tools/build archive && cc -Iinclude -o target/count examples/c/count.c target/staticlib/libexports.a && target/count
 */
#include "masked.h"
#include <inttypes.h>
#include <stdio.h>

static const uint16_t table[] = {
    0, 2,             /* HEAD: two shares */
    1, 1,             /* IN at stage 1, a: wires 0 and 1 */
    1, 0,             /* IN at stage 0, b: wires 2 and 3 */
    6, 0, 0, 1, 2, 3, /* AND, first random 0; the product: wires 24 and 25 */
    5, 24,            /* REG: wire 26 */
    5, 25,            /* REG: wire 27 */
    8, 26, 27,        /* OUT */
};
static uint16_t notes[MASKED_NOTES_WORDS];
static uint32_t counts[MASKED_COUNTS_NUMBERS];

int main(void)
{
    const uint8_t secrets[] = {0, 0, 1, 1}; /* a and b of the first set, then of the second */
    const uint16_t probes[] = {26, 27};
    uint64_t wires, combinations, pairs, rule;

    rule = masked_count(table, sizeof table / sizeof *table, notes, MASKED_NOTES_WORDS, secrets, sizeof secrets, probes, 2,
                        counts, MASKED_COUNTS_NUMBERS, &wires, &combinations, &pairs);
    if (rule != MASKED_ACCEPTED) {
        printf("refused %" PRIu64 " frame %" PRIu64 " word %" PRIu64 "\n", rule, wires, combinations);
        return 1;
    }
    printf("%" PRIu64 " wires read, %" PRIu64 " pairs of sharing and tape in each set\n", wires, pairs);
    for (uint64_t n = 0; n < combinations; n++) {
        const uint32_t *row = counts + 4 * n;
        for (uint64_t bit = wires; bit-- > 0;)
            putchar(n >> bit & 1 ? '1' : '0');
        printf(": %" PRIu32 " and %" PRIu32 " pairs, %" PRIu32 " and %" PRIu32 " per thousand\n", row[0], row[1], row[2], row[3]);
    }
    return 0;
}
