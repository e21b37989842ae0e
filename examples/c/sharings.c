/* Asks of two circuits whether they are made of whole sharings: of circuit A, whose OUT then adds up to the product of its two secrets,
 * and of one that mixes the shares of two secrets in its OUT.
 * From the repository's top, this builds and runs it (the first part proves the library, which takes some minutes once):
 *
 *   tools/build archive && cc -Iinclude -o target/sharings examples/c/sharings.c target/staticlib/libexports.a && target/sharings
 */
#include "masked.h"
#include <inttypes.h>
#include <stdio.h>

static const uint16_t circuit_a[] = {
    0, 2,             /* HEAD: two shares */
    1, 1,             /* IN at stage 1, a: wires 0 and 1 */
    1, 0,             /* IN at stage 0, b: wires 2 and 3 */
    6, 0, 0, 1, 2, 3, /* AND, first random 0; the product: wires 24 and 25 */
    5, 24,            /* REG: wire 26 */
    5, 25,            /* REG: wire 27 */
    8, 26, 27,        /* OUT */
};

static const uint16_t mixed[] = {
    0, 2,    /* HEAD: two shares */
    1, 0,    /* IN, a: wires 0 and 1 */
    1, 0,    /* IN, b: wires 2 and 3 */
    8, 0, 3, /* OUT: a share of a and a share of b. Every rule of the check is kept, and the sum means nothing */
};

static uint16_t notes[MASKED_NOTES_WORDS];

static void ask(const char *name, const uint16_t *table, size_t words)
{
    uint64_t a, b, c, rule;

    rule = masked_check_sharings(table, words, notes, MASKED_NOTES_WORDS, &a, &b, &c);
    if (rule == MASKED_ACCEPTED)
        printf("%s: yes, wires %" PRIu64 " random %" PRIu64 " latency %" PRIu64 "\n", name, a, b, c);
    else if (rule == MASKED_NOT_A_SHARING)
        printf("%s: no, frame %" PRIu64 " fits no sharing\n", name, a);
    else
        printf("%s: refused %" PRIu64 " frame %" PRIu64 " word %" PRIu64 "\n", name, rule, a, b);
}

int main(void)
{
    ask("circuit A", circuit_a, sizeof circuit_a / sizeof *circuit_a);
    ask("mixed", mixed, sizeof mixed / sizeof *mixed);
    return 0;
}
