/* Checks circuit A, evaluates it with the shares 1,0 and 1,1 and the tape 1, and prints what a probe on wire 24 reads.
 * From the repository's top, this builds and runs it (the first part proves the library, which takes some minutes once):
 *
 *   tools/build archive && cc -Iinclude -o target/probe examples/c/probe.c target/staticlib/libexports.a && target/probe
 */
#include "masked.h"
#include <inttypes.h>
#include <stdio.h>
#include <string.h>

static const char text[] =
    "0000 0002\n"
    "0001 0001\n"
    "0001 0000\n"
    "0006 0000 0000 0001 0002 0003\n"
    "0005 0018\n"
    "0005 0019\n"
    "0008 001A 001B\n";

static uint16_t table[MASKED_MOST_WORDS];
static uint16_t notes[MASKED_NOTES_WORDS];
static uint8_t values[MASKED_MOST_WIRES];
static uint8_t reading[MASKED_MOST_WIRES];

/* Says where a rule was broken. */
static int refused(uint64_t rule, uint64_t frame, uint64_t word)
{
    printf("refused %" PRIu64 " frame %" PRIu64 " word %" PRIu64 "\n", rule, frame, word);
    return 1;
}

/* What the notes and the values say of a wire. FFFF has the bit of a register too, so inner wires are told first. */
static void print_wire(size_t wire)
{
    unsigned first = notes[2 * wire];
    if (first == MASKED_INNER) {
        printf("wire %zu is inner and has the value %u\n", wire, values[wire]);
        return;
    }
    printf("wire %zu has label %u, stage %u and the value %u, and is %s\n", wire, first & ~MASKED_REGISTERED, notes[2 * wire + 1],
           values[wire], first & MASKED_REGISTERED ? "registered" : "not registered");
}

int main(void)
{
    const uint8_t shares[] = {1, 0, 1, 1}, tape[] = {1};
    const uint16_t probes[] = {24};
    uint64_t words, a, b, c, rule;

    rule = masked_read_text((const uint8_t *)text, strlen(text), table, MASKED_MOST_WORDS, &words, &b);
    if (rule != MASKED_ACCEPTED)
        return refused(rule, words, b);
    rule = masked_check(table, words, notes, MASKED_NOTES_WORDS, &a, &b, &c);
    if (rule != MASKED_ACCEPTED)
        return refused(rule, a, b);
    printf("accepted wires %" PRIu64 " random %" PRIu64 " latency %" PRIu64 "\n", a, b, c);

    rule = masked_evaluate(table, words, notes, MASKED_NOTES_WORDS, shares, sizeof shares, tape, sizeof tape,
                           values, MASKED_MOST_WIRES, &a, &b, &c);
    if (rule != MASKED_ACCEPTED)
        return refused(rule, a, b);
    print_wire(23);
    print_wire(24);
    print_wire(26);

    rule = masked_read_probes(table, words, notes, MASKED_NOTES_WORDS, shares, sizeof shares, tape, sizeof tape,
                              values, MASKED_MOST_WIRES, probes, 1, reading, MASKED_MOST_WIRES, &a, &b, &c);
    if (rule != MASKED_ACCEPTED)
        return refused(rule, a, b);
    for (size_t wire = 0; wire < MASKED_MOST_WIRES; wire++)
        if (reading[wire] != MASKED_UNREAD)
            printf("a probe on wire 24 reads wire %zu: %u\n", wire, reading[wire]);
    return 0;
}
