/* A tool that fills a table of 16-bit words, circuit A, and files it as text: the call judges the table and writes its lines.
 * From the repository's top, this builds and runs it (the first part proves the library, which takes some minutes once):
 *
 *   tools/build archive && cc -Iinclude -o target/write examples/c/write.c target/staticlib/libexports.a && target/write
 */
#include "masked.h"
#include <inttypes.h>
#include <stdio.h>

enum { HEAD, IN, CON, XOR, NOT, REG, AND, REF, OUT };

/* A word more than a table may have, so that a circuit that is too long is refused by rule 1. */
static uint16_t table[MASKED_MOST_WORDS + 1];
static size_t words;
static uint16_t notes[MASKED_NOTES_WORDS];
static uint8_t text[MASKED_TEXT_BYTES];

/* Puts a frame behind the others, word by word: a struct that is copied whole brings its alignment bytes along. */
static void put(const uint16_t *frame, size_t count)
{
    for (size_t word = 0; word < count && words < sizeof table / sizeof *table; word++)
        table[words++] = frame[word];
}

#define FRAME(...) put((const uint16_t[]){__VA_ARGS__}, sizeof(uint16_t[]){__VA_ARGS__} / sizeof(uint16_t))

int main(void)
{
    uint64_t a, b, c, rule;

    FRAME(HEAD, 2);
    FRAME(IN, 1);              /* a, at stage 1: wires 0 and 1 */
    FRAME(IN, 0);              /* b, at stage 0: wires 2 and 3 */
    FRAME(AND, 0, 0, 1, 2, 3); /* first random 0; the product: wires 24 and 25 */
    FRAME(REG, 24);            /* wire 26 */
    FRAME(REG, 25);            /* wire 27 */
    FRAME(OUT, 26, 27);

    rule = masked_write_text(table, words, notes, MASKED_NOTES_WORDS, text, sizeof text, &a, &b, &c);
    if (rule != MASKED_ACCEPTED) {
        fprintf(stderr, "refused %" PRIu64 " frame %" PRIu64 " word %" PRIu64 "\n", rule, a, b);
        return 1;
    }
    return fwrite(text, 1, a, stdout) != a || fflush(stdout) != 0;
}
