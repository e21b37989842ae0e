/* What the programs of this folder that try the calls from C share: a table and its notes, and the count of what held. PROGRAM is the
 * name that a failure is told with. */
#include "masked.h"
#include <stdio.h>
#include <string.h>

#define JUNK 0xA5

static uint16_t table[MASKED_MOST_WORDS + 1], notes[MASKED_NOTES_WORDS + 2];
static uint64_t a, b, c;
static int passed, failed;

static inline void is(const char *what, int holds)
{
    passed += holds != 0;
    failed += holds == 0;
    if (!holds)
        printf("FAILED " PROGRAM ": %s\n", what);
}

/* The result and the numbers of the last call. */
static inline void answer(const char *what, uint64_t got, uint64_t rule, uint64_t first, uint64_t second, uint64_t third)
{
    is(what, got == rule && a == first && b == second && c == third);
}

/* Bytes from a place on that are as they were. */
static inline int kept(const void *buffer, size_t from, size_t size)
{
    const uint8_t *bytes = buffer;
    for (size_t at = from; at < size; at++)
        if (bytes[at] != JUNK)
            return 0;
    return 1;
}

static const char circuit_a[] = "0000 0002\n0001 0001\n0001 0000\n0006 0000 0000 0001 0002 0003\n"
                                "0005 0018\n0005 0019\n0008 001A 001B\n";

static inline size_t read_text(const char *lines)
{
    uint64_t words, word;
    is("a text is read", masked_read_text((const uint8_t *)lines, strlen(lines), table, MASKED_MOST_WORDS, &words, &word) == 0);
    return words;
}

/* The notes of circuit A, as an accepted check leaves them. */
static inline int noted(void)
{
    return notes[52] == MASKED_REGISTERED && notes[53] == 3 && kept(notes, 2 * 2 * 28, sizeof notes);
}

static inline int summary(void)
{
    printf(PROGRAM ": %d passed, %d failed\n", passed, failed);
    return failed != 0;
}
