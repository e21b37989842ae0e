/* What include/masked.h says of masked_check_sharings, tried from C: yes and no with their numbers, the checker's refusals first, and
 * notes that are always masked_check's. Exit status: 0 where all of it holds. */
#define PROGRAM "sharings.c"
#include "calls.h"

static uint16_t checked[MASKED_NOTES_WORDS + 2];

/* Asks of so many words and notes. Whatever the answer is, the notes are those that masked_check leaves; its refusal is this one's. */
static uint64_t asked(size_t words, size_t room)
{
    memset(checked, JUNK, sizeof checked);
    uint64_t refused = masked_check(table, words, checked, room, &a, &b, &c), frame = a, word = b;
    memset(notes, JUNK, sizeof notes);
    a = b = c = UINT64_MAX;
    uint64_t rule = masked_check_sharings(table, words, notes, room, &a, &b, &c);
    is("the notes are the check's", memcmp(notes, checked, sizeof notes) == 0);
    is("the check's refusal comes first", refused == MASKED_ACCEPTED || (rule == refused && a == frame && b == word && c == 0));
    return rule;
}

static void yes(const char *what, const char *lines, uint64_t wires, uint64_t randoms, uint64_t latency)
{
    answer(what, asked(read_text(lines), MASKED_NOTES_WORDS), MASKED_ACCEPTED, wires, randoms, latency);
}

static void no(const char *what, const char *lines, uint64_t frame)
{
    answer(what, asked(read_text(lines), MASKED_NOTES_WORDS), MASKED_NOT_A_SHARING, frame, 0, 0);
}

static void answers(void)
{
    yes("circuit A", circuit_a, 28, 1, 3);
    is("its notes", noted());
    yes("HEAD alone", "0000 0002\n", 0, 0, 0);
    yes("two runs of one kind", "0000 0002\n0001 0000\n0005 0000\n0005 0001\n0005 0002\n0005 0003\n", 6, 0, 0);
    yes("the sum of a sharing with itself", "0000 0002\n0001 0000\n0003 0000 0000\n0003 0001 0001\n", 4, 0, 0);
    no("an OUT of two sharings", "0000 0002\n0001 0000\n0001 0000\n0008 0000 0003\n", 3);
    no("row b of two sharings", "0000 0002\n0001 0001\n0001 0000\n0001 0000\n0006 0000 0000 0001 0002 0005\n", 4);
    no("a REF of two sharings", "0000 0002\n0001 0000\n0001 0000\n0007 0000 0002 0001\n", 3);
    no("a run that the table's end cuts", "0000 0002\n0001 0000\n0004 0000\n", 2);
    no("a run that an OUT splits", "0000 0002\n0001 0000\n0005 0000\n0008 0000 0001\n0005 0001\n", 2);
    no("labels out of order", "0000 0002\n0001 0000\n0005 0001\n0005 0000\n", 2);
    no("constants of two stages", "0000 0002\n0002 0000 0001 0000\n0002 0001 0000 0001\n", 1);
    no("second words of two sharings", "0000 0002\n0001 0000\n0001 0000\n0003 0000 0002\n0003 0001 0001\n", 3);
}

/* Each of these tables mixes shares in its second frame, and breaks a rule of the check behind that or in its buffers. */
static void refusals(void)
{
    size_t words = read_text("0000 0002\n0001 0000\n0004 0000\n0008 0000 0001\n");
    answer("26 alone", asked(words, MASKED_NOTES_WORDS), MASKED_NOT_A_SHARING, 2, 0, 0);
    answer("26 with more room", asked(words, MASKED_NOTES_WORDS + 2), MASKED_NOT_A_SHARING, 2, 0, 0);
    answer("2 before 26", asked(words, MASKED_NOTES_WORDS - 1), MASKED_NOTES_TOO_SHORT, 0, 0, 0);
    answer("6 before 26", asked(words - 1, MASKED_NOTES_WORDS), MASKED_FRAME_LENGTH, 3, 0, 0);
    answer("1 before 26", asked(MASKED_MOST_WORDS + 1, MASKED_NOTES_WORDS), MASKED_TABLE_TOO_LONG, 0, 0, 0);
    table[words - 2] = 1;
    answer("10 before 26", asked(words, MASKED_NOTES_WORDS), MASKED_WRONG_LABEL, 3, 1, 0);
    table[words - 2] = 2;
    answer("22 before 26", asked(words, MASKED_NOTES_WORDS), MASKED_NOT_REGISTERED, 3, 1, 0);
    table[1] = 9;
    answer("4 before 26", asked(words, MASKED_NOTES_WORDS), MASKED_SHARE_COUNT, 0, 1, 0);
    answer("all null", masked_check_sharings(NULL, 0, NULL, 0, &a, &b, &c), MASKED_NOTES_TOO_SHORT, 0, 0, 0);
    answer("no table", masked_check_sharings(NULL, 0, notes, MASKED_NOTES_WORDS, &a, &b, &c), MASKED_NO_HEAD, 0, 0, 0);
}

int main(void)
{
    answers();
    refusals();
    return summary();
}
