/* What include/masked.h says of slices and buffers, tried from C: null with length 0, and what each buffer holds afterwards.
 * Exit status: 0 where all of it holds. */
#define PROGRAM "calls.c"
#include "calls.h"

static uint8_t values[MASKED_MOST_WIRES + 2], reading[MASKED_MOST_WIRES + 2], text[MASKED_TEXT_BYTES + 2];
static uint8_t bank[MASKED_MOST_WIRES + 2];
static uint32_t counts[MASKED_COUNTS_NUMBERS + 2];

static void junk(void)
{
    memset(notes, JUNK, sizeof notes);
    memset(values, JUNK, sizeof values);
    memset(reading, JUNK, sizeof reading);
    memset(text, JUNK, sizeof text);
    memset(counts, JUNK, sizeof counts);
    a = b = c = UINT64_MAX;
}

static void empty_slices(void)
{
    size_t words = read_text("0000 0002\n");
    junk();
    answer("check, all null", masked_check(NULL, 0, NULL, 0, &a, &b, &c), MASKED_NOTES_TOO_SHORT, 0, 0, 0);
    answer("check, no table", masked_check(NULL, 0, notes, MASKED_NOTES_WORDS, &a, &b, &c), MASKED_NO_HEAD, 0, 0, 0);
    answer("evaluate, no shares and tape",
           masked_evaluate(table, words, notes, MASKED_NOTES_WORDS, NULL, 0, NULL, 0, values, MASKED_MOST_WIRES, &a, &b, &c),
           MASKED_ACCEPTED, 0, 0, 0);
    answer("evaluate, no values", masked_evaluate(table, words, notes, MASKED_NOTES_WORDS, NULL, 0, NULL, 0, NULL, 0, &a, &b, &c),
           MASKED_BUFFER_TOO_SHORT, 0, 0, 0);
    answer("read_probes, no probes",
           masked_read_probes(table, words, notes, MASKED_NOTES_WORDS, NULL, 0, NULL, 0, values, MASKED_MOST_WIRES, NULL, 0,
                              reading, MASKED_MOST_WIRES, &a, &b, &c),
           MASKED_ACCEPTED, 0, 0, 0);
    answer("read_probes, no reading",
           masked_read_probes(table, words, notes, MASKED_NOTES_WORDS, NULL, 0, NULL, 0, values, MASKED_MOST_WIRES, NULL, 0,
                              NULL, 0, &a, &b, &c),
           MASKED_BUFFER_TOO_SHORT, 0, 0, 0);
    answer("read_text, no text", masked_read_text(NULL, 0, table, MASKED_MOST_WORDS, &a, &b), MASKED_NO_HEAD, 0, 0, 0);
    answer("read_text, no table", masked_read_text((const uint8_t *)"0000 0002\n", 10, NULL, 0, &a, &b), MASKED_NO_ROOM, 0, 0, 0);
    answer("write_text, all null", masked_write_text(NULL, 0, NULL, 0, NULL, 0, &a, &b, &c), MASKED_NOTES_TOO_SHORT, 0, 0, 0);
    answer("write_text, no table", masked_write_text(NULL, 0, notes, MASKED_NOTES_WORDS, NULL, 0, &a, &b, &c),
           MASKED_NO_HEAD, 0, 0, 0);
    answer("write_text, no text", masked_write_text(table, words, notes, MASKED_NOTES_WORDS, NULL, 0, &a, &b, &c),
           MASKED_TEXT_TOO_SHORT, 0, 0, 0);
    answer("count, all null", masked_count(NULL, 0, NULL, 0, NULL, 0, NULL, 0, NULL, 0, &a, &b, &c), MASKED_NOTES_TOO_SHORT, 0, 0, 0);
    answer("count, no counts", masked_count(table, words, notes, MASKED_NOTES_WORDS, NULL, 0, NULL, 0, NULL, 0, &a, &b, &c),
           MASKED_BUFFER_TOO_SHORT, 0, 0, 0);
    answer("count, no secrets and probes",
           masked_count(table, words, notes, MASKED_NOTES_WORDS, NULL, 0, NULL, 0, counts, MASKED_COUNTS_NUMBERS, &a, &b, &c),
           MASKED_ACCEPTED, 0, 1, 1);
    answer("clock, all null", masked_clock(NULL, 0, NULL, 0, NULL, 0, NULL, 0, NULL, 0, NULL, 0, &a, &b, &c),
           MASKED_NOTES_TOO_SHORT, 0, 0, 0);
    answer("clock, no bank",
           masked_clock(table, words, notes, MASKED_NOTES_WORDS, NULL, 0, NULL, 0, values, MASKED_MOST_WIRES, NULL, 0, &a, &b, &c),
           MASKED_BUFFER_TOO_SHORT, 0, 0, 0);
    answer("clock, no shares and tape",
           masked_clock(table, words, notes, MASKED_NOTES_WORDS, NULL, 0, NULL, 0, values, MASKED_MOST_WIRES, bank, MASKED_MOST_WIRES,
                        &a, &b, &c),
           MASKED_ACCEPTED, 0, 0, 0);
}

static void buffers(void)
{
    const uint8_t shares[] = {1, 0, 1, 1}, tape[] = {1}, wrong[] = {1, 0, 1, 2};
    const uint16_t probe[] = {24}, none[] = {28};
    size_t words = read_text(circuit_a);
    junk();
    answer("accepted", masked_read_probes(table, words, notes, MASKED_NOTES_WORDS, shares, 4, tape, 1, values, MASKED_MOST_WIRES,
                                          probe, 1, reading, sizeof reading, &a, &b, &c), MASKED_ACCEPTED, 28, 1, 3);
    is("an output's note", notes[48] == 0 && notes[49] == 2 && notes[50] == 1 && notes[51] == 2);
    is("a registered wire's note", notes[52] == MASKED_REGISTERED && notes[53] == 3 && notes[54] == MASKED_REGISTERED + 1);
    is("an inner wire's note", notes[46] == MASKED_INNER && notes[47] == MASKED_INNER);
    is("notes behind the last wire", kept(notes, 2 * 2 * 28, sizeof notes));
    is("values", values[24] == 1 && values[18] == 1 && values[23] == 0 && values[27] == 1 && kept(values, 28, sizeof values));
    is("the reading", reading[8] == 1 && reading[13] == 0 && reading[17] == 0 && reading[24] == MASKED_UNREAD
                          && reading[MASKED_MOST_WIRES - 1] == MASKED_UNREAD && kept(reading, MASKED_MOST_WIRES, sizeof reading));
    junk();
    answer("rule 18", masked_evaluate(table, words, notes, MASKED_NOTES_WORDS, wrong, 4, tape, 1, values, MASKED_MOST_WIRES,
                                      &a, &b, &c), MASKED_BYTE_NOT_A_BIT, 0, 3, 0);
    is("18 leaves the notes as accepted, no values", notes[48] == 0 && notes[49] == 2 && kept(values, 0, sizeof values));
    junk();
    answer("rule 19", masked_read_probes(table, words, notes, MASKED_NOTES_WORDS, shares, 4, tape, 1, values, MASKED_MOST_WIRES,
                                         none, 1, reading, MASKED_MOST_WIRES, &a, &b, &c), MASKED_NO_SUCH_PROBE, 0, 0, 0);
    is("19 leaves values and reading", kept(values, 0, sizeof values) && kept(reading, 0, sizeof reading));
    junk();
    table[words - 1] = 28;
    answer("rule 8", masked_check(table, words, notes, MASKED_NOTES_WORDS, &a, &b, &c), MASKED_WIRE_NOT_MADE, 6, 2, 0);
    is("8 leaves the earlier frames' notes", notes[52] == 8 && notes[53] == 3 && kept(notes, 2 * 2 * 28, sizeof notes));
    junk();
    table[words - 2] = 24;
    answer("rule 22", masked_check(table, words, notes, MASKED_NOTES_WORDS, &a, &b, &c), MASKED_NOT_REGISTERED, 6, 1, 0);
    is("22 leaves the earlier frames' notes", notes[52] == 8 && notes[53] == 3 && kept(notes, 2 * 2 * 28, sizeof notes));
    junk();
    table[1] = 9;
    answer("rule 4", masked_check(table, words, notes, MASKED_NOTES_WORDS, &a, &b, &c), MASKED_SHARE_COUNT, 0, 1, 0);
    is("4 leaves the notes", kept(notes, 0, sizeof notes));
    memset(table, JUNK, sizeof table);
    c = 0;
    answer("text, rule 5", masked_read_text((const uint8_t *)"0000 0002\n0009 0000\n", 20, table, MASKED_MOST_WORDS, &a, &b),
           MASKED_UNKNOWN_KIND, 1, 0, 0);
    is("the words of the lines before", table[0] == 0 && table[1] == 2 && kept(table, 4, sizeof table));
}

/* Room for a text: exact, more, and a byte short; and a table that is refused. */
static void texts(void)
{
    const size_t bytes = strlen(circuit_a), rooms[] = {bytes, bytes + 1, sizeof text};
    size_t words = read_text(circuit_a);
    for (size_t i = 0; i < sizeof rooms / sizeof *rooms; i++) {
        junk();
        answer("a text is written", masked_write_text(table, words, notes, MASKED_NOTES_WORDS, text, rooms[i], &a, &b, &c),
               MASKED_ACCEPTED, bytes, 0, 0);
        is("its lines, and the bytes behind", memcmp(text, circuit_a, bytes) == 0 && kept(text, bytes, sizeof text));
        is("its notes", noted());
    }
    uint64_t both;
    is("the third number is written first",
       masked_write_text(table, words, notes, MASKED_NOTES_WORDS, text, sizeof text, &both, &b, &both) == MASKED_ACCEPTED && both == bytes);
    junk();
    answer("rule 23", masked_write_text(table, words, notes, MASKED_NOTES_WORDS, text, bytes - 1, &a, &b, &c),
           MASKED_TEXT_TOO_SHORT, 0, 0, 0);
    is("23 leaves the text, and the notes as accepted", kept(text, 0, sizeof text) && noted());
    junk();
    table[words - 1] = 24;
    answer("rule 10, written", masked_write_text(table, words, notes, MASKED_NOTES_WORDS, text, sizeof text, &a, &b, &c),
           MASKED_WRONG_LABEL, 6, 2, 0);
    is("10 leaves the text", kept(text, 0, sizeof text));
    answer("rule 10 before 23", masked_write_text(table, words, notes, MASKED_NOTES_WORDS, text, 0, &a, &b, &c),
           MASKED_WRONG_LABEL, 6, 2, 0);
}

/* Counts circuit A. */
static uint64_t count(size_t words, const uint8_t *secrets, size_t length, const uint16_t *probes, size_t number, size_t room)
{
    junk();
    return masked_count(table, words, notes, MASKED_NOTES_WORDS, secrets, length, probes, number, counts, room, &a, &b, &c);
}

/* The rows of both sets, in exact and in more room, and each rule of the call with what it leaves. */
static void counted(void)
{
    const uint8_t sets[] = {0, 0, 1, 1}, wrong[] = {0, 0, 1, 2};
    const uint16_t outputs[] = {27, 26, 27}, one[] = {24}, none[] = {24, 28}, many[] = {0, 1, 2, 3, 4, 5, 6, 8, 9};
    const uint32_t both[] = {4, 0, 500, 0, 0, 4, 0, 500, 0, 4, 0, 500, 4, 0, 500, 0};
    const uint32_t firsts[] = {3, 1, 2, 0, 1, 1, 0, 0};
    const size_t rooms[] = {MASKED_COUNTS_NUMBERS, MASKED_COUNTS_NUMBERS + 2};
    size_t words = read_text(circuit_a);
    for (size_t i = 0; i < sizeof rooms / sizeof *rooms; i++) {
        answer("two probes", count(words, sets, 4, outputs, 3, rooms[i]), MASKED_ACCEPTED, 2, 4, 8);
        is("their rows, and the numbers behind", memcmp(counts, both, sizeof both) == 0 && kept(counts, sizeof both, sizeof counts));
        is("the notes of a count", noted());
    }
    answer("one probe", count(words, sets, 4, one, 1, MASKED_COUNTS_NUMBERS), MASKED_ACCEPTED, 3, 8, 8);
    for (size_t n = 0; n < 8; n++)
        is("its row", counts[4 * n] == firsts[n] && counts[4 * n + 1] == firsts[n] && counts[4 * n + 2] == 125 * firsts[n]
                          && counts[4 * n + 3] == 125 * firsts[n]);
    is("the numbers behind", kept(counts, sizeof *counts * 4 * 8, sizeof counts));
    answer("no probes", count(words, sets, 4, NULL, 0, MASKED_COUNTS_NUMBERS), MASKED_ACCEPTED, 0, 1, 8);
    is("its row", counts[0] == 8 && counts[1] == 8 && counts[2] == 1000 && counts[3] == 1000 && counts[4] == counts[5]);
    answer("eight wires", count(words, sets, 4, many, 8, MASKED_COUNTS_NUMBERS), MASKED_ACCEPTED, 8, 256, 8);
    is("256 rows", kept(counts, sizeof *counts * MASKED_COUNTS_NUMBERS, sizeof counts) && counts[MASKED_COUNTS_NUMBERS - 1] == 0);
    answer("count, rule 15", count(words, wrong, 3, none, 2, 1023), MASKED_SHARES_LENGTH, 0, 0, 0);
    answer("count, rule 17", count(words, wrong, 4, none, 2, 1023), MASKED_BUFFER_TOO_SHORT, 0, 0, 0);
    answer("count, rule 18", count(words, wrong, 4, none, 2, 1024), MASKED_BYTE_NOT_A_BIT, 0, 3, 0);
    answer("count, rule 19", count(words, sets, 4, none, 2, 1024), MASKED_NO_SUCH_PROBE, 0, 1, 0);
    answer("count, rule 25", count(words, sets, 4, many, 9, 1024), MASKED_TOO_MANY_WIRES_READ, 0, 0, 0);
    is("25 leaves the counts, and the notes as accepted", kept(counts, 0, sizeof counts) && noted());
    table[words - 1] = 24;
    answer("rule 10, counted", count(words, wrong, 3, none, 2, 1023), MASKED_WRONG_LABEL, 6, 2, 0);
    is("10 leaves the counts", kept(counts, 0, sizeof counts));
    words = read_text("0000 0008\n0001 0000\n0001 0000\n0001 0000\n");
    answer("rule 24 before 25", count(words, (const uint8_t[6]){0}, 6, many, 9, 1024), MASKED_TOO_MANY_PAIRS, 0, 0, 0);
    is("24 leaves the counts", kept(counts, 0, sizeof counts));
}

/* One clock of circuit A on shares and tape of the lengths told; the values are junk before it, the bank is as it is. */
static uint64_t step(size_t words, const uint8_t *shares, size_t length, const uint8_t *tape, size_t bits, size_t room, size_t banked)
{
    junk();
    return masked_clock(table, words, notes, MASKED_NOTES_WORDS, shares, length, tape, bits, values, room, bank, banked, &a, &b, &c);
}

/* The bank of circuit A before the first clock: 0 for the registers, junk for all others, also behind the last wire. */
static const uint8_t registers[] = {5, 6, 8, 9, 11, 13, 15, 17, 19, 21, 23, 26, 27};

static void empty_bank(void)
{
    memset(bank, JUNK, sizeof bank);
    for (size_t i = 0; i < sizeof registers; i++)
        bank[registers[i]] = 0;
}

/* The registers of the bank as digits, in rising order, and the other bytes as they were. */
static int banked(const char *digits)
{
    size_t next = 0;
    for (size_t wire = 0; wire < sizeof bank; wire++)
        if (next < sizeof registers && wire == registers[next] ? bank[wire] != digits[next++] - '0' : bank[wire] != JUNK)
            return 0;
    return 1;
}

/* Four clocks on the bits of case A1: each wire of stage t has its value from clock t on. Then each rule of the call. */
static void clocked(void)
{
    const uint8_t shares[] = {1, 0, 1, 1}, tape[] = {1}, two[] = {2}, wrong[] = {1, 0, 1, 2};
    const char *banks[] = {"1101000000000", "1111000010000", "1111000010011", "1111000010011"};
    const char *outputs[] = {"0000", "0000", "1100", "1111"};
    size_t words = read_text(circuit_a);
    empty_bank();
    for (size_t k = 0; k < 4; k++) {
        answer("a clock", step(words, shares, 4, tape, 1, sizeof values, k % 2 ? MASKED_MOST_WIRES : sizeof bank),
               MASKED_ACCEPTED, 28, 1, 3);
        for (size_t i = 0; i < 4; i++)
            is("products and their registers", values[24 + i] == outputs[k][i] - '0');
        is("inputs, and the values behind", values[0] == 1 && values[1] == 0 && values[4] == 1 && kept(values, 28, sizeof values));
        is("the bank after it", banked(banks[k]));
        is("its notes", noted());
    }
    answer("clock, rule 15", step(words, shares, 3, two, 2, 8191, 8191), MASKED_SHARES_LENGTH, 0, 0, 0);
    answer("clock, rule 16", step(words, wrong, 4, two, 0, 8191, 8191), MASKED_TAPE_LENGTH, 0, 0, 0);
    answer("clock, rule 17, values", step(words, wrong, 4, two, 1, 8191, 8192), MASKED_BUFFER_TOO_SHORT, 0, 0, 0);
    answer("clock, rule 17, bank", step(words, wrong, 4, two, 1, 8192, 8191), MASKED_BUFFER_TOO_SHORT, 0, 0, 0);
    answer("clock, rule 18, shares", step(words, wrong, 4, two, 1, 8192, 8192), MASKED_BYTE_NOT_A_BIT, 0, 3, 0);
    answer("clock, rule 18, tape", step(words, shares, 4, two, 1, 8192, 8192), MASKED_BYTE_NOT_A_BIT, 0, 4, 0);
    is("a refusal is no clock", banked(banks[3]) && kept(values, 0, sizeof values) && noted());
    bank[27] = bank[8] = 2;
    answer("clock, rule 18, bank", step(words, shares, 4, tape, 1, 8192, 8192), MASKED_BYTE_NOT_A_BIT, 0, 5 + 8, 0);
    bank[8] = 1;
    answer("clock, rule 18, the last register", step(words, shares, 4, tape, 1, 8192, 8192), MASKED_BYTE_NOT_A_BIT, 0, 5 + 27, 0);
    is("18 leaves the bank", bank[27] == 2 && bank[8] == 1 && kept(values, 0, sizeof values));
    table[words - 1] = 24;
    answer("rule 10, clocked", step(words, wrong, 3, two, 2, 8191, 8191), MASKED_WRONG_LABEL, 6, 2, 0);
    is("10 leaves bank and values", bank[27] == 2 && kept(values, 0, sizeof values));
}

int main(void)
{
    empty_slices();
    buffers();
    texts();
    counted();
    clocked();
    return summary();
}
