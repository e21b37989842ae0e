/* The proved calls of Hawdreth under C names. Link target/staticlib/libexports.a (made by `tools/build archive`).
 * docs/FORMAT.md describes circuits and rules; examples/c has programs to start from.
 *
 * Slices. A slice is a pointer and a number of elements. The pointer is aligned as its type asks, and leads to that many elements.
 * With length 0 it may be null: no call follows the pointer of an empty slice. The buffers of one call must not overlap.
 *
 * Results. Every call gives MASKED_ACCEPTED (0) or the number of the first rule broken (enum masked_rule), and always writes its
 * numbers *a, *b, *c, whose pointers must not be null:
 *
 *                                    *a              *b                            *c
 *   accepted                         wires           random bits                   latency
 *   refused                          frame           word                          0
 *   masked_read_text, accepted       words written   0
 *   masked_read_text, refused        line            word
 *   masked_write_text, accepted      bytes written   0                             0
 *   masked_count, accepted           wires read      combinations of their values  pairs of sharing and tape of one set
 *
 * The latency is the highest stage of an OUT less the lowest of an IN; 0 without an OUT, without an IN, or where that OUT stage is
 * below that IN stage.
 *
 * A frame is a line of the text, counted from 0 (HEAD), and word 0 is its kind. Rules 1 to 3, 15 to 17 and 23 to 25 are told at
 * frame 0, word 0; rule 4 at frame 0, word 1; rules 18 and 19 at frame 0, the word being the index of the byte (the tape's count on
 * from the shares', a register's byte of the bank is its wire's number counted on from the tape) or of the probe; rules 5, 6, 13,
 * 14, 20, 21 and 26 at word 0 of the frame or line; rules 7 to 12 and 22 at the word that breaks it.
 *
 * Every call ends on any input, keeps nothing, and leans on no earlier call: what a run of masked_clock has in its registers is in the
 * caller's bank. Calls with different buffers may run at one time. */
#ifndef MASKED_H
#define MASKED_H

#include <stddef.h>
#include <stdint.h>

#ifdef __cplusplus
extern "C" {
#endif

enum {
    MASKED_MOST_WORDS = 8192,     /* words of a table */
    MASKED_MOST_WIRES = 8192,     /* wires of a circuit, and least bytes of values, reading and bank */
    MASKED_NOTES_WORDS = 16384,   /* least words of notes */
    MASKED_TEXT_BYTES = 40960,    /* bytes of text that any table fits: five for each word */
    MASKED_COUNTS_NUMBERS = 1024, /* least numbers of counts: four for each of 256 combinations */
    MASKED_INNER = 0xFFFF,        /* both words of an inner wire's note */
    MASKED_REGISTERED = 8,        /* what a registered wire's first word has beside its label; ask for MASKED_INNER before */
    MASKED_UNREAD = 2             /* a reading's byte for a wire that no probe reads */
};

/* The rules, by what each asks. A result names the first one that is broken. */
enum masked_rule {
    MASKED_ACCEPTED = 0,
    MASKED_TABLE_TOO_LONG = 1,    /* the table has at most 8,192 words */
    MASKED_NOTES_TOO_SHORT = 2,   /* the notes have at least 16,384 words */
    MASKED_NO_HEAD = 3,           /* the first line is HEAD: two words, 0000 and the number of shares d */
    MASKED_SHARE_COUNT = 4,       /* the number of shares d is 2 to 8 */
    MASKED_UNKNOWN_KIND = 5,      /* after HEAD a line's first word, the kind, is 0001 to 0008 */
    MASKED_FRAME_LENGTH = 6,      /* a line has as many words as its kind asks for */
    MASKED_OUT_OF_RANGE = 7,      /* a label is below d, a value is 0 or 1, a stage is at most 00FF */
    MASKED_WIRE_NOT_MADE = 8,     /* a word that names a wire names one that an earlier line has made */
    MASKED_WIRE_INNER = 9,        /* no word names a wire inside a gadget; only a gadget's outputs may be named */
    MASKED_WRONG_LABEL = 10,      /* the i-th wire of a row has label i, and both wires of an XOR have one label */
    MASKED_WRONG_STAGE = 11,      /* the wires of a row, and both wires of an XOR, stand at one stage; b of an AND stands one
                                     stage before a */
    MASKED_WRONG_RANDOM = 12,     /* the first-random word is the number of random bits used so far, so that none is used twice */
    MASKED_STAGE_TOO_HIGH = 13,   /* no new wire stands at a stage over 255 */
    MASKED_TOO_MANY_WIRES = 14,   /* there are at most 8,192 wires */
    MASKED_SHARES_LENGTH = 15,    /* the shares are d bytes for each IN; the secrets of a count are two bytes for each IN */
    MASKED_TAPE_LENGTH = 16,      /* the tape is one byte for each random bit */
    MASKED_BUFFER_TOO_SHORT = 17, /* the buffers for values, for the reading and for the bank have at least 8,192 bytes, the one for
                                     counts at least 1,024 numbers */
    MASKED_BYTE_NOT_A_BIT = 18,   /* every byte of the shares, of the tape and of the secrets, and every register's byte of the bank,
                                     is 0 or 1 */
    MASKED_NO_SUCH_PROBE = 19,    /* every probe names a wire of the circuit */
    MASKED_LINE_FORM = 20,        /* a line is words of four digits 0-9A-F, one space between, and a line feed behind the last */
    MASKED_NO_ROOM = 21,          /* the words of all lines fit a table of 8,192 words */
    MASKED_NOT_REGISTERED = 22,   /* every wire that an OUT names is registered: made by an IN, a CON or a REG, or an output of a REF */
    MASKED_TEXT_TOO_SHORT = 23,   /* the buffer for the text has at least five bytes for each word of the table */
    MASKED_TOO_MANY_PAIRS = 24,   /* where a count is asked, the free bits are at most 16: d-1 shares of each IN, and the random
                                     bits */
    MASKED_TOO_MANY_WIRES_READ = 25, /* where a count is asked, the probes read at most 8 wires */
    MASKED_NOT_A_SHARING = 26     /* where whole sharings are asked for, every frame but HEAD and OUT belongs to exactly one, and every
                                     row of AND, REF and OUT is one */
};

/* Checks a table: the words of all frames, one behind the other. Rules 1 to 14 and 22. (In a table, without lines, rule 6 is broken
 * where the table ends inside a frame; 22 is asked of each word of an OUT, behind that word's 8 to 11.)
 *
 * notes   at least 16,384 words. Word 2w is wire w's label (0 to 7), plus MASKED_REGISTERED (8) where the wire is registered: made
 *         by an IN, a CON or a REG, or an output of a REF. Word 2w+1 is its stage. Both are MASKED_INNER (FFFF) for an inner wire of
 *         a gadget, even where that is a register; no frame may name it. Ask for MASKED_INNER first: FFFF has the 8 in it too.
 *         accepted:               the notes of all wires are written; the words behind the last wire's are as they were
 *         rules 1 to 4:           as they were
 *         rules 5 to 14 and 22:   the notes of the wires of all frames before the refused one are written; the rest is as it was */
uint64_t masked_check(const uint16_t *table, size_t table_len, uint16_t *notes, size_t notes_len,
                      uint64_t *a, uint64_t *b, uint64_t *c);

/* Checks, then tells whether the circuit is made of whole sharings, so that its outputs mean something: yes is MASKED_ACCEPTED with
 * the check's numbers, no is rule 26. Rules 1 to 14 and 22 as masked_check, then 26, in table order, at the first frame, or the first
 * frame of a run, that fits none.
 *
 * A whole sharing is d wires, the i-th with label i: the outputs of one IN, AND or REF, or the wires of a run. A run is d frames of
 * one kind in a row, labels 0 to d-1 in order: CON at one stage; NOT or REG over one earlier sharing; XOR over two earlier sharings,
 * equal or not, the first words from the one and the second words from the other. Every frame but HEAD and OUT has to belong to
 * exactly one sharing, and every row of AND, REF and OUT has to be one earlier sharing, wire by wire.
 *
 * notes   as masked_check leaves them; rule 26 leaves them as accepted
 *
 * In the plain circuit each sharing is one bit: that of an IN is its secret bit, that of CON the sum of its d values modulo 2, that of
 * XOR the sum, of AND the product, of REG and REF the same bit; NOT flips it for odd d only. Where the answer is yes, the values that
 * masked_evaluate gives the d wires of a sharing, and so of an OUT, add up to its plain bit, for all shares and every tape. A no is
 * about how the circuit is written: its outputs may still be right, but nothing is promised of them. */
uint64_t masked_check_sharings(const uint16_t *table, size_t table_len, uint16_t *notes, size_t notes_len,
                               uint64_t *a, uint64_t *b, uint64_t *c);

/* Checks, then evaluates. Rules 1 to 14 and 22 as masked_check, then 15 to 18.
 *
 * shares  d bytes 0 or 1 for each IN: IN by IN in the table's order, label by label
 * tape    a byte 0 or 1 for each random bit, in the order in which AND and REF use them
 * notes   as masked_check leaves them; rules 15 to 18 leave them as accepted
 * values  at least 8,192 bytes; byte w is wire w's value, 0 or 1.
 *         accepted:        the bytes of all wires are written; those behind the last wire's are as they were
 *         any refusal:     as they were */
uint64_t masked_evaluate(const uint16_t *table, size_t table_len, uint16_t *notes, size_t notes_len,
                         const uint8_t *shares, size_t shares_len, const uint8_t *tape, size_t tape_len,
                         uint8_t *values, size_t values_len, uint64_t *a, uint64_t *b, uint64_t *c);

/* Checks, then runs the circuit for one clock, as a pipeline that is fed new shares and random bits on every clock. Rules 1 to 14 and
 * 22 as masked_check, then 15 to 18 (17 for values and for the bank, 18 for shares, tape, then the bank).
 *
 * shares, tape    the bits of this clock, in the order that masked_evaluate takes them
 * notes   as masked_check leaves them; rules 15 to 18 leave them as accepted
 * values  at least 8,192 bytes; byte w is wire w's value on this clock: every gate as in an evaluation, but a register shows its byte
 *         of the bank.
 *         accepted:        the bytes of all wires are written; those behind the last wire's are as they were
 *         any refusal:     as they were
 * bank    at least 8,192 bytes, all 0 before the first clock, lent again as they are for the next. Byte w is what register w holds.
 *         The registers are the wire of REG, S of REF, and R, B, M, U, V, W of AND; IN, CON and random bits are none. Bytes of
 *         other wires are neither read nor written.
 *         accepted:        a register's byte is what its input showed on this clock; all others are as they were
 *         any refusal:     as it was, so that a refused call is no clock
 *
 * With the same table and bank lent on clocks 0, 1, 2, .., the shares of an IN at stage s that are fed on clock k belong to set k-s;
 * so do a gadget's random bits, s being the stage of an AND's row b, or of a REF's row. Then a wire of stage t shows on clock j+t what
 * masked_evaluate gives for set j; so an OUT at stage s shows set j on clock j+s, and before clock s no set. That probes tell nothing
 * of the secrets is proved of single evaluations only, not of what a probe sees over several clocks of a run. */
uint64_t masked_clock(const uint16_t *table, size_t table_len, uint16_t *notes, size_t notes_len,
                      const uint8_t *shares, size_t shares_len, const uint8_t *tape, size_t tape_len,
                      uint8_t *values, size_t values_len, uint8_t *bank, size_t bank_len, uint64_t *a, uint64_t *b, uint64_t *c);

/* Checks, evaluates, and tells what probes read. Rules 1 to 18 and 22 as masked_evaluate (17 for values and for the reading),
 * then 19.
 *
 * notes, values   as masked_evaluate leaves them; rule 19 leaves the notes as accepted and the values as they were
 * probes  numbers of wires, inner ones too; one that is named twice counts once, and there may be none
 * reading at least 8,192 bytes.
 *         accepted:        the first 8,192 bytes are all written: byte w is wire w's value where some probe reads that wire, and
 *                          MASKED_UNREAD elsewhere; further bytes are as they were
 *         any refusal:     as it was */
uint64_t masked_read_probes(const uint16_t *table, size_t table_len, uint16_t *notes, size_t notes_len,
                            const uint8_t *shares, size_t shares_len, const uint8_t *tape, size_t tape_len,
                            uint8_t *values, size_t values_len, const uint16_t *probes, size_t probes_len,
                            uint8_t *reading, size_t reading_len, uint64_t *a, uint64_t *b, uint64_t *c);

/* Checks, then counts: goes through all pairs of sharing and tape of two sets of secret bits, and tells how often each combination
 * of the read wires' values arises. Rules 1 to 14 and 22 as masked_check, then 15, 17 (for counts), 18, 19, 24 and 25.
 *
 * notes   as masked_check leaves them; rules 15 to 25 leave them as accepted
 * secrets two bytes 0 or 1 for each IN: the first set, a byte for each IN in the table's order, then the second
 * probes  numbers of wires, as masked_read_probes takes them; there may be d and more, or none
 * counts  at least MASKED_COUNTS_NUMBERS (1,024) numbers. The read wires are those that masked_read_probes shows, rising, at most 8.
 *         The combinations of their values are numbered from 0, the lowest wire being the highest bit. A sharing of a set is any
 *         list of shares that adds up to its bits, so that there are as many pairs of one set as of the other.
 *         accepted:        numbers 4n to 4n+3 are those of combination n, below *b: how many of the *c pairs of the first set give
 *                          it, how many of the second, then the two as parts per thousand of *c, halves up. The counts of one set
 *                          add up to *c; with fewer than d different probes both sets have the same. Further numbers are as they
 *                          were
 *         any refusal:     as it was */
uint64_t masked_count(const uint16_t *table, size_t table_len, uint16_t *notes, size_t notes_len,
                      const uint8_t *secrets, size_t secrets_len, const uint16_t *probes, size_t probes_len,
                      uint32_t *counts, size_t counts_len, uint64_t *a, uint64_t *b, uint64_t *c);

/* Reads a text, lines of hexadecimal words, into a table; it judges no more than that. Rules 20, 3 to 6 and 21, line by line: 21
 * also where the words do not fit the lent table.
 *
 * table   accepted:        the first *a words are those of the text; the rest is as it was. They are what masked_check takes.
 *         any refusal:     the words of the lines before the refused one are written; the rest is as it was */
uint64_t masked_read_text(const uint8_t *text, size_t text_len, uint16_t *table, size_t table_len, uint64_t *a, uint64_t *b);

/* Checks a table, then writes it as text: lines of hexadecimal words, one frame a line. With room for the table, masked_read_text
 * reads this text as that very table, and no other text as it. Rules 1 to 14 and 22 as masked_check, then 23.
 *
 * notes   as masked_check leaves them; rule 23 leaves them as accepted
 * text    at least five bytes for each word of the table, MASKED_TEXT_BYTES for any: four digits 0-9A-F and a space, or a line feed
 *         where the frame ends.
 *         accepted:        the first *a bytes are the lines; the rest is as it was: no byte 0 is put behind them
 *         any refusal:     as it was */
uint64_t masked_write_text(const uint16_t *table, size_t table_len, uint16_t *notes, size_t notes_len,
                           uint8_t *text, size_t text_len, uint64_t *a, uint64_t *b, uint64_t *c);

#ifdef __cplusplus
}
#endif

#endif
