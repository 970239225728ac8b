/* aqsurvel: the read names of a CRAM 4 draft block, read, written and checked; an adaptive model's table, replayed.
 *
 * Link with libaqsurvel.a. Every function answers for any block, table, state, name or trace handed to it; none
 * allocates, prints, blocks or keeps a pointer, and none uses memory other than what the caller lends for the call and
 * less than 1,024 bytes of stack.
 *
 * Lending
 *   A slice is two arguments: a pointer, then its length IN ELEMENTS. Length 0 may come with a null pointer.
 *   The caller answers for three things that no function can see:
 *   - alignment: a uint32_t pointer is aligned for uint32_t;
 *   - sizes: as many elements as the length says can be read (and written, where the pointer isn't const); of a model's
 *     symbols and frequencies all 256, whatever the size of its table;
 *   - overlap: what a call may write lies in no other slice of the same call, and state and totals in none either; a
 *     model's three (symbols, frequencies, total) don't overlap one another or the trace.
 *   state, totals and a model's three are never null. Calls that are lent different memory may run at the same time.
 *
 * Tables (numbers are uint32_t)
 *   directory  2,580 numbers: for each position 0 to 128 ten spans, each a start and an end in bytes, in the order
 *              TYPE STRING CHAR DIGITS0 DZLEN DUP DIFF DIGITS DDELTA DDELTA0
 *   cursors    1,290 numbers: for each span an offset into the bytes
 *   names      five numbers a name: text start, text length, first row, number of rows, distance; a distance of 0 means
 *              no earlier name: name 0 has it, and every later name that starts afresh
 *   rows       five numbers a row: kind (1 STRING, 2 CHAR, 4 DIGITS0, 7 DIGITS), number, width, text start, text length
 *   text       each kept name followed by byte 10
 *   state      count of the block, names kept (k), text bytes used, rows used
 *   a model    symbols, 256 numbers: which symbol stands at each place; frequencies, 256 numbers: that of the symbol at
 *              the same place; and the total, one number. A table of so many symbols has the places below its size
 *
 * Answers
 *   Every function but aq_refusal returns a uint64_t: the low 32 bits are the code, the high 32 bits the value.
 *   code 0          the call did what it is for; the value is said at each function
 *   code 1 to 23    refused, with the number of the table below (14 to 16 and 19 to 23 are set aside); the value is the
 *                   number of the name that goes with it, or AQ_NO_NAME where none does. 11 always has one: the number
 *                   claimed, be it 0xFFFFFFFF
 *   code 256        done: every name of the block is read; the value is k
 *
 *   1   directory or cursor table of another length, a start above its end, an end above the bytes
 *   2   a span ends before what is wanted
 *   3   a type that isn't 5 or 6 at position 0, or not in the table at 1 to 128
 *   4   a distance that the name may not have: above its number, or 0 with DUP
 *   5   MATCH, DDELTA or DDELTA0 with no earlier name (distance 0) or no fitting row
 *   6   a sum of 2^32 or more, a width of 0, a number too long for its width
 *   7   at position 128, a type in the table other than END
 *   8   a byte SAM doesn't allow, more than 254 bytes, or none
 *   9   no room in a lent buffer or table
 *   10  every name is read and a cursor is short of its end
 *   11  a claim on a name that is not read yet
 *   12  more than 65,536 names; in writing also a last name without byte 10
 *   13  kept numbers that point outside
 *   17  a table size other than 1 to 256
 *   18  a symbol outside the table
 *
 *   A refused call leaves every slice, state, totals and a model's three as they were, but for two. A refused
 *   aq_read_block keeps what opening and the reads before the refusal did: the names below k can be claimed, and
 *   state[0] is the new block's count. Where opening itself is refused (1 and 12), nothing changed, and the state still
 *   speaks of the block before. An aq_model_replay refused with 18 has the table started and keeps what the symbols
 *   before the bad one did; refused with 17 it changes nothing.
 */
#ifndef AQSURVEL_H
#define AQSURVEL_H

#include <stddef.h>
#include <stdint.h>

#ifdef __cplusplus
extern "C" {
#endif

#define AQ_DONE 256u
#define AQ_NO_NAME 0xFFFFFFFFu

#define AQ_DIRECTORY 2580u /* numbers in a directory */
#define AQ_CURSORS 1290u   /* numbers in a cursor table */
#define AQ_MOST_NAMES 65536u
#define AQ_MOST_BYTES 254u /* of a name */
#define AQ_MOST_ROWS 127u  /* of a name */
#define AQ_PLACES 256u     /* of a model */

#define AQ_CODE(answer) ((uint32_t)((answer) & 0xFFFFFFFFu))
#define AQ_VALUE(answer) ((uint32_t)((answer) >> 32))

/* Room that always suffices for a block of so many names. */
#define AQ_TEXT_FOR(count) ((size_t)(count) * (AQ_MOST_BYTES + 1u))
#define AQ_NAMES_FOR(count) ((size_t)(count) * 5u)
#define AQ_ROWS_FOR(count) ((size_t)(count) * AQ_MOST_ROWS * 5u)

/* Bytes that always suffice to write an input of so many bytes. The most is taken by the name "0": two bytes of input,
 * and twelve for its type and distance, DIGITS0 with its width, and END. */
#define AQ_BYTES_FOR(input_len) ((size_t)(input_len) * 6u)

/* Start on a block: each cursor goes to its start, the state to (count, 0, 0, 0). Code 0: opened, value 0. */
uint64_t aq_open(const uint8_t *bytes, size_t bytes_len, const uint32_t *directory, size_t directory_len,
                 uint32_t count, uint32_t *cursors, size_t cursors_len, uint32_t state[4]);

/* Read the next name. Code 0: one name kept, value its number; 256: done. */
uint64_t aq_read(const uint8_t *bytes, size_t bytes_len, const uint32_t *directory, size_t directory_len,
                 uint32_t *cursors, size_t cursors_len, uint8_t *text, size_t text_len,
                 uint32_t *names, size_t names_len, uint32_t *rows, size_t rows_len, uint32_t state[4]);

/* Open a block and read it to its end: 256, or the refusal that it stopped at. */
uint64_t aq_read_block(const uint8_t *bytes, size_t bytes_len, const uint32_t *directory, size_t directory_len,
                       uint32_t count, uint32_t *cursors, size_t cursors_len, uint8_t *text, size_t text_len,
                       uint32_t *names, size_t names_len, uint32_t *rows, size_t rows_len, uint32_t state[4]);

/* Is this the name of that number, all of its bytes and nothing else? Code 0: value 1 confirmed, 0 denied. */
uint64_t aq_claim(uint32_t number, const uint8_t *claim, size_t claim_len,
                  const uint8_t *text, size_t text_len, const uint32_t *names, size_t names_len,
                  const uint32_t state[4]);

/* Write names, each ended by byte 10, into token streams. A longest run of the letters A to Z and a to z is one token of
 * a name, as is one of digits up to nine, and every other byte; what is left behind 126 tokens is the last. Code 0: value
 * the number of bytes written; totals: names, bytes. The directory is filled, and the bytes up to the total and no
 * more. */
uint64_t aq_write(const uint8_t *input, size_t input_len, uint32_t *directory, size_t directory_len,
                  uint8_t *bytes, size_t bytes_len, uint32_t totals[2]);

/* Replay a trace of the symbols that an adaptive model saw: the table it should end with. It starts with each symbol at
 * its own place, all frequencies 1; a symbol's frequency and the total grow by 8; a total above 65,504 has every
 * frequency less its half rounded down, with the total summed afresh; then the symbol moves up one place, towards place
 * 0, if its frequency exceeds that of its neighbour there. What the model held isn't looked at. Code 0: replayed, value
 * 0; 17, then 18, which is for a symbol that isn't below the size, so never at size 256, and doesn't say which. Only the
 * places below the size and the total are written, at 18 too, and nothing at 17. */
uint64_t aq_model_replay(uint32_t size, const uint8_t *trace, size_t trace_len,
                         uint32_t symbols[256], uint32_t frequencies[256], uint32_t total[1]);

/* A line of text for a refusal's number, for logs. */
static inline const char *aq_refusal(uint32_t number) {
    switch (number) {
    case 1: return "directory or cursors don't lie over the bytes";
    case 2: return "a span ends too early";
    case 3: return "a type that has no meaning at its position";
    case 4: return "a distance that the name may not have";
    case 5: return "nothing fitting to lean on in an earlier name";
    case 6: return "a number too large, or a width it doesn't fit";
    case 7: return "no END at the last position";
    case 8: return "a name that SAM doesn't allow";
    case 9: return "no room";
    case 10: return "bytes left over after the last name";
    case 11: return "a name that is not read yet";
    case 12: return "too many names, or a last one that isn't ended";
    case 13: return "kept numbers that point outside";
    case 17: return "a table size that no model has";
    case 18: return "a symbol outside the table";
    default: return "no refusal";
    }
}

#ifdef __cplusplus
}
#endif
#endif
