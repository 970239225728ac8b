/* What went wrong, for a person at a bench: a denied claim or a refusal, from the library's answer and what was lent.
 *
 * Beside a denied claim stand both names, the first byte that differs, the token that it belongs to, and the name that
 * this one leans on. Names and bytes are counted from 0, tokens from position 1. All of it is looked up in the lent
 * tables. Whatever they hold, nothing is read outside of them: a number that points outside is said to, and what it
 * would have led to is left out. */
#ifndef REPORT_H
#define REPORT_H

#include <stddef.h>
#include <stdint.h>
#include <stdio.h>

/* What reading keeps, lent as to the library: lengths in elements. */
struct kept {
    const uint8_t *text;
    size_t text_len;
    const uint32_t *names;
    size_t names_len;
    const uint32_t *rows;
    size_t rows_len;
    const uint32_t *state; /* four numbers */
};

/* What aq_claim answered: nothing is printed for a name that is confirmed. */
void report_claim(FILE *out, uint64_t answer, uint32_t number, const uint8_t *claim, size_t claim_len,
                  const struct kept *kept);

/* A name as it is kept, below a line of the caller's about it. */
void report_name(FILE *out, uint32_t number, const struct kept *kept);

/* The refusal of any call. */
void report_refusal(FILE *out, uint64_t answer);

#endif
