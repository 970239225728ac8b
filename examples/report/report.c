#include "report.h"

#include "aqsurvel.h"

#include <string.h>

/* A run of lent bytes. */
struct bytes {
    const uint8_t *start;
    size_t length;
};

/* Numbers a name, and a row. */
enum { ENTRY_SIZE = 5, ROW_SIZE = 5 };
enum { TEXT_START, TEXT_LENGTH, FIRST_ROW, ROWS, DISTANCE };
enum { KIND, ROW_TEXT_START = 3, ROW_TEXT_LENGTH };
enum { KEPT_NAMES = 1, USED_TEXT, USED_ROWS };

/* What is looked at in each table, and in how much of it. */

static int inside(uint32_t start, uint32_t length, uint32_t used, size_t lent) {
    return used <= lent && start <= used && length <= used - start;
}

static int text_of(const struct kept *kept, uint32_t start, uint32_t length, struct bytes *text) {
    if (!inside(start, length, kept->state[USED_TEXT], kept->text_len))
        return 0;
    text->start = kept->text + start;
    text->length = length;
    return 1;
}

static int name_of(const struct kept *kept, uint32_t number, const uint32_t **entry, struct bytes *name) {
    if (number >= kept->state[KEPT_NAMES] || number >= kept->names_len / ENTRY_SIZE)
        return 0;
    *entry = kept->names + (size_t)number * ENTRY_SIZE;
    return (*entry)[TEXT_LENGTH] != 0 && (*entry)[TEXT_LENGTH] <= AQ_MOST_BYTES &&
           text_of(kept, (*entry)[TEXT_START], (*entry)[TEXT_LENGTH], name);
}

static const uint32_t *rows_of(const struct kept *kept, const uint32_t *entry) {
    if (entry[ROWS] == 0 || entry[ROWS] > AQ_MOST_ROWS ||
        !inside(entry[FIRST_ROW], entry[ROWS], kept->state[USED_ROWS], kept->rows_len / ROW_SIZE))
        return NULL;
    return kept->rows + (size_t)entry[FIRST_ROW] * ROW_SIZE;
}

static const char *kind_of(const uint32_t *row) {
    switch (row[KIND]) {
    case 1: return "STRING";
    case 2: return "CHAR";
    case 4: return "DIGITS0";
    case 7: return "DIGITS";
    default: return NULL;
    }
}

/* How it is printed: a column a byte, so that what stands below is below. */

static int is_shown(uint8_t byte) { return byte > 32 && byte < 127; }

/* A name is whole; what a card returned may be longer than any name. */
static void print_bytes(FILE *out, struct bytes bytes) {
    for (size_t place = 0; place < bytes.length && place <= AQ_MOST_BYTES; place++)
        fputc(is_shown(bytes.start[place]) ? bytes.start[place] : '.', out);
    if (bytes.length > AQ_MOST_BYTES + 1)
        fprintf(out, " and %zu bytes more", bytes.length - AQ_MOST_BYTES - 1);
}

static void print_line(FILE *out, const char *about, struct bytes bytes) {
    fprintf(out, bytes.length == 0 ? "  %s" : "  %-9s ", about);
    print_bytes(out, bytes);
    fputc('\n', out);
}

static void print_byte(FILE *out, struct bytes bytes, size_t place) {
    if (place >= bytes.length)
        fputs("nothing", out);
    else if (is_shown(bytes.start[place]))
        fprintf(out, "'%c'", bytes.start[place]);
    else
        fprintf(out, "0x%02x", bytes.start[place]);
}

static void print_outside(FILE *out, const char *about) { fprintf(out, "  %-9s %s\n", about, aq_refusal(13)); }

static size_t first_difference(struct bytes a, struct bytes b) {
    size_t place = 0;
    while (place < a.length && place < b.length && a.start[place] == b.start[place])
        place++;
    return place;
}

static void print_mark(FILE *out, size_t place, struct bytes claim, struct bytes name) {
    fprintf(out, "  %-9s %*s^ byte %zu: ", "", (int)place, "", place);
    print_byte(out, claim, place);
    fputs(" where the name has ", out);
    print_byte(out, name, place);
    fputc('\n', out);
}

static void print_another_text(FILE *out) {
    fputs("  token     not known, the rows have another text than the name\n", out);
}

/* The rows' texts, one after the other, are the name; of a copied name they lie in the name that it copies. So a
 * token's place is where the texts before it end, and its text is held against the name's. */
static void print_token(FILE *out, const struct kept *kept, const uint32_t *entry, struct bytes name, size_t place) {
    const uint32_t *row = rows_of(kept, entry);
    size_t start = 0;
    if (row == NULL) {
        print_outside(out, "token");
        return;
    }
    for (uint32_t position = 1; position <= entry[ROWS]; position++, row += ROW_SIZE) {
        struct bytes token;
        if (kind_of(row) == NULL || !text_of(kept, row[ROW_TEXT_START], row[ROW_TEXT_LENGTH], &token)) {
            print_outside(out, "token");
            return;
        }
        if (token.length > name.length - start || memcmp(token.start, name.start + start, token.length) != 0) {
            print_another_text(out);
            return;
        }
        if (place < start + token.length) {
            fprintf(out, "  token     %s ", kind_of(row));
            print_bytes(out, token);
            fprintf(out, ", position %u of %u, ", (unsigned)position, (unsigned)entry[ROWS]);
            if (token.length == 1)
                fprintf(out, "byte %zu\n", start);
            else
                fprintf(out, "bytes %zu to %zu\n", start, start + token.length - 1);
            return;
        }
        start += token.length;
    }
    if (start == name.length)
        fprintf(out, "  token     END, position %u, after byte %zu\n", (unsigned)entry[ROWS] + 1, start - 1);
    else
        print_another_text(out);
}

static void print_leaning(FILE *out, const struct kept *kept, const uint32_t *entry, uint32_t number) {
    const uint32_t *earlier;
    struct bytes name;
    uint32_t distance = entry[DISTANCE];
    if (distance == 0)
        fputs("  leans on  no name, distance 0\n", out);
    else if (distance > number)
        fprintf(out, "  leans on  distance %u: %s\n", (unsigned)distance, aq_refusal(4));
    else if (!name_of(kept, number - distance, &earlier, &name))
        fprintf(out, "  leans on  name %u, distance %u: %s\n", (unsigned)(number - distance), (unsigned)distance,
                aq_refusal(13));
    else {
        fprintf(out, "  leans on  name %u, distance %u: ", (unsigned)(number - distance), (unsigned)distance);
        print_bytes(out, name);
        fputc('\n', out);
    }
}

void report_name(FILE *out, uint32_t number, const struct kept *kept) {
    const uint32_t *entry;
    struct bytes name;
    if (name_of(kept, number, &entry, &name))
        print_line(out, "the name", name);
    else
        print_outside(out, "the name");
}

static void report_denied(FILE *out, uint32_t number, struct bytes claim, const struct kept *kept) {
    const uint32_t *entry;
    struct bytes name;
    fprintf(out, "denied: name %u\n", (unsigned)number);
    print_line(out, "returned", claim);
    report_name(out, number, kept);
    if (!name_of(kept, number, &entry, &name))
        return;
    size_t place = first_difference(claim, name);
    if (place == claim.length && place == name.length) {
        fputs("  the same, so the tables were changed after the claim\n", out);
        return;
    }
    print_mark(out, place, claim, name);
    print_token(out, kept, entry, name, place);
    print_leaning(out, kept, entry, number);
}

static void print_refusal(FILE *out, uint64_t answer) {
    fprintf(out, "refused %u: %s\n", (unsigned)AQ_CODE(answer), aq_refusal(AQ_CODE(answer)));
}

static void print_number(FILE *out, uint32_t number) { fprintf(out, "  name      %u\n", (unsigned)number); }

void report_refusal(FILE *out, uint64_t answer) {
    print_refusal(out, answer);
    /* 11 always has a number, be it the one that elsewhere says that there is none. */
    if (AQ_CODE(answer) == 11 || AQ_VALUE(answer) != AQ_NO_NAME)
        print_number(out, AQ_VALUE(answer));
    else
        fputs("  name      none goes with it\n", out);
}

void report_claim(FILE *out, uint64_t answer, uint32_t number, const uint8_t *claim, size_t claim_len,
                  const struct kept *kept) {
    struct bytes returned = {claim, claim_len};
    if (AQ_CODE(answer) != 0) {
        /* The number claimed: where the state is wrong altogether, the answer has none. */
        print_refusal(out, answer);
        print_number(out, number);
        print_line(out, "returned", returned);
    } else if (AQ_VALUE(answer) == 0)
        report_denied(out, number, returned, kept);
}
