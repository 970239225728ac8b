/* A card reports read names by number, in any order. Each report is a claim, held against the block's own names. Then it
 * dumps the symbols that its adaptive model saw, and the table that they should have left is printed.
 *
 * The card's block is made here from six names, three pairs of mates; four of them are read, one a call, when the
 * first reports come in, and the rest later. */
#include "aqsurvel.h"

#include <stdio.h>
#include <string.h>

enum { COUNT = 6 };

static const char INPUT[] = "run7:0098/1\n"
                            "run7:0098/2\n"
                            "run7:0099/1\n"
                            "run7:0099/2\n"
                            "run7:0100/1\n"
                            "run7:0100/2\n";

/* The block as a reader is lent it. */
static uint8_t bytes[AQ_BYTES_FOR(sizeof INPUT - 1)];
static uint32_t directory[AQ_DIRECTORY];
static uint32_t totals[2];

/* What reading keeps: sizes that suffice for any block of so many names. */
static uint32_t cursors[AQ_CURSORS];
static uint8_t text[AQ_TEXT_FOR(COUNT)];
static uint32_t names[AQ_NAMES_FOR(COUNT)];
static uint32_t rows[AQ_ROWS_FOR(COUNT)];
static uint32_t state[4];

/* The symbols that the card's model of five saw, and the model as they should leave it. */
enum { SYMBOLS = 5 };
static const uint8_t TRACE[] = {0, 1, 4, 0, 2, 0, 3, 0, 1, 4, 0};
static uint32_t symbols[AQ_PLACES], frequencies[AQ_PLACES], total[1];

struct report {
    uint32_t number;
    const char *name;
    const char *about;
};

/* A refusal goes out with its number, its words and, where it carries one, the name's number. */
static int refused(const char *call, uint64_t answer) {
    printf("%s: refused %u", call, (unsigned)AQ_CODE(answer));
    if (AQ_CODE(answer) == 11 || AQ_VALUE(answer) != AQ_NO_NAME)
        printf(" at %u", (unsigned)AQ_VALUE(answer));
    printf(", %s\n", aq_refusal(AQ_CODE(answer)));
    return 1;
}

static int make_block(void) {
    uint64_t answer = aq_write((const uint8_t *)INPUT, strlen(INPUT), directory, AQ_DIRECTORY, bytes, sizeof bytes, totals);
    if (AQ_CODE(answer) != 0)
        return refused("write", answer);
    printf("written: %u names, %u bytes\n", (unsigned)totals[0], (unsigned)totals[1]);
    return 0;
}

static int open_block(void) {
    uint64_t answer = aq_open(bytes, totals[1], directory, AQ_DIRECTORY, totals[0], cursors, AQ_CURSORS, state);
    return AQ_CODE(answer) == 0 ? 0 : refused("open", answer);
}

/* Reads up to so many names more; fewer if the block is done before. */
static int read_names(uint32_t most) {
    while (most-- > 0) {
        uint64_t answer = aq_read(bytes, totals[1], directory, AQ_DIRECTORY, cursors, AQ_CURSORS, text, sizeof text,
                                  names, AQ_NAMES_FOR(COUNT), rows, AQ_ROWS_FOR(COUNT), state);
        if (AQ_CODE(answer) == AQ_DONE)
            break;
        if (AQ_CODE(answer) != 0)
            return refused("read", answer);
    }
    printf("read: %u of %u names\n", (unsigned)state[1], (unsigned)state[0]);
    return 0;
}

/* The kept name itself, to show beside a report that is denied. */
static void show_name(uint32_t number) {
    const uint32_t *entry = names + 5 * number;
    printf(", the name is %.*s", (int)entry[1], (const char *)text + entry[0]);
}

static void check(const struct report *report) {
    uint64_t answer = aq_claim(report->number, (const uint8_t *)report->name, strlen(report->name), text, sizeof text,
                               names, AQ_NAMES_FOR(COUNT), state);
    if (AQ_CODE(answer) != 0) {
        refused(report->about, answer);
        return;
    }
    printf("%s: %u %s %s", report->about, (unsigned)report->number, report->name,
           AQ_VALUE(answer) ? "confirmed" : "denied");
    if (!AQ_VALUE(answer))
        show_name(report->number);
    printf("\n");
}

static void check_all(const struct report *reports, size_t length) {
    for (size_t place = 0; place < length; place++)
        check(&reports[place]);
}

static int replay(uint32_t size) {
    uint64_t answer = aq_model_replay(size, TRACE, sizeof TRACE, symbols, frequencies, total);
    if (AQ_CODE(answer) != 0)
        refused("model", answer);
    else
        printf("model: %u symbols seen\n", (unsigned)sizeof TRACE);
    /* No table has that size: nothing was written, and a loop up to it could leave the arrays. */
    if (AQ_CODE(answer) == 17)
        return 1;
    for (uint32_t place = 0; place < size; place++)
        printf("symbol %u: %u of %u\n", (unsigned)symbols[place], (unsigned)frequencies[place], (unsigned)total[0]);
    return AQ_CODE(answer) != 0;
}

int main(void) {
    static const struct report EARLY[] = {
        {2, "run7:0099/1", "right"},
        {0, "run7:0098/1", "right"},
        {3, "run7:0101/2", "wrong increment"},
        {2, "run7:0099/2", "swapped mate"},
        {1, "run7:0098/", "cut name"},
        {5, "run7:0100/2", "too early"},
    };
    static const struct report LATE[] = {
        {5, "run7:0100/2", "right"},
        {4, "run7:0100/1", "right"},
        {1, "run7:0098/2", "right"},
    };
    if (make_block() || open_block() || read_names(4))
        return 1;
    check_all(EARLY, sizeof EARLY / sizeof EARLY[0]);
    if (read_names(COUNT))
        return 1;
    check_all(LATE, sizeof LATE / sizeof LATE[0]);
    if (replay(SYMBOLS))
        return 1;
    /* A model of two has seen a symbol that it can't have: its table is that of the symbols before. */
    replay(2);
    return 0;
}
