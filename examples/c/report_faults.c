/* What a bench prints when something is wrong: every kind of fault that a card or a block may have, and its report. */
#include "aqsurvel.h"

#include "../report/report.h"

#include <string.h>

enum { COUNT = 6, EARLY = 5 };

/* Pairs of mates; one name comes twice in a row and is written as a copy of the one before. */
static const char INPUT[] = "run7:0098/1\n"
                            "run7:0098/2\n"
                            "run7:0099/1\n"
                            "run7:0099/2\n"
                            "run7:0099/2\n"
                            "run7:0100/1\n";

/* One name, of as many tokens as a name can have: letters and numbers by turns. */
#define THIRTY "a1a1a1a1a1a1a1a1a1a1a1a1a1a1a1"
static const char LONG[] = THIRTY THIRTY THIRTY THIRTY "a1a1a1a\n";

static uint8_t bytes[AQ_BYTES_FOR(sizeof LONG - 1)]; /* the longer of the two */
static uint32_t directory[AQ_DIRECTORY];
static uint32_t totals[2];

static uint32_t cursors[AQ_CURSORS];
static uint8_t text[AQ_TEXT_FOR(COUNT)];
static uint32_t names[AQ_NAMES_FOR(COUNT)];
static uint32_t rows[AQ_ROWS_FOR(COUNT)];
static uint32_t state[4];

static uint32_t symbols[AQ_PLACES], frequencies[AQ_PLACES], total[1];

static const struct kept KEPT = {text, sizeof text, names, AQ_NAMES_FOR(COUNT), rows, AQ_ROWS_FOR(COUNT), state};

struct fault {
    const char *about;
    uint32_t number;
    const char *name;
};

/* One byte of a block is another: of this span, at this place. */
struct damage {
    const char *about, *input;
    uint32_t position, stream, place;
    uint8_t value;
};

/* Streams of a position, then types, then what has one number as both. */
enum { TYPE = 0, DZLEN = 4, DELTAS = 8 };
enum { DDELTA = 11, MATCH = 13, END = 14 };
enum { STRING = 1, CHAR = 2, DUP = 5, DIFF = 6, DIGITS = 7 };

static const struct damage DAMAGES[] = {
    {"a block with a wrong type", INPUT, 0, TYPE, 2, 9},
    {"a block with a distance beyond its first name", INPUT, 0, DIFF, 4, 2},
    {"a block with a copy at distance 0", INPUT, 0, DUP, 0, 0},
    {"a block whose first name has a token that an earlier one gives", INPUT, 1, TYPE, 0, MATCH},
    {"a block whose second name starts afresh with a token that an earlier one gives", INPUT, 0, DIFF, 4, 0},
    {"a block with a number of no digits", INPUT, 4, DZLEN, 0, 0},
    {"a block with a byte that no name has", INPUT, 3, CHAR, 0, '@'},
    {"a block with one token too many", LONG, AQ_MOST_ROWS + 1, TYPE, 0, CHAR},
};

static const struct fault FAULTS[] = {
    {"wrong increment", 3, "run7:0101/2"},
    {"swapped mates, the one", 2, "run7:0099/2"},
    {"swapped mates, the other", 3, "run7:0099/1"},
    {"cut short", 1, "run7:0098"},
    {"too long", 1, "run7:0098/20"},
    {"a letter", 0, "ran7:0098/1"},
    {"a sign", 2, "run7-0099/1"},
    {"the line's end too", 1, "run7:0098/2\n"},
    {"nothing at all", 0, ""},
    {"a copied name", 4, "run7:0199/2"},
    {"before it is read", 5, "run7:0100/1"},
};

/* What one span of a block has. */
struct stream {
    uint32_t position, stream, length;
    uint8_t bytes[16];
};

/* The block of a lab that mixes two runs: run7:98, run8:1, run8:2, run7:99. Name 1 starts afresh, with distance 0, as
 * aq_write has it for name 0 only; name 2 leans on it, and name 3 past it on name 0. In a stream, name after name. */
#define FOUR(number) number, 0, 0, 0
static const struct stream MIXED[] = {
    {0, TYPE, 4, {DIFF, DIFF, DIFF, DIFF}},
    {0, DIFF, 16, {FOUR(0), FOUR(0), FOUR(1), FOUR(3)}},
    {1, TYPE, 4, {STRING, STRING, MATCH, MATCH}},
    {1, STRING, 12, "run7:\0run8:"},
    {2, TYPE, 4, {DIGITS, DIGITS, DDELTA, DDELTA}},
    {2, DIGITS, 8, {FOUR(98), FOUR(1)}},
    {2, DELTAS, 2, {1, 1}},
    {3, TYPE, 4, {END, END, END, END}},
};
enum { MIXED_COUNT = 4 };

static const struct fault MIXED_FAULTS[] = {
    {"a name that starts afresh", 1, "run8:99"},
    {"a name that leans on the fresh one", 2, "run8:1"},
    {"a name that leans past the fresh one", 3, "run8:3"},
};

static uint64_t write_block(const char *input) {
    return aq_write((const uint8_t *)input, strlen(input), directory, AQ_DIRECTORY, bytes, sizeof bytes, totals);
}

/* Where a span has its start, and next to it its end. */
static uint32_t *span_at(uint32_t position, uint32_t stream) { return directory + 2 * (10 * position + stream); }

/* The spans one behind the other; all others are empty. */
static void lay_mixed(void) {
    memset(directory, 0, sizeof directory);
    totals[0] = MIXED_COUNT;
    totals[1] = 0;
    for (size_t place = 0; place < sizeof MIXED / sizeof MIXED[0]; place++) {
        const struct stream *stream = &MIXED[place];
        uint32_t *span = span_at(stream->position, stream->stream);
        memcpy(bytes + totals[1], stream->bytes, stream->length);
        span[0] = totals[1];
        totals[1] += stream->length;
        span[1] = totals[1];
    }
}

static uint64_t open_block(size_t directory_len, uint32_t count) {
    return aq_open(bytes, totals[1], directory, directory_len, count, cursors, AQ_CURSORS, state);
}

static uint64_t read_name(size_t text_len) {
    return aq_read(bytes, totals[1], directory, AQ_DIRECTORY, cursors, AQ_CURSORS, text, text_len, names,
                   AQ_NAMES_FOR(COUNT), rows, AQ_ROWS_FOR(COUNT), state);
}

static void claim(const struct fault *fault) {
    const uint8_t *name = (const uint8_t *)fault->name;
    size_t length = strlen(fault->name);
    uint64_t answer = aq_claim(fault->number, name, length, text, sizeof text, names, AQ_NAMES_FOR(COUNT), state);
    printf("== %s\n", fault->about);
    report_claim(stdout, answer, fault->number, name, length, &KEPT);
}

static void claim_all(const struct fault *faults, size_t length) {
    for (size_t place = 0; place < length; place++)
        claim(&faults[place]);
}

static void refused(const char *about, uint64_t answer) {
    printf("== %s\n", about);
    report_refusal(stdout, answer);
}

/* Reads the first names, of a block that has them. */
static int read_first(uint32_t count) {
    uint64_t answer = open_block(AQ_DIRECTORY, totals[0]);
    while (AQ_CODE(answer) == 0 && count-- > 0)
        answer = read_name(sizeof text);
    return AQ_CODE(answer) == 0;
}

/* Reads as many of the names as can be read. */
static void read_block(const char *about, uint32_t count, size_t text_len) {
    uint64_t answer = open_block(AQ_DIRECTORY, count);
    while (AQ_CODE(answer) == 0)
        answer = read_name(text_len);
    refused(about, answer);
}

static int read_damaged(const struct damage *damage) {
    if (AQ_CODE(write_block(damage->input)) != 0)
        return 0;
    bytes[*span_at(damage->position, damage->stream) + damage->place] = damage->value;
    read_block(damage->about, totals[0], sizeof text);
    return 1;
}

int main(void) {
    if (AQ_CODE(write_block(INPUT)) != 0 || !read_first(EARLY))
        return 1;
    claim_all(FAULTS, sizeof FAULTS / sizeof FAULTS[0]);

    /* Someone else's hand in what is kept: the entry of name 1 points behind the text, then the state is wrong. */
    names[AQ_NAMES_FOR(1)] = sizeof text;
    claim(&(struct fault){"an entry that points outside", 1, "run7:0098/2"});
    state[1] = COUNT + 1;
    claim(&(struct fault){"a state with more names than the block has", 1, "run7:0098/2"});

    refused("a name that can't be written", write_block("run7:0098/1\nrun7@0098/2\n"));
    refused("a last name that isn't ended", write_block("run7:0098/1\nrun7:0098/2"));
    refused("a directory of another length", open_block(AQ_DIRECTORY - 1, COUNT));
    read_block("more names than a block may have", AQ_MOST_NAMES + 1, sizeof text);
    read_block("text for two names", COUNT, 2 * sizeof "run7:0098/1");
    read_block("a count that is too small", COUNT - 1, sizeof text);

    /* The first span, the types at position 0, ends one byte early. */
    directory[1]--;
    read_block("a block whose last type is missing", COUNT, sizeof text);
    for (size_t place = 0; place < sizeof DAMAGES / sizeof DAMAGES[0]; place++)
        if (!read_damaged(&DAMAGES[place]))
            return 1;

    lay_mixed();
    if (!read_first(MIXED_COUNT))
        return 1;
    claim_all(MIXED_FAULTS, sizeof MIXED_FAULTS / sizeof MIXED_FAULTS[0]);

    /* Letters side by side are one token, and every sign is one. */
    if (AQ_CODE(write_block("lab_A:run7\nlab_B:run7\n")) != 0 || !read_first(2))
        return 1;
    claim(&(struct fault){"a letter between two signs", 1, "lab_C:run7"});

    /* A model's table from a trace of symbols 0 and 3. */
    const uint8_t trace[] = {0, 3};
    refused("a model of 257 symbols", aq_model_replay(AQ_PLACES + 1, trace, sizeof trace, symbols, frequencies, total));
    refused("a symbol that a model of three hasn't", aq_model_replay(3, trace, sizeof trace, symbols, frequencies, total));
    return 0;
}
