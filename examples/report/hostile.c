/* The report over tables that nobody read: first those of three names as reading leaves them, then with one number
 * changed for each thing that is judged, then with every number changed to every awkward one, alone and by twos, then
 * with each table cut short everywhere. Each is lent in memory of its own size, so that the compiler's checks see a step
 * outside; what is printed must be printable. */
#include "report.h"

#include "aqsurvel.h"

#include <stdlib.h>
#include <string.h>

/* "ab7", "ab8" and its copy. */
static const uint8_t TEXT[] = "ab7\nab8\nab8\n";
static const uint32_t NAMES[] = {0, 3, 0, 2, 0, 4, 3, 2, 2, 1, 8, 3, 2, 2, 1};
static const uint32_t ROWS[] = {1, 0, 0, 0, 2, 7, 7, 0, 2, 1, 1, 0, 0, 4, 2, 7, 8, 0, 6, 1};
static const uint32_t STATE[] = {3, 3, 12, 4};

enum { TEXT_LEN = 12, NAMES_LEN = 15, ROWS_LEN = 20, STATE_LEN = 4 };
enum { NUMBERS = STATE_LEN + NAMES_LEN + ROWS_LEN };

/* The tables, in memory of their own sizes. */
struct tables {
    size_t text_len, names_len, rows_len;
    uint8_t *text;
    uint32_t *names, *rows, *state;
};

static void *copied(const void *from, size_t size) {
    if (size == 0)
        return NULL;
    void *to = malloc(size);
    if (to == NULL)
        exit(2);
    return memcpy(to, from, size);
}

static struct tables made(size_t text_len, size_t names_len, size_t rows_len) {
    struct tables tables = {text_len,
                            names_len,
                            rows_len,
                            copied(TEXT, text_len),
                            copied(NAMES, names_len * sizeof NAMES[0]),
                            copied(ROWS, rows_len * sizeof ROWS[0]),
                            copied(STATE, sizeof STATE)};
    return tables;
}

static struct tables made_whole(void) { return made(TEXT_LEN, NAMES_LEN, ROWS_LEN); }

static void freed(struct tables *tables) {
    free(tables->text);
    free(tables->names);
    free(tables->rows);
    free(tables->state);
}

/* Numbers of the state, then of the names, then of the rows. */
static uint32_t *number_at(struct tables *tables, size_t place) {
    if (place < STATE_LEN)
        return tables->state + place;
    if (place < STATE_LEN + NAMES_LEN)
        return tables->names + (place - STATE_LEN);
    return tables->rows + (place - STATE_LEN - NAMES_LEN);
}

static void denied(FILE *out, struct tables *tables, uint32_t number, const char *name, size_t length) {
    struct kept kept = {tables->text, tables->text_len, tables->names, tables->names_len,
                        tables->rows, tables->rows_len, tables->state};
    uint8_t *claim = copied(name, length);
    report_claim(out, 0, number, claim, length, &kept);
    free(claim);
}

enum { STATE_AT = 0, NAMES_AT = STATE_LEN, ROWS_AT = STATE_LEN + NAMES_LEN, NO_CHANGE = NUMBERS };

struct shown {
    const char *about;
    size_t place;
    uint32_t value, number;
    const char *name;
};

#define HUNDRED TEN TEN TEN TEN TEN TEN TEN TEN TEN TEN
#define TEN "0123456789"

static const struct shown SHOWN[] = {
    {"as read", NO_CHANGE, 0, 1, "ab9"},
    {"a copy, whose rows are the earlier name's", NO_CHANGE, 0, 2, "aa8"},
    {"nothing returned", NO_CHANGE, 0, 0, ""},
    {"bytes that are no text", NO_CHANGE, 0, 0, "ab7\n\x7f ..."},
    {"more bytes than any name has", NO_CHANGE, 0, 0, HUNDRED HUNDRED HUNDRED},
    {"a name that isn't kept", NO_CHANGE, 0, 3, "ab9"},
    {"a name that isn't kept, though the table goes on", STATE_AT + 1, 1, 1, "ab9"},
    {"equal after all", NO_CHANGE, 0, 1, "ab8"},
    {"more names kept than there is table", STATE_AT + 1, 4, 3, "ab9"},
    {"more text used than there is", STATE_AT + 2, 13, 1, "ab9"},
    {"more rows used than there is table", STATE_AT + 3, 5, 1, "ab9"},
    {"a name that starts outside", NAMES_AT + 5, 0xFFFFFFFF, 1, "ab9"},
    {"a name that ends outside", NAMES_AT + 6, 9, 1, "ab9"},
    {"a name of no bytes", NAMES_AT + 6, 0, 1, "ab9"},
    {"rows that start outside", NAMES_AT + 7, 0xFFFFFFFF, 1, "ab9"},
    {"rows that end outside", NAMES_AT + 8, 3, 1, "ab9"},
    {"no rows", NAMES_AT + 8, 0, 1, "ab9"},
    {"rows that end before the name does", NAMES_AT + 8, 1, 1, "ab9"},
    {"a distance beyond the first name", NAMES_AT + 9, 2, 1, "ab9"},
    {"an entry that starts afresh", NAMES_AT + 9, 0, 1, "ab9"},
    {"a distance of two", NAMES_AT + 14, 2, 2, "ab9"},
    {"an earlier name that points outside", NAMES_AT, 10, 1, "ab9"},
    {"a kind that there isn't", ROWS_AT + 15, 3, 1, "ab9"},
    {"a row's text outside", ROWS_AT + 18, 12, 1, "ab9"},
    {"a row's text that is another", ROWS_AT + 18, 2, 1, "ab9"},
    {"a row's text longer than the name", ROWS_AT + 19, 6, 1, "ab9"},
    {"rows that go on where the name ends", NAMES_AT + 3, 3, 0, "ab77"},
};

static void show_all(void) {
    for (size_t place = 0; place < sizeof SHOWN / sizeof SHOWN[0]; place++) {
        const struct shown *shown = &SHOWN[place];
        struct tables tables = made_whole();
        if (shown->place != NO_CHANGE)
            *number_at(&tables, shown->place) = shown->value;
        printf("== %s\n", shown->about);
        denied(stdout, &tables, shown->number, shown->name, strlen(shown->name));
        freed(&tables);
    }
}

/* One above the most bytes, then one above the most rows, in tables that have them. */
static void show_large(void) {
    enum { BYTES = AQ_MOST_BYTES + 1, MANY = AQ_MOST_ROWS + 1 };
    static uint8_t text[BYTES];
    static uint32_t rows[MANY * 5];
    static const uint32_t names[] = {0, BYTES, 0, 1, 0, 0, MANY, 0, MANY, 1};
    static const uint32_t state[] = {2, 2, BYTES, MANY};
    struct kept kept = {text, BYTES, names, sizeof names / sizeof names[0], rows, MANY * 5, state};
    memset(text, 'a', BYTES);
    for (uint32_t row = 0; row < MANY; row++) {
        rows[5 * row] = 2;
        rows[5 * row + 3] = row;
        rows[5 * row + 4] = 1;
    }
    puts("== a name of too many bytes");
    report_claim(stdout, 0, 0, text, 1, &kept);
    puts("== a name of too many rows");
    report_claim(stdout, 0, 1, text, 1, &kept);
}

static const uint32_t AWKWARD[] = {0, 1, 2, 3, 4, 5, 7, 11, 12, 13, 126, 127, 128, 254, 255, 0x33333333, 0x33333334,
                                   0x7FFFFFFF, 0x80000000, 0xFFFFFFF4, 0xFFFFFFFE, 0xFFFFFFFF};
enum { AWKWARD_LEN = sizeof AWKWARD / sizeof AWKWARD[0] };

static void hold_printable(FILE *out) {
    int byte;
    rewind(out);
    while ((byte = fgetc(out)) != EOF)
        if (byte != '\n' && (byte < 32 || byte > 126)) {
            printf("printed byte %d\n", byte);
            exit(1);
        }
    rewind(out);
}

/* All that a bench may ask about these tables; answers how many reports that were. */
static unsigned long ask(FILE *out, struct tables *tables) {
    static const uint32_t ASKED[] = {0, 1, 2, 3, 0xFFFFFFFF};
    static const struct {
        const char *name;
        size_t length;
    } RETURNED[] = {{"", 0}, {"a", 1}, {"ab9", 3}, {"ab8", 3}, {"ab8\0\xff", 5}};
    unsigned long count = 0;
    for (size_t i = 0; i < sizeof ASKED / sizeof ASKED[0]; i++)
        for (size_t j = 0; j < sizeof RETURNED / sizeof RETURNED[0]; j++, count++)
            denied(out, tables, ASKED[i], RETURNED[j].name, RETURNED[j].length);
    hold_printable(out);
    return count;
}

/* The second change goes elsewhere each time, in an order that is always the same. */
static unsigned long ask_changed(FILE *out) {
    unsigned long count = 0;
    uint32_t chance = 1;
    for (size_t place = 0; place < NUMBERS; place++)
        for (size_t value = 0; value < AWKWARD_LEN; value++) {
            struct tables tables = made_whole();
            *number_at(&tables, place) = AWKWARD[value];
            count += ask(out, &tables);
            chance = chance * 1664525u + 1013904223u;
            *number_at(&tables, (chance >> 16) % NUMBERS) = AWKWARD[(chance >> 8) % AWKWARD_LEN];
            count += ask(out, &tables);
            freed(&tables);
        }
    return count;
}

static unsigned long ask_short(FILE *out, size_t text_len, size_t names_len, size_t rows_len) {
    struct tables tables = made(text_len, names_len, rows_len);
    unsigned long count = ask(out, &tables);
    freed(&tables);
    return count;
}

static unsigned long ask_cut(FILE *out) {
    unsigned long count = 0;
    for (size_t length = 0; length < TEXT_LEN; length++)
        count += ask_short(out, length, NAMES_LEN, ROWS_LEN);
    for (size_t length = 0; length < NAMES_LEN; length++)
        count += ask_short(out, TEXT_LEN, length, ROWS_LEN);
    for (size_t length = 0; length < ROWS_LEN; length++)
        count += ask_short(out, TEXT_LEN, NAMES_LEN, length);
    return count;
}

int main(void) {
    show_all();
    show_large();
    FILE *out = tmpfile();
    if (out == NULL)
        return 2;
    unsigned long count = ask_changed(out) + ask_cut(out);
    fclose(out);
    printf("== %lu reports over changed tables: nothing read outside, nothing unprintable\n", count);
    return 0;
}
