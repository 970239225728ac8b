/* The scoreboard that the testbench imports: it reads a block's names, one a call, and holds what a card returns to
 * them. A name that comes before it is read waits, and is claimed again after each read. Each must be confirmed exactly
 * once.
 *
 * The block is written here from a file of names; a bench that has one reads it instead. */
#include "aqsurvel.h"

#include "../report/report.h"

#include <stdlib.h>
#include <svdpi.h>

/* A name that a card returned. One byte above the most is enough for it to be denied. */
struct returned {
    uint32_t number;
    size_t length;
    uint8_t name[AQ_MOST_BYTES + 1];
    struct returned *next;
};

/* How often a name was returned, and how often that was right. */
struct times {
    uint32_t returned, confirmed;
};

static uint8_t *bytes;
static uint32_t directory[AQ_DIRECTORY];
static uint32_t totals[2];

static uint32_t cursors[AQ_CURSORS];
static uint8_t *text;
static uint32_t *names, *rows;
static uint32_t state[4];

static struct kept kept;
static struct returned *waiting;
static struct times *times;
static unsigned faults;

static void *allocated(size_t count, size_t size) {
    void *memory = calloc(count == 0 ? 1 : count, size);
    if (memory == NULL) {
        puts("no memory");
        exit(2);
    }
    return memory;
}

/* A whole file; NULL if there is none. */
static uint8_t *contents(const char *path, size_t *length) {
    uint8_t *input = NULL;
    FILE *file = fopen(path, "rb");
    if (file == NULL)
        return NULL;
    long size = fseek(file, 0, SEEK_END) == 0 ? ftell(file) : -1;
    if (size >= 0) {
        rewind(file);
        input = allocated((size_t)size, 1);
        *length = fread(input, 1, (size_t)size, file);
    }
    fclose(file);
    return input;
}

static int is_refused(uint64_t answer) {
    if (AQ_CODE(answer) == 0)
        return 0;
    report_refusal(stdout, answer);
    faults++;
    return 1;
}

static int write_block(const char *names_file) {
    size_t length = 0;
    uint8_t *input = contents(names_file, &length);
    if (input == NULL) {
        printf("no names in %s\n", names_file);
        faults++;
        return 0;
    }
    bytes = allocated(AQ_BYTES_FOR(length), 1);
    uint64_t answer = aq_write(input, length, directory, AQ_DIRECTORY, bytes, AQ_BYTES_FOR(length), totals);
    free(input);
    return !is_refused(answer);
}

static void lend(uint32_t count) {
    text = allocated(AQ_TEXT_FOR(count), sizeof *text);
    names = allocated(AQ_NAMES_FOR(count), sizeof *names);
    rows = allocated(AQ_ROWS_FOR(count), sizeof *rows);
    times = allocated(count, sizeof *times);
    kept = (struct kept){text, AQ_TEXT_FOR(count), names, AQ_NAMES_FOR(count), rows, AQ_ROWS_FOR(count), state};
}

static uint64_t claim(const struct returned *returned) {
    return aq_claim(returned->number, returned->name, returned->length, text, kept.text_len, names, kept.names_len,
                    state);
}

static void judge(const struct returned *returned, uint64_t answer) {
    if (AQ_CODE(answer) == 0 && AQ_VALUE(answer) == 1) {
        times[returned->number].confirmed++;
        printf("confirmed: name %u\n", (unsigned)returned->number);
        return;
    }
    report_claim(stdout, answer, returned->number, returned->name, returned->length, &kept);
    faults++;
}

/* A name that comes before it is read waits; one that the block doesn't have would wait for ever. */
static int is_early(const struct returned *returned, uint64_t answer) {
    return AQ_CODE(answer) == 11 && returned->number < totals[0];
}

/* In the order in which they came. */
static void claim_again(void) {
    struct returned **at = &waiting;
    while (*at != NULL) {
        struct returned *returned = *at;
        uint64_t answer = claim(returned);
        if (is_early(returned, answer)) {
            at = &returned->next;
            continue;
        }
        judge(returned, answer);
        *at = returned->next;
        free(returned);
    }
}

static void wait_for_reading(const struct returned *returned) {
    struct returned **end = &waiting;
    while (*end != NULL)
        end = &(*end)->next;
    *end = allocated(1, sizeof **end);
    **end = *returned;
    printf("waits: name %u\n", (unsigned)returned->number);
}

/* 0 where there is no block, and so nothing to do. */
int scoreboard_open(const char *names_file) {
    if (!write_block(names_file))
        return 0;
    lend(totals[0]);
    return !is_refused(aq_open(bytes, totals[1], directory, AQ_DIRECTORY, totals[0], cursors, AQ_CURSORS, state));
}

/* Reads one name; 0 where there are no more. */
int scoreboard_read(void) {
    uint64_t answer = aq_read(bytes, totals[1], directory, AQ_DIRECTORY, cursors, AQ_CURSORS, text, kept.text_len,
                              names, kept.names_len, rows, kept.rows_len, state);
    if (AQ_CODE(answer) == AQ_DONE || is_refused(answer))
        return 0;
    printf("read: name %u\n", (unsigned)AQ_VALUE(answer));
    claim_again();
    return 1;
}

void scoreboard_returned(unsigned int number, const svOpenArrayHandle name, unsigned int length) {
    struct returned returned = {number, 0, {0}, NULL};
    int low = svLow(name, 1);
    while (returned.length < length && returned.length < sizeof returned.name) {
        returned.name[returned.length] = *(const uint8_t *)svGetArrElemPtr1(name, low + (int)returned.length);
        returned.length++;
    }
    if (number < totals[0])
        times[number].returned++;
    uint64_t answer = claim(&returned);
    if (is_early(&returned, answer))
        wait_for_reading(&returned);
    else
        judge(&returned, answer);
}

/* Says what still waits, since reading stopped before it, and what was never returned or more than once. */
void scoreboard_close(void) {
    uint32_t right = 0;
    while (waiting != NULL) {
        struct returned *returned = waiting;
        waiting = returned->next;
        judge(returned, claim(returned));
        free(returned);
    }
    for (uint32_t number = 0; number < totals[0]; number++) {
        right += times[number].confirmed == 1;
        if (times[number].returned == 1)
            continue;
        if (times[number].returned == 0)
            printf("never returned: name %u\n", (unsigned)number);
        else
            printf("returned %u times: name %u\n", (unsigned)times[number].returned, (unsigned)number);
        report_name(stdout, number, &kept);
        faults++;
    }
    printf("%u of %u names confirmed exactly once, faults: %u\n", (unsigned)right, (unsigned)totals[0], faults);
    free(bytes);
    free(text);
    free(names);
    free(rows);
    free(times);
}
