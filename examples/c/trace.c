/* A trace record in two words of 64 bits, all of it in the order Lsb0:
 *
 *   bits  0 to 39   which spans of the trace have arrived: bit 0 is the root, the others are its children
 *   bits 61 to 65   the sampler's decision, unsigned, which lies across the two words
 *   bits 66 to 77   the clock skew in microseconds, signed
 *
 * The program fills a record, reads it back, lists the children that are missing, and is refused once.
 */
#include <inttypes.h>
#include <stdio.h>
#include <stdlib.h>

#include "stableply.h"

enum { RECORD_WORDS = 2 };

/* The four arguments of a span, in their order: order, word, head, length. */
#define ARRIVED STABLEPLY_LSB0, 0, 0, 40
#define DECISION STABLEPLY_LSB0, 0, 61, 5
#define SKEW STABLEPLY_LSB0, 1, 2, 12

/* Ends the program where a call that should be accepted is not. */
static void must(uint8_t answer)
{
    if (answer != STABLEPLY_ACCEPTED) {
        fprintf(stderr, "refused with %u\n", (unsigned)answer);
        exit(1);
    }
}

/* Marks the spans of the trace that have arrived. */
static void mark_arrivals(uint64_t *record)
{
    for (size_t span = 0; span < 40; span++) {
        uint8_t arrived = span != 7 && span != 23 && span != 24;
        must(stableply64_write_bit(record, RECORD_WORDS, ARRIVED, span, arrived));
    }
}

/* Prints the children that have not arrived: split the row behind the root, then behind each zero that is found. */
static void list_missing_children(const uint64_t *record)
{
    size_t word, head, length, span = 1;
    must(stableply_split(64, RECORD_WORDS, ARRIVED, span, &word, &head, &length));
    for (;;) {
        uint8_t found;
        size_t at;
        must(stableply64_first_zero(record, RECORD_WORDS, STABLEPLY_LSB0, word, head, length, &found, &at));
        if (!found) {
            return;
        }
        printf("child %zu is missing\n", span + at);
        must(stableply_split(64, RECORD_WORDS, STABLEPLY_LSB0, word, head, length, at + 1, &word, &head, &length));
        span += at + 1;
    }
}

/* A signed number is handed in as `below` and `value`: it is `value`, or -1 - `value` where `below` is 1. */
static uint8_t store_skew(uint64_t *record, int64_t skew)
{
    uint8_t below = skew < 0;
    uint64_t value = (uint64_t)(below ? -1 - skew : skew);
    return stableply64_store_strict(record, RECORD_WORDS, SKEW, 16, STABLEPLY_LE, STABLEPLY_SIGNED, below, value);
}

static uint8_t store_decision(uint64_t *record, uint64_t decision)
{
    return stableply64_store_strict(record, RECORD_WORDS, DECISION, 8, STABLEPLY_LE, STABLEPLY_UNSIGNED, 0, decision);
}

int main(void)
{
    uint64_t record[RECORD_WORDS] = {0, 0};
    uint64_t decision, skew;
    uint8_t root;

    mark_arrivals(record);
    must(store_decision(record, 19));
    must(store_skew(record, -37));
    printf("record    %016" PRIX64 " %016" PRIX64 "\n", record[0], record[1]);

    must(stableply64_read_bit(record, RECORD_WORDS, ARRIVED, 0, &root));
    must(stableply64_load(record, RECORD_WORDS, DECISION, 8, STABLEPLY_LE, STABLEPLY_UNSIGNED, &decision));
    must(stableply64_load(record, RECORD_WORDS, SKEW, 16, STABLEPLY_LE, STABLEPLY_SIGNED, &skew));
    printf("root      %s\n", root ? "arrived" : "missing");
    printf("decision  %" PRIu64 "\n", decision);
    printf("skew      %" PRId64 "\n", (int64_t)skew);

    list_missing_children(record);

    /* 5 bits do not hold 40: a strict store refuses, and leaves the record as it was. */
    printf("decision 40 is refused with %u\n", (unsigned)store_decision(record, 40));
    must(stableply64_load(record, RECORD_WORDS, DECISION, 8, STABLEPLY_LE, STABLEPLY_UNSIGNED, &decision));
    printf("decision  %" PRIu64 "\n", decision);
    return 0;
}
