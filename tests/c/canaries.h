/* What the files of the canary test share. */
#ifndef CANARIES_H
#define CANARIES_H

#include <stdio.h>
#include <stdlib.h>
#include <string.h>

#include "stableply.h"

/* The calls, by their names without the width. */
enum call_name {
    POSITION, SELECTOR, MASK, SPLIT, READ_BIT, WRITE_BIT, LOAD, STORE, STORE_STRICT, COPY_FROM, COPY_WITHIN, BOOLEAN, SWAP, EQUAL,
    FIRST_ONE, LAST_ONE, FIRST_ZERO, LAST_ZERO, CALLS
};

/* A span of a row, perhaps one that is refused. */
struct span {
    uint8_t order;
    size_t word, head, length;
};

/* A span as a call's four arguments. */
#define ARGUMENTS(span) (span).order, (span).word, (span).head, (span).length

/* The number of canary words on each side of a buffer. */
extern unsigned guard;

/* Any number; any below `bound`; any from 0 to `last`. */
uint64_t any(void);
uint64_t below(uint64_t bound);
uint64_t up_to(uint64_t last);

/* 0 or 1, and once in so many times a code that is none. */
uint8_t some_code(uint64_t damaged_one_in);

/* A number that a careless sum or product would go wrong on. */
size_t some_size(void);

/* A span of at most `longest` bits in `lent` words, often damaged. */
struct span some_span(unsigned width, size_t lent, size_t longest);

/* Ends the test with what went wrong. */
void wrong(enum call_name call, unsigned width, const char *what);

/* Holds an answer to the one expected, and keeps count of it. */
void answered(enum call_name call, unsigned width, uint8_t answer, uint8_t expected);

/* An out value between two canaries, with what all three held at first. */
struct out {
    uint64_t before, value, after, old_before, old_value, old_after;
};
struct out out_new(void);

/* Ends the test unless the out value is as expected, or as it was where nothing is to be written, between whole canaries. */
void out_check(const struct out *out, enum call_name call, unsigned width, int written, uint64_t expected);

/* The first byte of an out value, where a call leaves one byte; the seven beside it are canaries too. */
uint8_t *out_byte(struct out *out);

/* The same check of an out value of one byte. */
void out_byte_check(const struct out *out, enum call_name call, unsigned width, int written, uint8_t expected);

/* The rules: the refusal of a span, 0 where there is none; the exponent of bit i of a field. */
uint8_t span_refusal(unsigned width, size_t lent, struct span span);
unsigned weight(unsigned width, struct span span, unsigned significance, size_t i);

/* One request to each call. */
void try_without_words(unsigned width);
void try_words_8(void);
void try_words_64(void);

#endif
