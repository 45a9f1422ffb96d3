/* The calls without lent words. */
#include "canaries.h"

/* A width that is one, or once in a while none. */
static uint8_t some_width(unsigned width)
{
    static const uint8_t others[] = {0, 1, 7, 9, 16, 32, 63, 65, 128, 255};
    return below(16) == 0 ? others[below(sizeof others)] : (uint8_t)width;
}

/* Whether the width or the order is no code. */
static int no_code(uint8_t width, uint8_t order)
{
    return (width != 8 && width != 64) || order > 1;
}

/* The rules: 2 to the position of an index. */
static uint64_t selector(unsigned width, uint8_t order, size_t index)
{
    return (uint64_t)1 << (order == STABLEPLY_LSB0 ? index : width - 1 - index);
}

/* The refusals that all calls on one word share. */
static uint8_t refused_first(uint8_t given_width, unsigned width, uint8_t order, size_t index)
{
    if (no_code(given_width, order)) {
        return STABLEPLY_NO_CODE;
    }
    return index >= width ? STABLEPLY_INDEX_TOO_LARGE : STABLEPLY_ACCEPTED;
}

/* Most indexes are in the word or just past it, some anywhere. */
static size_t some_index(unsigned width)
{
    return below(6) == 0 ? some_size() : up_to(width + 1);
}

/* One request to position, and the same to selector. */
static void try_position_and_selector(unsigned width)
{
    uint8_t given_width = some_width(width), order = some_code(16);
    size_t index = some_index(width);
    uint8_t expected = refused_first(given_width, width, order, index);
    struct out position = out_new(), selected = out_new();

    answered(POSITION, width, stableply_position(given_width, order, index, &position.value), expected);
    answered(SELECTOR, width, stableply_selector(given_width, order, index, &selected.value), expected);
    out_check(&position, POSITION, width, expected == 0, order == STABLEPLY_LSB0 ? index : width - 1 - index);
    out_check(&selected, SELECTOR, width, expected == 0, expected == 0 ? selector(width, order, index) : 0);
}

/* One request to mask. */
static void try_mask(unsigned width)
{
    uint8_t given_width = some_width(width), order = some_code(16);
    size_t from = some_index(width), upto = some_index(width);
    uint8_t refusal = refused_first(given_width, width, order, from);
    uint8_t expected = refusal != 0 ? refusal : upto > width || from > upto ? STABLEPLY_NOT_BELOW : STABLEPLY_ACCEPTED;
    struct out mask = out_new();
    uint64_t sum = 0;

    for (size_t i = from; expected == 0 && i < upto; i++) {
        sum += selector(width, order, i);
    }
    answered(MASK, width, stableply_mask(given_width, order, from, upto, &mask.value), expected);
    out_check(&mask, MASK, width, expected == 0, sum);
}

/* One request to split, of a row with any number of words: none is lent. */
static void try_split(unsigned width)
{
    static const size_t lents[] = {0, 1, 2, 9, STABLEPLY_MOST_WORDS - 1, STABLEPLY_MOST_WORDS, STABLEPLY_MOST_WORDS + 1, SIZE_MAX};
    uint8_t given_width = some_width(width);
    size_t lent = lents[below(sizeof lents / sizeof *lents)];
    struct span span = some_span(width, lent == SIZE_MAX ? 5 : lent, SIZE_MAX);
    size_t place = below(4) == 0 ? some_size() : below(3) == 0 ? span.length + 1 : up_to(span.length);
    struct out word = out_new(), head = out_new(), length = out_new();
    uint8_t refusal = no_code(given_width, span.order) ? STABLEPLY_NO_CODE : span_refusal(width, lent, span);
    uint8_t expected = refusal != 0 ? refusal : place > span.length ? STABLEPLY_NOT_BELOW : STABLEPLY_ACCEPTED;

    answered(SPLIT, width,
             stableply_split(given_width, lent, ARGUMENTS(span), place, &word.value, &head.value, &length.value), expected);
    out_check(&word, SPLIT, width, expected == 0, span.word + (span.head + place) / width);
    out_check(&head, SPLIT, width, expected == 0, (span.head + place) % width);
    out_check(&length, SPLIT, width, expected == 0, span.length - place);
}

void try_without_words(unsigned width)
{
    try_position_and_selector(width);
    try_mask(width);
    try_split(width);
}
