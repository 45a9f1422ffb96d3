/* The calls on lent words, for the WORD and WIDTH of the file that includes this one: rows between canaries, the rules for one bit,
 * and one request to each call. */
#include "canaries.h"

/* Lent words between two rows of canaries, with what all of it should hold after the call, and a span. */
struct row {
    WORD *all, *expected;
    size_t lent;
    struct span span;
};

/* The bytes of the lent words and of the canaries beside them. */
static size_t row_bytes(const struct row *row)
{
    return (row->lent + 2 * guard) * sizeof(WORD);
}

/* The lent words. */
static WORD *words(const struct row *row)
{
    return row->all + guard;
}

/* What the lent words should hold after the call. */
static WORD *model(const struct row *row)
{
    return row->expected + guard;
}

/* A row of few words, or at the limit, or past it. Sparse contents make searches go far, and equal rows likely. */
static struct row row_new(size_t longest)
{
    uint64_t rare = below(40);
    struct row row = {NULL, NULL, rare < 2 ? STABLEPLY_MOST_WORDS + rare : below(12), {0, 0, 0, 0}};
    enum { ONES, ZEROS, RANDOM, SPARSE } style = below(4);

    row.span = some_span(WIDTH, row.lent, longest);
    row.all = malloc(row_bytes(&row) == 0 ? 1 : row_bytes(&row));
    row.expected = malloc(row_bytes(&row) == 0 ? 1 : row_bytes(&row));
    if (row.all == NULL || row.expected == NULL) {
        abort();
    }
    memset(row.all, style == ONES ? 0xFF : 0, row_bytes(&row));
    if (style == RANDOM || style == SPARSE) {
        for (size_t i = 0; i < row.lent + 2 * guard; i += style == RANDOM ? 1 : 1 + below(3 * row.lent / 2 + 1)) {
            row.all[i] = (WORD)any();
        }
    }
    for (size_t i = 0; i < guard; i++) {
        row.all[i] = (WORD)any();
        row.all[guard + row.lent + i] = (WORD)any();
    }
    memcpy(row.expected, row.all, row_bytes(&row));
    return row;
}

/* Ends the test unless every lent word and every canary holds what it should; gives the row back. */
static void row_end(struct row *row, enum call_name call)
{
    if (memcmp(row->all, row->expected, row_bytes(row)) != 0) {
        wrong(call, WIDTH, "a lent word or a canary beside the words is not what it should be");
    }
    free(row->all);
    free(row->expected);
}

/* The rules: bit i of a span. */
static int get(const WORD *at, struct span span, size_t i)
{
    size_t t = span.head + i, index = t % WIDTH;
    return (int)(at[span.word + t / WIDTH] >> (span.order == STABLEPLY_LSB0 ? index : WIDTH - 1 - index) & 1);
}

/* The rules: bit i of a span becomes this one. */
static void put(WORD *at, struct span span, size_t i, int bit)
{
    size_t t = span.head + i, index = t % WIDTH;
    WORD selector = (WORD)((WORD)1 << (span.order == STABLEPLY_LSB0 ? index : WIDTH - 1 - index));
    WORD *word = &at[span.word + t / WIDTH];
    *word = (WORD)(bit ? *word | selector : *word & ~selector);
}

/* The refusal of a row's span, an order that is none among it; 0 where there is none. */
static uint8_t refusal_of(const struct row *row)
{
    return row->span.order > STABLEPLY_MSB0 ? STABLEPLY_NO_CODE : span_refusal(WIDTH, row->lent, row->span);
}

/* Most places are inside the span, some just past its end, some anywhere. */
static size_t some_place(struct span span)
{
    return below(8) == 0 ? some_size() : below(4) == 0 ? span.length : up_to(span.length);
}

#include "try_fields.h"
#include "try_rows.h"

/* One request to each call. */
void TRY_WORDS(void)
{
    try_bit();
    try_load();
    try_store(0);
    try_store(1);
    try_copy_from();
    try_copy_within();
    try_boolean();
    try_swap();
    try_equal();
    try_searches();
}
