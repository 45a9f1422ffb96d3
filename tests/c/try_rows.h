/* Rows and searches; a part of words.h. */

/* The refusals that all calls with two spans share. */
static uint8_t refusal_of_two(const struct row *left, const struct row *right)
{
    if (left->span.order > STABLEPLY_MSB0 || right->span.order > STABLEPLY_MSB0) {
        return STABLEPLY_NO_CODE;
    }
    if (refusal_of(left) != 0) {
        return refusal_of(left);
    }
    if (refusal_of(right) != 0) {
        return refusal_of(right);
    }
    return left->span.order != right->span.order ? STABLEPLY_ORDERS_DIFFER : STABLEPLY_ACCEPTED;
}

/* A second row, whose span is mostly as long as the first's and of its order. */
static struct row row_beside(const struct row *left)
{
    struct row right = row_new(40 * WIDTH);
    if (below(4) != 0) {
        right.span.length = left->span.length;
    }
    if (below(6) != 0) {
        right.span.order = left->span.order;
    }
    return right;
}

/* One request to copy_from. */
static void try_copy_from(void)
{
    struct row row = row_new(40 * WIDTH), source = row_beside(&row);
    uint8_t expected = refusal_of_two(&row, &source);

    expected = expected == 0 && row.span.length != source.span.length ? STABLEPLY_LENGTHS_DIFFER : expected;
    for (size_t i = 0; expected == 0 && i < row.span.length; i++) {
        put(model(&row), row.span, i, get(model(&source), source.span, i));
    }
    answered(COPY_FROM, WIDTH,
             CALL(copy_from)(words(&row), row.lent, ARGUMENTS(row.span), words(&source), source.lent, ARGUMENTS(source.span)),
             expected);
    row_end(&row, COPY_FROM);
    row_end(&source, COPY_FROM);
}

/* One request to copy_within. */
static void try_copy_within(void)
{
    struct row row = row_new(40 * WIDTH);
    size_t start = some_place(row.span), destination = some_place(row.span), last = start > destination ? start : destination;
    size_t room = row.span.length > last ? row.span.length - last : 0;
    size_t count = below(8) == 0 ? some_size() : up_to(room + 1);
    int inside = last <= row.span.length && count <= row.span.length - last;
    uint8_t refusal = refusal_of(&row);
    uint8_t expected = refusal != 0 ? refusal : inside ? STABLEPLY_ACCEPTED : STABLEPLY_NOT_BELOW;

    for (size_t i = 0; expected == 0 && i < count; i++) {
        put(model(&row), row.span, destination + i, get(words(&row), row.span, start + i));
    }
    answered(COPY_WITHIN, WIDTH,
             CALL(copy_within)(words(&row), row.lent, ARGUMENTS(row.span), start, count, destination), expected);
    row_end(&row, COPY_WITHIN);
}

/* One request to boolean. */
static void try_boolean(void)
{
    static const uint8_t operations[] = {STABLEPLY_AND, STABLEPLY_OR, STABLEPLY_XOR};
    struct row row = row_new(40 * WIDTH), right = row_beside(&row);
    uint8_t operation = below(12) == 0 ? (uint8_t)any() : operations[below(3)];
    int known = memchr(operations, operation, sizeof operations) != NULL;
    uint8_t expected = known ? refusal_of_two(&row, &right) : STABLEPLY_NO_CODE;

    for (size_t i = 0; expected == 0 && i < row.span.length; i++) {
        int a = get(words(&row), row.span, i), b = i < right.span.length ? get(words(&right), right.span, i) : 0;
        put(model(&row), row.span, i, operation >> (2 * a + b) & 1);
    }
    answered(BOOLEAN, WIDTH,
             CALL(boolean)(words(&row), row.lent, ARGUMENTS(row.span), words(&right), right.lent, ARGUMENTS(right.span), operation),
             expected);
    row_end(&row, BOOLEAN);
    row_end(&right, BOOLEAN);
}

/* One request to swap. */
static void try_swap(void)
{
    struct row left = row_new(40 * WIDTH), right = row_beside(&left);
    uint8_t expected = refusal_of_two(&left, &right);

    expected = expected == 0 && left.span.length != right.span.length ? STABLEPLY_LENGTHS_DIFFER : expected;
    for (size_t i = 0; expected == 0 && i < left.span.length; i++) {
        put(model(&left), left.span, i, get(words(&right), right.span, i));
        put(model(&right), right.span, i, get(words(&left), left.span, i));
    }
    answered(SWAP, WIDTH,
             CALL(swap)(words(&left), left.lent, ARGUMENTS(left.span), words(&right), right.lent, ARGUMENTS(right.span)), expected);
    row_end(&left, SWAP);
    row_end(&right, SWAP);
}

/* Compares two rows, made equal half of the time but perhaps for one bit, or two spans of one row. */
static void try_equal(void)
{
    struct row left = row_new(40 * WIDTH), right = row_beside(&left);
    const struct row *other = below(4) == 0 ? &left : &right;
    struct span other_span = other == &left ? some_span(WIDTH, left.lent, 40 * WIDTH) : right.span;
    struct row viewed = *other;
    struct out out = out_new();
    uint8_t expected, same;

    viewed.span = other_span;
    expected = refusal_of_two(&left, &viewed);
    if (expected == 0 && other == &right && below(2) == 0) {
        size_t shorter = left.span.length < other_span.length ? left.span.length : other_span.length;
        for (size_t i = 0; i < shorter; i++) {
            put(words(&right), right.span, i, get(words(&left), left.span, i));
        }
        if (shorter > 0 && below(2) == 0) {
            size_t i = below(shorter);
            put(words(&right), right.span, i, !get(words(&left), left.span, i));
        }
        memcpy(right.expected, right.all, row_bytes(&right));
    }
    same = left.span.length == other_span.length;
    for (size_t i = 0; expected == 0 && same && i < left.span.length; i++) {
        same = get(words(&left), left.span, i) == get(words(other), other_span, i);
    }
    answered(EQUAL, WIDTH,
             CALL(equal)(words(&left), left.lent, ARGUMENTS(left.span), words(other), other->lent, ARGUMENTS(other_span), out_byte(&out)),
             expected);
    out_byte_check(&out, EQUAL, WIDTH, expected == 0, same);
    row_end(&left, EQUAL);
    row_end(&right, EQUAL);
}

/* A search: its name, its call, whether it begins at the last index, and the bit that it looks for. */
struct search {
    enum call_name name;
    uint8_t (*call)(const WORD *, size_t, uint8_t, size_t, size_t, size_t, uint8_t *, size_t *);
    int from_last, bit;
};

/* One request to each of the four searches, on one row. */
static void try_searches(void)
{
    static const struct search searches[] = {
        {FIRST_ONE, CALL(first_one), 0, 1},
        {LAST_ONE, CALL(last_one), 1, 1},
        {FIRST_ZERO, CALL(first_zero), 0, 0},
        {LAST_ZERO, CALL(last_zero), 1, 0},
    };
    struct row row = row_new(SIZE_MAX);
    uint8_t expected = refusal_of(&row);

    for (const struct search *search = searches; search < searches + sizeof searches / sizeof *searches; search++) {
        struct out found = out_new(), at = out_new();
        size_t looked = 0, index = 0;
        uint8_t there = 0;
        while (expected == 0 && !there && looked < row.span.length) {
            index = search->from_last ? row.span.length - 1 - looked : looked;
            there = get(model(&row), row.span, index) == search->bit;
            looked++;
        }
        answered(search->name, WIDTH,
                 search->call(words(&row), row.lent, ARGUMENTS(row.span), out_byte(&found), &at.value), expected);
        out_byte_check(&found, search->name, WIDTH, expected == 0, there);
        out_check(&at, search->name, WIDTH, expected == 0 && there, index);
    }
    row_end(&row, FIRST_ONE);
}
