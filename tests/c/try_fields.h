/* Single bits and fields; a part of words.h. */

/* One request to read_bit, and one to write_bit at the same place. */
static void try_bit(void)
{
    struct row row = row_new(40 * WIDTH);
    size_t index = some_place(row.span);
    uint8_t bit = some_code(16), refusal = refusal_of(&row), inside = index < row.span.length;
    uint8_t expected = refusal != 0 ? refusal : inside ? STABLEPLY_ACCEPTED : STABLEPLY_NOT_BELOW;
    struct out out = out_new();

    answered(READ_BIT, WIDTH, CALL(read_bit)(words(&row), row.lent, ARGUMENTS(row.span), index, out_byte(&out)), expected);
    out_byte_check(&out, READ_BIT, WIDTH, expected == 0, expected == 0 ? (uint8_t)get(model(&row), row.span, index) : 0);

    expected = bit > 1 ? STABLEPLY_NO_CODE : expected;
    if (expected == 0) {
        put(model(&row), row.span, index, bit);
    }
    answered(WRITE_BIT, WIDTH, CALL(write_bit)(words(&row), row.lent, ARGUMENTS(row.span), index, bit), expected);
    row_end(&row, WRITE_BIT);
}

/* A K that is one, or once in a while none. */
static size_t some_k(void)
{
    static const size_t others[] = {0, 1, 7, 9, 24, 63, 65, 72, 128, SIZE_MAX};
    return below(12) == 0 ? others[below(sizeof others / sizeof *others)] : (size_t)8 << below(4);
}

/* The refusals that all calls on a field share, where significance and sign are codes. */
static uint8_t field_refusal(const struct row *row, size_t k)
{
    if (refusal_of(row) != 0) {
        return refusal_of(row);
    }
    if (k != 8 && k != 16 && k != 32 && k != 64) {
        return STABLEPLY_NO_SUCH_K;
    }
    return row->span.length == 0 || row->span.length > k ? STABLEPLY_FIELD_LENGTH : STABLEPLY_ACCEPTED;
}

/* 2 to the exponent; an exponent of 64 is told apart by the callers. */
static uint64_t power(size_t exponent)
{
    return (uint64_t)1 << exponent;
}

/* One request to load. */
static void try_load(void)
{
    struct row row = row_new(70);
    size_t k = some_k(), length = row.span.length;
    uint8_t significance = some_code(24), sign = some_code(24);
    uint8_t expected = significance > 1 || sign > 1 ? STABLEPLY_NO_CODE : field_refusal(&row, k);
    struct out out = out_new();
    uint64_t number = 0;

    for (size_t i = 0; expected == 0 && i < length; i++) {
        number |= (uint64_t)get(model(&row), row.span, i) << weight(WIDTH, row.span, significance, i);
    }
    if (expected == 0 && sign == STABLEPLY_SIGNED && length < 64 && number >= power(length - 1)) {
        number -= power(length);
    }
    answered(LOAD, WIDTH, CALL(load)(words(&row), row.lent, ARGUMENTS(row.span), k, significance, sign, &out.value), expected);
    out_check(&out, LOAD, WIDTH, expected == 0, number);
    row_end(&row, LOAD);
}

/* Numbers next to the limits of the field and of its integer, and any others. */
static uint64_t some_value(size_t length, size_t k)
{
    switch (below(6)) {
    case 0: return any();
    case 1: return any() >> below(64);
    case 2: return power(length % 64) - below(3);
    case 3: return power((length + 63) % 64) - below(3);
    case 4: return power(k % 64) - below(3);
    default: return power((k + 63) % 64) - below(3);
    }
}

/* One request to store, or to its strict form. */
static void try_store(int strict)
{
    enum call_name call = strict ? STORE_STRICT : STORE;
    struct row row = row_new(70);
    size_t k = some_k(), length = row.span.length;
    uint8_t significance = some_code(32), sign = some_code(32), negative = some_code(32);
    uint64_t value = some_value(length, k), bits = negative == 1 ? ~value : value;
    int no_code = significance > 1 || sign > 1 || negative > 1;
    uint8_t answer, expected = no_code ? STABLEPLY_NO_CODE : field_refusal(&row, k);

    if (expected == 0) {
        int integer = sign == STABLEPLY_SIGNED ? value < power(k - 1) : negative == 0 && (k == 64 || value < power(k));
        int fits = sign == STABLEPLY_SIGNED ? value + negative < power(length - 1) : length == 64 || value < power(length);
        expected = !integer ? STABLEPLY_NOT_AN_INTEGER : strict && !fits ? STABLEPLY_DOES_NOT_FIT : STABLEPLY_ACCEPTED;
    }
    for (size_t i = 0; expected == 0 && i < length; i++) {
        put(model(&row), row.span, i, (int)(bits >> weight(WIDTH, row.span, significance, i) & 1));
    }
    answer = (strict ? CALL(store_strict) : CALL(store))(words(&row), row.lent, ARGUMENTS(row.span), k, significance, sign,
                                                         negative, value);
    answered(call, WIDTH, answer, expected);
    row_end(&row, call);
}
