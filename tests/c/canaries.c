/* Tries every call of stableply.h on requests that are right and on damaged ones, and holds each to the rules, worked out bit by
 * bit: the answer, every lent word after it, every out value. Canaries stand on both sides of every buffer and out value.
 *
 *     canaries REQUESTS GUARD
 *
 * tries each call REQUESTS times with GUARD canary words on each side of a buffer. With GUARD 0 the lent words are all that is
 * allocated, so that valgrind sees whatever touches a word beyond them. The status is 0 only if nothing was wrong and each call
 * was seen to give each of its answers.
 */
#include "canaries.h"

unsigned guard;

/* The generator xorshift64*, which makes the same numbers on every run. */
static uint64_t state = 0x9E3779B97F4A7C15u;

uint64_t any(void)
{
    state ^= state >> 12;
    state ^= state << 25;
    state ^= state >> 27;
    return state * 0x2545F4914F6CDD1Du;
}

uint64_t below(uint64_t bound)
{
    return any() % bound;
}

uint64_t up_to(uint64_t last)
{
    return last == UINT64_MAX ? any() : below(last + 1);
}

/* The answers that a call can give, up to END, and how often each was given at each width. */
struct call {
    const char *name;
    int answers[10];
    unsigned long seen[2][256];
};
enum { END = -1 };

/* What every call can answer, and what every call with a span can be refused with. */
#define ANY STABLEPLY_ACCEPTED, STABLEPLY_NO_CODE
#define SPAN STABLEPLY_TOO_MANY_WORDS, STABLEPLY_INDEX_TOO_LARGE, STABLEPLY_OUT_OF_BOUNDS
#define FIELD SPAN, STABLEPLY_NO_SUCH_K, STABLEPLY_FIELD_LENGTH

static struct call calls[CALLS] = {
    [POSITION] = {"position", {ANY, STABLEPLY_INDEX_TOO_LARGE, END}, {{0}}},
    [SELECTOR] = {"selector", {ANY, STABLEPLY_INDEX_TOO_LARGE, END}, {{0}}},
    [MASK] = {"mask", {ANY, STABLEPLY_INDEX_TOO_LARGE, STABLEPLY_NOT_BELOW, END}, {{0}}},
    [SPLIT] = {"split", {ANY, SPAN, STABLEPLY_NOT_BELOW, END}, {{0}}},
    [READ_BIT] = {"read_bit", {ANY, SPAN, STABLEPLY_NOT_BELOW, END}, {{0}}},
    [WRITE_BIT] = {"write_bit", {ANY, SPAN, STABLEPLY_NOT_BELOW, END}, {{0}}},
    [LOAD] = {"load", {ANY, FIELD, END}, {{0}}},
    [STORE] = {"store", {ANY, FIELD, STABLEPLY_NOT_AN_INTEGER, END}, {{0}}},
    [STORE_STRICT] = {"store_strict", {ANY, FIELD, STABLEPLY_NOT_AN_INTEGER, STABLEPLY_DOES_NOT_FIT, END}, {{0}}},
    [COPY_FROM] = {"copy_from", {ANY, SPAN, STABLEPLY_ORDERS_DIFFER, STABLEPLY_LENGTHS_DIFFER, END}, {{0}}},
    [COPY_WITHIN] = {"copy_within", {ANY, SPAN, STABLEPLY_NOT_BELOW, END}, {{0}}},
    [BOOLEAN] = {"boolean", {ANY, SPAN, STABLEPLY_ORDERS_DIFFER, END}, {{0}}},
    [SWAP] = {"swap", {ANY, SPAN, STABLEPLY_ORDERS_DIFFER, STABLEPLY_LENGTHS_DIFFER, END}, {{0}}},
    [EQUAL] = {"equal", {ANY, SPAN, STABLEPLY_ORDERS_DIFFER, END}, {{0}}},
    [FIRST_ONE] = {"first_one", {ANY, SPAN, END}, {{0}}},
    [LAST_ONE] = {"last_one", {ANY, SPAN, END}, {{0}}},
    [FIRST_ZERO] = {"first_zero", {ANY, SPAN, END}, {{0}}},
    [LAST_ZERO] = {"last_zero", {ANY, SPAN, END}, {{0}}},
};

void wrong(enum call_name call, unsigned width, const char *what)
{
    printf("canaries: %s, width %u: %s\n", calls[call].name, width, what);
    exit(1);
}

void answered(enum call_name call, unsigned width, uint8_t answer, uint8_t expected)
{
    if (answer != expected) {
        printf("canaries: %s, width %u: answered %u, not %u\n", calls[call].name, width, (unsigned)answer, (unsigned)expected);
        exit(1);
    }
    calls[call].seen[width == 64][answer]++;
}

struct out out_new(void)
{
    struct out out = {any(), any(), any(), 0, 0, 0};
    out.old_before = out.before;
    out.old_value = out.value;
    out.old_after = out.after;
    return out;
}

void out_check(const struct out *out, enum call_name call, unsigned width, int written, uint64_t expected)
{
    if (out->before != out->old_before || out->after != out->old_after) {
        wrong(call, width, "a canary beside an out value is gone");
    }
    if (out->value != (written ? expected : out->old_value)) {
        wrong(call, width, written ? "a wrong out value" : "an out value was written though nothing was to be written");
    }
}

uint8_t *out_byte(struct out *out)
{
    return (uint8_t *)&out->value;
}

void out_byte_check(const struct out *out, enum call_name call, unsigned width, int written, uint8_t expected)
{
    uint64_t value = out->old_value;
    memcpy(&value, &expected, 1);
    out_check(out, call, width, written, value);
}

uint8_t some_code(uint64_t damaged_one_in)
{
    return (uint8_t)(below(damaged_one_in) == 0 ? 2 + below(254) : below(2));
}

/* Sizes near 0, near a word's and a row's ends, near 2^64, and where W times the number passes 2^64. */
size_t some_size(void)
{
    static const size_t bases[] = {0, 7, 8, 63, 64, STABLEPLY_MOST_WORDS, SIZE_MAX / 64, SIZE_MAX / 8, SIZE_MAX / 2, SIZE_MAX - 64, SIZE_MAX - 2};
    return below(4) == 0 ? (size_t)any() : bases[below(sizeof bases / sizeof *bases)] + below(3);
}

struct span some_span(unsigned width, size_t lent, size_t longest)
{
    size_t bits = width * lent;
    size_t start = up_to(bits);
    size_t room = bits - start;
    struct span span = {some_code(24), start / width, start % width, up_to(room < longest ? room : longest)};
    /* Heads, words and lengths past their limits by little and by much; sums that pass 2^64; and half of the time none of these. */
    switch (below(20)) {
    case 0: span.head = width + below(3); break;
    case 1: span.head = some_size(); break;
    case 2: span.word = lent + below(3); break;
    case 3: span.word = some_size(); break;
    case 4: span.length = room + 1 + below(2); break;
    case 5: span.length = some_size(); break;
    case 6: span.length = (size_t)0 - width * span.word - span.head; break;
    case 7: span.word = SIZE_MAX / width + 1; break;
    case 8: span.length = room; break;
    default: break;
    }
    return span;
}

uint8_t span_refusal(unsigned width, size_t lent, struct span span)
{
    if (lent > STABLEPLY_MOST_WORDS) {
        return STABLEPLY_TOO_MANY_WORDS;
    }
    if (span.head >= width) {
        return STABLEPLY_INDEX_TOO_LARGE;
    }
    if (span.word > lent) {
        return STABLEPLY_OUT_OF_BOUNDS;
    }
    size_t room = width * (lent - span.word);
    return span.head > room || span.length > room - span.head ? STABLEPLY_OUT_OF_BOUNDS : STABLEPLY_ACCEPTED;
}

unsigned weight(unsigned width, struct span span, unsigned significance, size_t i)
{
    size_t word = (span.head + i) / width;
    size_t first = word == 0 ? 0 : word * width - span.head;
    size_t end = (word + 1) * width - span.head;
    if (end > span.length) {
        end = span.length;
    }
    size_t in_piece = span.order == STABLEPLY_LSB0 ? i - first : end - 1 - i;
    return (unsigned)(in_piece + (significance == STABLEPLY_LE ? first : span.length - end));
}

/* Every answer of every call was seen at both widths, and no other. */
static int all_seen(void)
{
    int complete = 1;
    for (unsigned c = 0; c < CALLS; c++) {
        for (unsigned wide = 0; wide < 2; wide++) {
            for (const int *answer = calls[c].answers; *answer != END; answer++) {
                if (calls[c].seen[wide][*answer] == 0) {
                    printf("canaries: %s, width %u: never answered %d\n", calls[c].name, wide ? 64 : 8, *answer);
                    complete = 0;
                }
            }
        }
    }
    return complete;
}

int main(int count, char **arguments)
{
    unsigned long requests = count == 3 ? strtoul(arguments[1], NULL, 10) : 0;
    guard = count == 3 ? (unsigned)strtoul(arguments[2], NULL, 10) : 0;
    if (requests == 0) {
        fprintf(stderr, "usage: canaries REQUESTS GUARD\n");
        return 2;
    }
    for (unsigned long i = 0; i < requests; i++) {
        try_without_words(8);
        try_without_words(64);
        try_words_8();
        try_words_64();
    }
    if (!all_seen()) {
        return 1;
    }
    printf("canaries: %lu requests to each call at each width, each answer of each call seen, nothing wrong\n", requests);
    return 0;
}
