/* Puts 256 random requests, of up to four words and a bit, to an exported call on single bits or rows, for count.sh to count.
 *
 *     rows CALL WIDTH ORDER
 *
 * CALL is read_bit, write_bit, copy_from, copy_within, boolean (xor), swap, equal or a search; the rest are as the C interface has them.
 */
#include <stdlib.h>
#include <string.h>

#include "random.h"
#include "stableply.h"

/* How many requests there are, to rows of how many words. */
enum { REQUESTS = 256, WORDS = 512 };

static uint64_t wide[WORDS], wide_other[WORDS];
static uint8_t narrow[WORDS], narrow_other[WORDS];
static size_t word[REQUESTS], head[REQUESTS], length[REQUESTS], other_word[REQUESTS], other_head[REQUESTS];

/* All requests put to one call: not 0 where one is refused. */
#define LOOP(name, width, call)                                              \
    static __attribute__((noinline)) unsigned name##s##width(uint8_t order) { \
        unsigned refused = 0;                                                \
        uint8_t flag;                                                        \
        size_t at;                                                           \
        (void)flag, (void)at;                                                \
        for (size_t i = 0; i < REQUESTS; i++)                                \
            refused |= stableply##width##_##name call;                       \
        return refused;                                                      \
    }
#define ROW(words) words, WORDS, order, word[i], head[i], length[i]
#define OTHER(words) words, WORDS, order, other_word[i], other_head[i], length[i]
#define SEARCH(name, width, words) LOOP(name, width, (ROW(words), &flag, &at))
#define LOOPS(width, words, others)                                                                                \
    LOOP(read_bit, width, (ROW(words), length[i] - 1, &flag))                                                      \
    LOOP(write_bit, width, (ROW(words), length[i] - 1, i % 2))                                                     \
    LOOP(copy_from, width, (ROW(words), OTHER(others)))                                                            \
    LOOP(copy_within, width, (words, WORDS, order, word[i], head[i], 2 * length[i], length[i] / 2, length[i], length[i] / 3)) \
    LOOP(boolean, width, (ROW(words), OTHER(others), STABLEPLY_XOR))                                               \
    LOOP(swap, width, (ROW(words), OTHER(others)))                                                                 \
    LOOP(equal, width, (ROW(words), ROW(words), &flag))                                                            \
    SEARCH(first_one, width, words)                                                                                \
    SEARCH(last_one, width, words)                                                                                 \
    SEARCH(first_zero, width, words)                                                                               \
    SEARCH(last_zero, width, words)

LOOPS(64, wide, wide_other)
LOOPS(8, narrow, narrow_other)

/* The calls by their names, with the loop at each width. */
static const struct {
    const char *name;
    unsigned (*wide)(uint8_t), (*narrow)(uint8_t);
} calls[] = {
#define CALL(name) {#name, name##s64, name##s8}
    CALL(read_bit), CALL(write_bit), CALL(copy_from), CALL(copy_within), CALL(boolean),   CALL(swap),
    CALL(equal),    CALL(first_one), CALL(last_one),  CALL(first_zero),  CALL(last_zero),
};

int main(int count, char **given) {
    if (count != 4)
        return 2;
    size_t width = atoi(given[2]);
    uint8_t order = atoi(given[3]);
    /* Four of five words have no bit that a search looks for. */
    uint64_t passed = strstr(given[1], "_one") ? 0 : UINT64_MAX;
    int search = strstr(given[1], "first_") || strstr(given[1], "last_");
    for (size_t i = 0; i < WORDS; i++) {
        below(2); /* each step of the generator makes a new state: a random word */
        wide[i] = search && i % 5 ? passed : state;
        narrow[i] = wide[i];
        below(2);
        wide_other[i] = state;
        narrow_other[i] = state >> 9;
    }
    for (size_t i = 0; i < REQUESTS; i++) {
        word[i] = below(WORDS / 2);
        head[i] = below(width);
        length[i] = 1 + below(4 * width);
        other_word[i] = below(WORDS / 2);
        other_head[i] = below(width);
    }
    for (size_t i = 0; i < sizeof calls / sizeof calls[0]; i++)
        if (strcmp(given[1], calls[i].name) == 0)
            return (width == 64 ? calls[i].wide(order) : calls[i].narrow(order)) != 0;
    return 2;
}
