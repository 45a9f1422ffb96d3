/* Loads or stores 1,024 fields at odd heads through the exported calls, for count.sh to count.
 *
 *     fields JOB WIDTH ORDER K SIGNIFICANCE SIGN      JOB: load or store; the rest as the C interface has them
 */
#include <stdlib.h>
#include <string.h>

#include "random.h"
#include "stableply.h"

/* How many fields there are, in how many words; a field of 64 bits at an odd head lies in nine bytes. */
enum { FIELDS = 1024, WORDS = 8192, MOST_WORDS_OF_A_FIELD = 9 };

static uint64_t wide[WORDS];
static uint8_t narrow[WORDS];
static size_t word[FIELDS], head[FIELDS];

/* All fields loaded, and all stored, at one width: not 0 where one is refused. */
#define LOOPS(width, words)                                                                                              \
    static __attribute__((noinline)) unsigned loads##width(uint8_t order, size_t k, uint8_t significance, uint8_t sign) { \
        unsigned refused = 0;                                                                                            \
        uint64_t out;                                                                                                    \
        for (size_t i = 0; i < FIELDS; i++)                                                                              \
            refused |= stableply##width##_load(words, WORDS, order, word[i], head[i], k, k, significance, sign, &out);   \
        return refused;                                                                                                  \
    }                                                                                                                    \
    static __attribute__((noinline)) unsigned stores##width(uint8_t order, size_t k, uint8_t significance, uint8_t sign) { \
        unsigned refused = 0;                                                                                            \
        for (size_t i = 0; i < FIELDS; i++)                                                                              \
            refused |= stableply##width##_store(words, WORDS, order, word[i], head[i], k, k, significance, sign, 0, 0x5A); \
        return refused;                                                                                                  \
    }

LOOPS(64, wide)
LOOPS(8, narrow)

int main(int count, char **given) {
    if (count != 7)
        return 2;
    int load = strcmp(given[1], "load") == 0, width = atoi(given[2]);
    uint8_t order = atoi(given[3]), significance = atoi(given[5]), sign = atoi(given[6]);
    size_t k = atoi(given[4]);
    for (size_t i = 0; i < FIELDS; i++) {
        word[i] = below(WORDS - MOST_WORDS_OF_A_FIELD - 1);
        head[i] = 2 * below(width / 2) + 1;
    }
    unsigned refused;
    if (width == 64)
        refused = load ? loads64(order, k, significance, sign) : stores64(order, k, significance, sign);
    else
        refused = load ? loads8(order, k, significance, sign) : stores8(order, k, significance, sign);
    return refused != 0;
}
