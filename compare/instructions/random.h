/* Random numbers for the programs that count.sh counts: the same on every run. */
#include <stddef.h>
#include <stdint.h>

static uint64_t state = 88172645463325252u;

/* A random number below `bound`. */
static size_t below(size_t bound) {
    state ^= state << 13;
    state ^= state >> 7;
    state ^= state << 17;
    return state % bound;
}
