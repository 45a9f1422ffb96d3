/* The calls on rows of 64-bit words. */
#define WORD uint64_t
#define WIDTH 64
#define CALL(name) stableply64_##name
#define TRY_WORDS try_words_64
#include "words.h"
