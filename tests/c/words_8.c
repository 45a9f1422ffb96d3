/* The calls on rows of 8-bit words. */
#define WORD uint8_t
#define WIDTH 8
#define CALL(name) stableply8_##name
#define TRY_WORDS try_words_8
#include "words.h"
