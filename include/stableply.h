/* Stableply: bits, fields and rows of bits in lent words of 8 and 64 bits.
 *
 * Link libstableply.a. Every call is proved to give the answer that its comment says, for all arguments.
 *
 * Lent words.  A row is a pointer to words and `lent`, the number of words behind it. stableply8_ calls take words of
 * 8 bits and stableply64_ calls words of 64.
 *
 * Spans.  Four arguments name the bits that a call works on: `order` says how the bits of a word are numbered,
 * `word` is the first word, `head` the index in that word of the span's first bit, `length` the number of bits. Bit i of
 * a span is index (head + i) mod W of word `word` + (head + i) div W. An empty span at the very end (word = lent,
 * head 0) is in bounds.
 *
 * Answers.  Each call returns 0 where it is accepted, and else the number of its refusal. The comment of a call lists its
 * refusals in their order: of those that apply the first is given. A refusal depends on the arguments alone, never on the
 * bits held.
 *
 * Memory.  Unless a call returns 0, it has changed nothing: no lent word, and nothing behind an out pointer. A call that is
 * accepted changes the bits that its comment names and no others.
 *
 * The caller's part.  A pointer is aligned, not NULL, and valid for its count, and memory that a call may write is handed
 * in once: neither the words of a second row nor an out value overlap it. Beyond this every argument is allowed.
 */
#ifndef STABLEPLY_H
#define STABLEPLY_H

#include <stddef.h>
#include <stdint.h>

#ifdef __cplusplus
extern "C" {
#endif

/* How the bits of a word are numbered: index i of a word is real position i (Lsb0) or W - 1 - i (Msb0). */
enum { STABLEPLY_LSB0 = 0, STABLEPLY_MSB0 = 1 };

/* Which piece of a field is the least significant, where it is cut at the ends of words: the first (le) or the last (be).
 * Each piece is read with the word's own significance, whatever the order. */
enum { STABLEPLY_LE = 0, STABLEPLY_BE = 1 };

/* Whether a field or a value has a sign. */
enum { STABLEPLY_UNSIGNED = 0, STABLEPLY_SIGNED = 1 };

/* The boolean operations, by their truth table: bit 2a + b of the number is the result for left bit a and right bit b. */
enum { STABLEPLY_XOR = 6, STABLEPLY_AND = 8, STABLEPLY_OR = 14 };

/* The most words that a row may have. */
enum { STABLEPLY_MOST_WORDS = 65536 };

/* What a call returns. */
enum {
    STABLEPLY_ACCEPTED = 0,
    STABLEPLY_TOO_MANY_WORDS = 1,  /* more than 65,536 words are lent */
    STABLEPLY_INDEX_TOO_LARGE = 2, /* a head, or an index in a word, is W or more */
    STABLEPLY_OUT_OF_BOUNDS = 3,   /* the span is not in bounds: W * word + head + length is above W * lent */
    STABLEPLY_NO_SUCH_K = 4,       /* k is not 8, 16, 32 or 64 */
    STABLEPLY_FIELD_LENGTH = 5,    /* a field's length is 0 or above k */
    STABLEPLY_ORDERS_DIFFER = 6,   /* the two spans' orders differ */
    STABLEPLY_LENGTHS_DIFFER = 7,  /* the two spans' lengths differ */
    STABLEPLY_NOT_AN_INTEGER = 8,  /* the value is not a k-bit integer of its sign */
    STABLEPLY_DOES_NOT_FIT = 9,    /* strict store: the value does not fit into the field */
    STABLEPLY_NOT_BELOW = 10,      /* an index, a place or a range is not inside the span, or a mask's not inside the word */
    STABLEPLY_NO_CODE = 255        /* an argument is none of the codes above, or a width that is none */
};

/* ---- Calls without lent words. `width` is 8 or 64. */

/* `out`: the real position of index `index` of a word.
 * Refusals: 255 width or order; 2 index. */
uint8_t stableply_position(uint8_t width, uint8_t order, size_t index, uint64_t *out);

/* `out`: 2 to the real position of index `index` of a word.
 * Refusals: 255 width or order; 2 index. */
uint8_t stableply_selector(uint8_t width, uint8_t order, size_t index, uint64_t *out);

/* `out`: the sum of the selectors of the indexes `from` up to, but without, `upto`; 0 where the two are the same.
 * Refusals: 255 width or order; 2 `from` is the width or more, even where `upto` is the width; 10 `upto` is above the width,
 * or `from` above `upto`. */
uint8_t stableply_mask(uint8_t width, uint8_t order, size_t from, size_t upto, uint64_t *out);

/* Splits a span of a row of `lent` words at `place`. The first half is (order, word, head, place); the out values are word,
 * head and length of the rest, which keeps the order.
 * Refusals: 255 width or order; 1, 2, 3 the span; 10 `place` is above the span's length. */
uint8_t stableply_split(uint8_t width, size_t lent, uint8_t order, size_t word, size_t head, size_t length, size_t place,
                        size_t *rest_word, size_t *rest_head, size_t *rest_length);

/* ---- Single bits. */

/* `out`: bit `index` of the span, 0 or 1.
 * Refusals: 255 order; 1, 2, 3 the span; 10 `index` is not below the span's length. */
uint8_t stableply8_read_bit(const uint8_t *words, size_t lent, uint8_t order, size_t word, size_t head, size_t length,
                            size_t index, uint8_t *out);
uint8_t stableply64_read_bit(const uint64_t *words, size_t lent, uint8_t order, size_t word, size_t head, size_t length,
                             size_t index, uint8_t *out);

/* Sets bit `index` of the span to `bit`, 0 or 1.
 * Refusals: 255 order or bit; 1, 2, 3 the span; 10 `index` is not below the span's length. */
uint8_t stableply8_write_bit(uint8_t *words, size_t lent, uint8_t order, size_t word, size_t head, size_t length,
                             size_t index, uint8_t bit);
uint8_t stableply64_write_bit(uint64_t *words, size_t lent, uint8_t order, size_t word, size_t head, size_t length,
                              size_t index, uint8_t bit);

/* ---- Fields: spans of 1 to k bits that hold a number. k, the size of the integer that the number is held in, is 8, 16, 32
 * or 64.
 *
 * A number handed in is `value` where `below` is 0 and -1 - `value` where `below` is 1. An int64_t v is handed in as
 * below = v < 0, value = (uint64_t)(v < 0 ? -1 - v : v). */

/* `out`: the number that the field holds. A signed one is congruent to it modulo 2^length, from -2^(length-1) to
 * 2^(length-1) - 1, and stands in `out` in 64-bit two's complement: read it as (int64_t)out.
 * Refusals: 255 order, significance or sign; 1, 2, 3 the span; 4 k; 5 the field's length. */
uint8_t stableply8_load(const uint8_t *words, size_t lent, uint8_t order, size_t word, size_t head, size_t length,
                        size_t k, uint8_t significance, uint8_t sign, uint64_t *out);
uint8_t stableply64_load(const uint64_t *words, size_t lent, uint8_t order, size_t word, size_t head, size_t length,
                         size_t k, uint8_t significance, uint8_t sign, uint64_t *out);

/* Stores the low `length` bits of the number (of number + 2^k where it is negative), so that a load returns them.
 * Refusals: 255 order, significance, sign or below; 1, 2, 3 the span; 4 k; 5 the field's length; 8 the number is not a k-bit
 * integer of its sign. */
uint8_t stableply8_store(uint8_t *words, size_t lent, uint8_t order, size_t word, size_t head, size_t length,
                         size_t k, uint8_t significance, uint8_t sign, uint8_t below, uint64_t value);
uint8_t stableply64_store(uint64_t *words, size_t lent, uint8_t order, size_t word, size_t head, size_t length,
                          size_t k, uint8_t significance, uint8_t sign, uint8_t below, uint64_t value);

/* Stores as above, but only a number that fits: an unsigned one is below 2^length, the magnitude of a signed one below
 * 2^(length-1).
 * Refusals: 255 order, significance, sign or below; 1, 2, 3 the span; 4 k; 5 the field's length; 8 the number is not a k-bit
 * integer of its sign; 9 it does not fit. */
uint8_t stableply8_store_strict(uint8_t *words, size_t lent, uint8_t order, size_t word, size_t head, size_t length,
                                size_t k, uint8_t significance, uint8_t sign, uint8_t below, uint64_t value);
uint8_t stableply64_store_strict(uint64_t *words, size_t lent, uint8_t order, size_t word, size_t head, size_t length,
                                 size_t k, uint8_t significance, uint8_t sign, uint8_t below, uint64_t value);

/* ---- Rows. */

/* Copies between two buffers: bit i of the target becomes bit i of the source.
 * Refusals: 255 an order; 1, 2, 3 the target's span; 1, 2, 3 the source's span; 6 the orders differ; 7 the lengths differ. */
uint8_t stableply8_copy_from(uint8_t *words, size_t lent, uint8_t order, size_t word, size_t head, size_t length,
                             const uint8_t *source, size_t source_lent,
                             uint8_t source_order, size_t source_word, size_t source_head, size_t source_length);
uint8_t stableply64_copy_from(uint64_t *words, size_t lent, uint8_t order, size_t word, size_t head, size_t length,
                              const uint64_t *source, size_t source_lent,
                              uint8_t source_order, size_t source_word, size_t source_head, size_t source_length);

/* Copies inside one span: bit destination + i becomes the old bit start + i, for all i below `count` at once. The two ranges
 * may overlap.
 * Refusals: 255 order; 1, 2, 3 the span; 10 start + count or destination + count, as whole numbers, is above the span's
 * length. */
uint8_t stableply8_copy_within(uint8_t *words, size_t lent, uint8_t order, size_t word, size_t head, size_t length,
                               size_t start, size_t count, size_t destination);
uint8_t stableply64_copy_within(uint64_t *words, size_t lent, uint8_t order, size_t word, size_t head, size_t length,
                                size_t start, size_t count, size_t destination);

/* Combines the left span with the right one, bit by bit, into the left. Right bits past its end count as 0, and those past the
 * left's end are ignored. `operation` is STABLEPLY_AND, STABLEPLY_OR or STABLEPLY_XOR.
 * Refusals: 255 an order or the operation; 1, 2, 3 the left span; 1, 2, 3 the right span; 6 the orders differ. */
uint8_t stableply8_boolean(uint8_t *words, size_t lent, uint8_t order, size_t word, size_t head, size_t length,
                           const uint8_t *right, size_t right_lent,
                           uint8_t right_order, size_t right_word, size_t right_head, size_t right_length,
                           uint8_t operation);
uint8_t stableply64_boolean(uint64_t *words, size_t lent, uint8_t order, size_t word, size_t head, size_t length,
                            const uint64_t *right, size_t right_lent,
                            uint8_t right_order, size_t right_word, size_t right_head, size_t right_length,
                            uint8_t operation);

/* Swaps two spans of two buffers: each gets the other's old bits.
 * Refusals: 255 an order; 1, 2, 3 the left span; 1, 2, 3 the right span; 6 the orders differ; 7 the lengths differ. */
uint8_t stableply8_swap(uint8_t *left, size_t left_lent,
                        uint8_t left_order, size_t left_word, size_t left_head, size_t left_length,
                        uint8_t *right, size_t right_lent,
                        uint8_t right_order, size_t right_word, size_t right_head, size_t right_length);
uint8_t stableply64_swap(uint64_t *left, size_t left_lent,
                         uint8_t left_order, size_t left_word, size_t left_head, size_t left_length,
                         uint64_t *right, size_t right_lent,
                         uint8_t right_order, size_t right_word, size_t right_head, size_t right_length);

/* `out`: 1 where the two spans have the same length and the same bits, else 0. Both may be in one buffer.
 * Refusals: 255 an order; 1, 2, 3 the left span; 1, 2, 3 the right span; 6 the orders differ. */
uint8_t stableply8_equal(const uint8_t *left, size_t left_lent,
                         uint8_t left_order, size_t left_word, size_t left_head, size_t left_length,
                         const uint8_t *right, size_t right_lent,
                         uint8_t right_order, size_t right_word, size_t right_head, size_t right_length,
                         uint8_t *out);
uint8_t stableply64_equal(const uint64_t *left, size_t left_lent,
                          uint8_t left_order, size_t left_word, size_t left_head, size_t left_length,
                          const uint64_t *right, size_t right_lent,
                          uint8_t right_order, size_t right_word, size_t right_head, size_t right_length,
                          uint8_t *out);

/* ---- Searches. `found` is 1 with the index, counted from the span's start, in `at`; or 0 with `at` left as it was, exactly
 * where the span has no such bit. An empty span has none. */

/* The smallest index of a 1. Refusals: 255 order; 1, 2, 3 the span. */
uint8_t stableply8_first_one(const uint8_t *words, size_t lent, uint8_t order, size_t word, size_t head, size_t length,
                             uint8_t *found, size_t *at);
uint8_t stableply64_first_one(const uint64_t *words, size_t lent, uint8_t order, size_t word, size_t head, size_t length,
                              uint8_t *found, size_t *at);

/* The largest index of a 1. Refusals: 255 order; 1, 2, 3 the span. */
uint8_t stableply8_last_one(const uint8_t *words, size_t lent, uint8_t order, size_t word, size_t head, size_t length,
                            uint8_t *found, size_t *at);
uint8_t stableply64_last_one(const uint64_t *words, size_t lent, uint8_t order, size_t word, size_t head, size_t length,
                             uint8_t *found, size_t *at);

/* The smallest index of a 0. Refusals: 255 order; 1, 2, 3 the span. */
uint8_t stableply8_first_zero(const uint8_t *words, size_t lent, uint8_t order, size_t word, size_t head, size_t length,
                              uint8_t *found, size_t *at);
uint8_t stableply64_first_zero(const uint64_t *words, size_t lent, uint8_t order, size_t word, size_t head, size_t length,
                               uint8_t *found, size_t *at);

/* The largest index of a 0. Refusals: 255 order; 1, 2, 3 the span. */
uint8_t stableply8_last_zero(const uint8_t *words, size_t lent, uint8_t order, size_t word, size_t head, size_t length,
                             uint8_t *found, size_t *at);
uint8_t stableply64_last_zero(const uint64_t *words, size_t lent, uint8_t order, size_t word, size_t head, size_t length,
                              uint8_t *found, size_t *at);

#ifdef __cplusplus
}
#endif

#endif
