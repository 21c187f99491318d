/* Vindacsor: a proved generator of test cases for floating-point adders.
 *
 * Link with libvindacsor.a, which `ffi/build-library` puts into target/staticlib/. Documents 01
 * and 02 name the formats, operations, modes, masks, job records and refusals that stand here.
 *
 * Every function returns the number of the refusal, 0 for none, and writes the numbers of its
 * answer to the front of out, which has out_length bytes, each number as eight bytes, low byte
 * first. Where the answer does not fit, the function returns VINDACSOR_BUFFER; this comes after
 * all other refusals. On every refusal out is as it was, and otherwise the bytes after the
 * answer are. Any numbers and any bytes may be given. A pointer is to as many bytes as the
 * length after it says, and is not null even where that is 0; out must not overlap a file.
 *
 * w is 2 to 11 exponent bits, f is 2 to 52 fraction bits; a word has w + f + 1 bits: the sign,
 * the exponent field and the fraction, from the top. operation is 0 to add and 1 to subtract.
 * mode is 0 nearest with ties to even, 1 toward zero, 2 up, 3 down, 4 nearest with ties away from
 * zero. A mask is two words: care, with a 1 for each fixed bit, and value, with the fixed bits.
 * The masks of a, b and c have w + f + 1 bits, and the carry mask has f + 1. In a job record every
 * word, of a carry mask too, has 4 bytes where w + f + 1 is at most 32, else 8.
 *
 * The bits below the last: an exact result of finite operands, at least the smallest normal number
 * in magnitude, is a leading 1, f fraction bits, g dropped bits (0 to 8) and a sticky bit, which is
 * 1 where something nonzero lies further down; one that overflows is written so too. Their mask has
 * g + 1 bits, bit 0 for the sticky bit and bit g for the first dropped bit; other results meet it
 * only where it fixes nothing. Map bit 6 of a job record announces, after the random words, one byte
 * g, then care and value of 2 bytes each, low byte first. Where care is 0 the field is refused: with
 * 17 for a g above 8 or a value that is not 0, else with 10.
 *
 * Bounds: for each of a, b and c a job may state a low and a high bound, both included. They are
 * compared as numbers: -0 equals +0, the infinities are the ends, and a NaN lies within no bounds.
 * Map bit 7 of a job record announces a second map byte directly after the first, so that five
 * bytes then stand before the masks; its bits 0 to 2 announce the bounds of a, b and c, each two
 * words, low then high, after all other fields. Where the second map is 0 the record is refused
 * with 10, after all else.
 */
#ifndef VINDACSOR_H
#define VINDACSOR_H

#include <stddef.h>
#include <stdint.h>

#ifdef __cplusplus
extern "C" {
#endif

/* The refusals. The masks are tested in the order 5, 14, 15, 16, 17, after 4 and before 6; those of
 * whole numbers, which have no 17, after 12 and before 6. 18 is tested after 6, before 7 and 10. */
enum {
    VINDACSOR_EXPONENT_BITS = 1, /* w below 2 or above 11 */
    VINDACSOR_FRACTION_BITS = 2, /* f below 2 or above 52 */
    VINDACSOR_OPERATION = 3,     /* operation above 1 */
    VINDACSOR_MODE = 4,          /* mode above 4 */
    VINDACSOR_MASK = 5,          /* a's mask: a value bit outside care, or a bit above its width;
                                  * in whole numbers x's mask; in joining either mask, for a value
                                  * bit outside care */
    VINDACSOR_WORD = 6,          /* operand, proposed or random word or bound too wide */
    VINDACSOR_NO_CASE = 7,       /* no case fits */
    VINDACSOR_CUT = 8,           /* record cut short, or no byte where a record is wanted */
    VINDACSOR_MAP = 9,           /* a bit from 3 on set in the second map */
    VINDACSOR_DEFAULT = 10,      /* field that says its default, or a second map of 0 */
    VINDACSOR_BUFFER = 11,       /* out too short */
    VINDACSOR_LENGTH = 12,       /* length outside 1 to 32 */
    VINDACSOR_CLASH = 13,        /* two masks fix one bit unlike */
    VINDACSOR_SECOND_MASK = 14,  /* b's mask: a value bit outside care, or a bit above its width;
                                  * in whole numbers y's mask */
    VINDACSOR_THIRD_MASK = 15,   /* c's mask, in whole numbers z's: the same */
    VINDACSOR_CARRY_MASK = 16,   /* the carry mask: the same */
    VINDACSOR_DROPPED_MASK = 17, /* g above 8, or the mask of the dropped bits: the same */
    VINDACSOR_BOUNDS = 18        /* a bound is a NaN, or a low bound exceeds its high one */
};

/* The bytes of the longest job record. */
enum { VINDACSOR_RECORD_BYTES = 139 };

/* The bytes of each answer. */
enum {
    VINDACSOR_RESULT_BYTES = 8,
    VINDACSOR_ROW_BYTES = 16,
    VINDACSOR_JOIN_BYTES = 16,
    VINDACSOR_READ_BYTES = 8,
    VINDACSOR_CONFIRM_BYTES = 8,
    VINDACSOR_GENERATE_BYTES = 40,
    VINDACSOR_WHOLE_BYTES = 32
};

/* The rounded sum or difference of the words a and b.
 * Answer: the word c. Refusals: 1, 2, 3, 4, 6, 11. */
uint64_t vindacsor_result(uint64_t w, uint64_t f, uint64_t operation, uint64_t mode,
                          uint64_t a, uint64_t b, uint8_t *out, size_t out_length);

/* The carry row of the words a and b, f + 1 bits: the carries of L plus R, or where the effective
 * signs are unlike the borrows of L less R. L is the operand with the larger exponent field, and a
 * where they are equal; then the borrow out of the top bit may be 1.
 * Answer: 1 and the row, or 0 and 0 where an operand is infinite or a NaN.
 * Refusals: 1, 2, 3, 6, 11. */
uint64_t vindacsor_row(uint64_t w, uint64_t f, uint64_t operation,
                       uint64_t a, uint64_t b, uint8_t *out, size_t out_length);

/* The mask that fixes what either of two masks fixes.
 * Answer: care, value. Refusals: 5 (in either mask a value bit outside care), 13, 11. */
uint64_t vindacsor_join(uint64_t care, uint64_t value, uint64_t care2, uint64_t value2,
                        uint8_t *out, size_t out_length);

/* What stands first in a job file.
 * Answer: the length in bytes of the job record that stands there, 0 where no byte is left.
 * Refusals: 9, 8, 1 to 5, 14, 15, 16, 17, 6, 18, 10, 11. */
uint64_t vindacsor_read(const uint8_t *file, size_t file_length,
                        uint8_t *out, size_t out_length);

/* Whether the case a, b, c fits the job whose record stands first in a file.
 * Answer: 1 or 0. Refusals: those of reading, with 8 for no byte at all, then 6, 11. */
uint64_t vindacsor_confirm(const uint8_t *file, size_t file_length,
                           uint64_t a, uint64_t b, uint64_t c,
                           uint8_t *out, size_t out_length);

/* The case that the random words choose for the job whose record stands first in a file.
 * Answer: a, b, c, then 1 and the carry row, or 0 and 0 where there is none.
 * Refusals: those of reading, with 8 for no byte at all, then 7 where no case fits, 11. */
uint64_t vindacsor_generate(const uint8_t *file, size_t file_length,
                            uint8_t *out, size_t out_length);

/* The whole-number case of a length of 1 to 32 bits, chosen by three random words:
 * x + y + (carry in) = z + 2^length * (carry out). The carry mask has length + 1 bits; bit i of
 * the carries goes into position i.
 * Answer: x, y, z, carries. Refusals: 12, 5, 14, 15, 16, 6, 7, 11. */
uint64_t vindacsor_whole(uint64_t length,
                         uint64_t x_care, uint64_t x_value,
                         uint64_t y_care, uint64_t y_value,
                         uint64_t z_care, uint64_t z_value,
                         uint64_t carries_care, uint64_t carries_value,
                         uint64_t r1, uint64_t r2, uint64_t r3,
                         uint8_t *out, size_t out_length);

#ifdef __cplusplus
}
#endif

#endif
