/* Functions that work on bits, offsets, texts and indices in the caller's memory, in the layout of Apache Arrow arrays.
 * The library is written in Rattle, a language whose programs are proved. The contract of each call of the library is
 * proved (docs/BINDINGS.md, which the package has too). This header is written by hand, with its inline function
 * arrow2_get_bit_inline, which is not proved.
 *
 * Rules for every call. A call tests its numbers and returns a code; the four `_unchecked` calls do not test the
 * offsets. No call tests the rules about pointers, alignment, overlap, bools and threads: breaking one of them is
 * undefined behaviour.
 * - A slice is a pointer and its number of items. NULL is allowed only with 0 items, and never as `offsets` of the
 *   `_unchecked` calls. A pointer that is not NULL must point to the given number of items. It must be aligned for
 *   their type, even where that number is 0.
 * - A pointer to a single value (`zeros`, `equal`, `value`, `at`, `count`, `index`, `slot`) must not be NULL.
 * - NULL never means that a validity is missing. A call that accepts a missing validity has an argument that states
 *   whether it is missing: `all_valid`, `lhs_all_valid`, `rhs_all_valid`. Without a validity bitmap pass NULL as
 *   the pointer, 0 as the number of bytes, 0 as the offset, and true as this argument. Every other call needs the
 *   bitmap.
 * - An output must not overlap any other argument, input or output. `bytes` of the *_assign_table calls and of
 *   arrow2_set_bit, and `*at`, are outputs too. Inputs may overlap each other.
 * - Every `bool` must hold 0 or 1 when the call begins. This also holds for output bools (`*equal`, `*value`, each
 *   item of `out` of arrow2_unpack), although the call only writes them: set them before the call. `*at`, and `bytes`
 *   of the *_assign_table calls and of arrow2_set_bit, are inputs too: set them before the call. No other output need
 *   be initialised: a call may read its old contents, but what the call writes does not depend on them.
 * - Other threads may read the memory that a call reads. Until the call returns, no other thread may write that memory,
 *   and none may read or write the memory that the call writes.
 * - Bit i of bytes is bit i % 8 of byte i / 8, the lowest first. Offsets and lengths of bits are in bits. Each may have
 *   any value. Where bits are not inside the bytes, the code is ARROW2_RANGE. The exception is `bytes` of the
 *   *_assign_table calls: if it has the wrong size, the code is ARROW2_LENGTH. Lengths of slices of numbers are in
 *   items.
 * - The `length` bits from bit `offset` on are inside `bytes` if offset + length <= 8 * bytes_len. This condition is
 *   computed as if in unlimited integers, so a huge offset gives ARROW2_RANGE and never wraps. The condition is tested
 *   for length 0 too: offset 5, length 0 in 0 bytes is ARROW2_RANGE. Bit `index` is inside if index < 8 * bytes_len.
 * - An output of `length` bits is exactly (length + 7) / 8 bytes, computed as if in unlimited integers:
 *   arrow2_bytes_for of arrow2_c_data.h returns this number. The bits are written from bit 0 on, and padding bits
 *   become 0. The same holds for `bytes` of the in-place calls, *_assign_table.
 * - The result is one of the codes below. On any error nothing is written, but for `*index` or `*slot` of some checks:
 *   the comment of such a check names the codes for which it writes them. No check writes them with ARROW2_OK.
 * - Nothing is kept between calls, no call allocates, and calls may run on several threads at once. Nothing is made
 *   that has to be freed. */
#ifndef ARROW2_PROVED_H
#define ARROW2_PROVED_H

#ifndef __cplusplus
#include <stdbool.h>
#endif
#include <stddef.h>
#include <stdint.h>

#ifdef __cplusplus
extern "C" {
#endif

/* The version of this header. No call returns the version of the library at run time. */
#define ARROW2_PROVED_VERSION_MAJOR 0
#define ARROW2_PROVED_VERSION_MINOR 1
#define ARROW2_PROVED_VERSION_PATCH 0

/* The call succeeded. */
#define ARROW2_OK 0u
/* The argument `index` (the number of a bit), `*at`, or a range is out of bounds, or a truth-table number is too large:
 * above 3, 15 or 255 for one, two or three inputs. */
#define ARROW2_RANGE 1u
/* An output slice is not exactly the required size (bits: (length + 7) / 8), `starts_len` differs from
 * `lengths_len`, the two slices of a widen or narrow call differ in length, or `out` of a rebase call has no item. */
#define ARROW2_LENGTH 2u
/* A number is above the greatest offset: 2147483647 for offsets of 32 bits, 9223372036854775807 for offsets of 64
 * bits. */
#define ARROW2_OVERFLOW 3u
/* An allocation failed. No call of this version returns it. */
#define ARROW2_MEMORY 4u
/* The offsets slice has 0 items; at least 1 is needed. */
#define ARROW2_SPEC_EMPTY 5u
/* The first offset is negative. */
#define ARROW2_SPEC_NEGATIVE 6u
/* The first offset is not negative, and some offset is below the one before it. */
#define ARROW2_SPEC_FALLING 7u
/* The number of nulls is not the declared one. */
#define ARROW2_NULLS 8u
/* An offset is greater than the number of bytes or of child items that the offsets point into. */
#define ARROW2_PAST 9u
/* The bytes of a slot are not UTF-8. */
#define ARROW2_UTF8 10u
/* An item of `indices` (an index of a dictionary) is not null, and is negative or not below the argument `items`. */
#define ARROW2_INDEX 11u

/* ---- Bits */

/* Writes to `zeros` how many of the `length` bits from bit `offset` on are not set.
 * ARROW2_RANGE: these bits are not inside the bytes. */
uint32_t arrow2_count_zeros(const uint8_t *bytes, size_t bytes_len, size_t offset, size_t length, size_t *zeros);

/* Writes to `equal` whether the `length` bits of `left` from bit `left_offset` on equal the `length` bits of `right`
 * from bit `right_offset` on. ARROW2_RANGE: the bits of `left` or of `right` are not inside their bytes. */
uint32_t arrow2_equal_bits(const uint8_t *left, size_t left_len, size_t left_offset, const uint8_t *right,
                           size_t right_len, size_t right_offset, size_t length, bool *equal);

/* Writes to `value` whether bit `index` is set. ARROW2_RANGE: the bit is not inside the bytes. */
uint32_t arrow2_get_bit(const uint8_t *bytes, size_t bytes_len, size_t index, bool *value);

/* An inline function that does the same as arrow2_get_bit. It is written by hand and not proved: tests compare the
 * two. */
static inline uint32_t arrow2_get_bit_inline(const uint8_t *bytes, size_t bytes_len, size_t index, bool *value) {
    if (index / 8 >= bytes_len) {
        return ARROW2_RANGE;
    }
    *value = ((bytes[index / 8] >> (index % 8)) & 1) != 0;
    return ARROW2_OK;
}

/* Writes `value` to bit `index`, and leaves every other bit as it was. ARROW2_RANGE: the bit is not inside the
 * bytes. */
uint32_t arrow2_set_bit(uint8_t *bytes, size_t bytes_len, size_t index, bool value);

/* Copies the `length` bits that begin at bit `offset` to `out`, from bit 0 on.
 * ARROW2_RANGE: these bits are not inside the bytes. Else ARROW2_LENGTH: `out` has the wrong size. */
uint32_t arrow2_copy_bits(const uint8_t *bytes, size_t bytes_len, size_t offset, size_t length, uint8_t *out,
                          size_t out_len);

/* ---- Truth tables
 *
 * The bits of `table` are the outputs: for inputs a1 to a4, in the order of the arguments, each 0 or 1, the output is
 * bit a1 + 2 * a2 + 4 * a3 + 8 * a4. With two inputs, the table of AND is 8, of OR 14 and of XOR 6. With one input, the
 * table of NOT is 1. Each input is `length` bits from its offset on. ARROW2_RANGE: the table is above 3 for one input,
 * above 15 for two, above 255 for three, or an input is not inside its bytes. Else ARROW2_LENGTH: `out` has the wrong
 * size. */

uint32_t arrow2_unary_table(const uint8_t *bytes, size_t bytes_len, size_t offset, size_t length, uint16_t table,
                            uint8_t *out, size_t out_len);

uint32_t arrow2_binary_table(const uint8_t *first, size_t first_len, size_t first_offset, const uint8_t *second,
                             size_t second_len, size_t second_offset, size_t length, uint16_t table, uint8_t *out,
                             size_t out_len);

uint32_t arrow2_ternary_table(const uint8_t *first, size_t first_len, size_t first_offset, const uint8_t *second,
                              size_t second_len, size_t second_offset, const uint8_t *third, size_t third_len,
                              size_t third_offset, size_t length, uint16_t table, uint8_t *out, size_t out_len);

uint32_t arrow2_quaternary_table(const uint8_t *first, size_t first_len, size_t first_offset, const uint8_t *second,
                                 size_t second_len, size_t second_offset, const uint8_t *third, size_t third_len,
                                 size_t third_offset, const uint8_t *fourth, size_t fourth_len, size_t fourth_offset,
                                 size_t length, uint16_t table, uint8_t *out, size_t out_len);

/* The same in place: the first input is the first `length` bits of `bytes`, and the outputs are written over it.
 * Padding bits become 0, whatever they were.
 * ARROW2_RANGE: the table is above the same bound, or an input after the first is not inside its bytes.
 * Else ARROW2_LENGTH: `bytes_len` is not (length + 7) / 8. */

uint32_t arrow2_unary_assign_table(uint8_t *bytes, size_t bytes_len, size_t length, uint16_t table);

uint32_t arrow2_binary_assign_table(uint8_t *bytes, size_t bytes_len, const uint8_t *second, size_t second_len,
                                    size_t second_offset, size_t length, uint16_t table);

uint32_t arrow2_ternary_assign_table(uint8_t *bytes, size_t bytes_len, const uint8_t *second, size_t second_len,
                                     size_t second_offset, const uint8_t *third, size_t third_len,
                                     size_t third_offset, size_t length, uint16_t table);

uint32_t arrow2_quaternary_assign_table(uint8_t *bytes, size_t bytes_len, const uint8_t *second, size_t second_len,
                                        size_t second_offset, const uint8_t *third, size_t third_len,
                                        size_t third_offset, const uint8_t *fourth, size_t fourth_len,
                                        size_t fourth_offset, size_t length, uint16_t table);

/* ---- Kleene's logic
 *
 * Each side has values and their validity: an item is null where its validity bit is not set. The calls read `length`
 * items of both sides. `values` and `validity` get the result. Each is exactly (length + 7) / 8 bytes, and with
 * ARROW2_OK both are written. Each bit of `values` is the operator applied to the two value bits, also where the result
 * is null.
 * ARROW2_RANGE: the bits of any of the four inputs (values and validity of both sides) are not inside their bytes. Else
 * ARROW2_LENGTH: `values` or `validity` has the wrong size. */

/* AND: false where either is false, else null where either is null, else true. */
uint32_t arrow2_and_kleene(const uint8_t *lhs, size_t lhs_len, size_t lhs_offset, const uint8_t *lhs_validity,
                           size_t lhs_validity_len, size_t lhs_validity_offset, const uint8_t *rhs, size_t rhs_len,
                           size_t rhs_offset, const uint8_t *rhs_validity, size_t rhs_validity_len,
                           size_t rhs_validity_offset, size_t length, uint8_t *values, size_t values_len,
                           uint8_t *validity, size_t validity_len);

/* OR: true where either is true, else null where either is null, else false. */
uint32_t arrow2_or_kleene(const uint8_t *lhs, size_t lhs_len, size_t lhs_offset, const uint8_t *lhs_validity,
                          size_t lhs_validity_len, size_t lhs_validity_offset, const uint8_t *rhs, size_t rhs_len,
                          size_t rhs_offset, const uint8_t *rhs_validity, size_t rhs_validity_len,
                          size_t rhs_validity_offset, size_t length, uint8_t *values, size_t values_len,
                          uint8_t *validity, size_t validity_len);

/* The same where a side may have no validity. If `lhs_all_valid` is true no item of the left side is null: pointer,
 * number of bytes and offset of `lhs_validity` are not read, and ARROW2_RANGE never comes from them. The rule for
 * slices still holds for the pointer and its number of bytes: pass NULL, 0, 0, or any valid bitmap, which is then
 * ignored. The same holds for the right side. */
uint32_t arrow2_and_kleene_optional(const uint8_t *lhs, size_t lhs_len, size_t lhs_offset, const uint8_t *lhs_validity,
                                    size_t lhs_validity_len, size_t lhs_validity_offset, bool lhs_all_valid,
                                    const uint8_t *rhs, size_t rhs_len, size_t rhs_offset, const uint8_t *rhs_validity,
                                    size_t rhs_validity_len, size_t rhs_validity_offset, bool rhs_all_valid,
                                    size_t length, uint8_t *values, size_t values_len, uint8_t *validity,
                                    size_t validity_len);
uint32_t arrow2_or_kleene_optional(const uint8_t *lhs, size_t lhs_len, size_t lhs_offset, const uint8_t *lhs_validity,
                                   size_t lhs_validity_len, size_t lhs_validity_offset, bool lhs_all_valid,
                                   const uint8_t *rhs, size_t rhs_len, size_t rhs_offset, const uint8_t *rhs_validity,
                                   size_t rhs_validity_len, size_t rhs_validity_offset, bool rhs_all_valid,
                                   size_t length, uint8_t *values, size_t values_len, uint8_t *validity,
                                   size_t validity_len);

/* ---- Booleans, one byte each, 0 or 1 */

/* Writes the booleans as bits to `out`, which has (items_len + 7) / 8 bytes. ARROW2_LENGTH: `out` has the wrong
 * size. */
uint32_t arrow2_pack(const bool *items, size_t items_len, uint8_t *out, size_t out_len);

/* Writes to `out` the `out_len` bits from bit `offset` on, as booleans. ARROW2_RANGE: these bits are not inside the
 * bytes. */
uint32_t arrow2_unpack(const uint8_t *bytes, size_t bytes_len, size_t offset, bool *out, size_t out_len);

/* ---- Runs and indices of set bits */

/* Finds the runs of set bits in a range, the `length` bits from bit `offset` on. Bits of the range are counted from
 * `offset`. The search begins at bit `*at` of the range: set `*at` to 0 before the first call. Run k begins at bit
 * `starts[k]` of the range and has `lengths[k]` bits. If `*at` is inside a run, only the part of that run from `*at` on
 * is reported. The call stops when the slices are full or no run is left. It writes the number of runs to `*count`, and
 * to `*at` the bit at which the next call begins its search. If the slices are full (`*count` is `starts_len`), the new
 * `*at` may be any bit after the last reported run, up to the first bit of the next run (up to `length`, if there is no
 * next run). If `*count < starts_len`, all runs are done, and `*at` equals `length`. The items of `starts` and
 * `lengths` from `*count` on may have been written too. For all runs, call again until `*count` is below `starts_len`,
 * which must be at least 1 for that: with `starts_len` 0 this loop never ends, because `*count` is always 0. A call
 * with `starts_len` 0 may raise `*at`, but never past a set bit. ARROW2_RANGE: the range is not inside the bytes, or
 * `*at` is above `length`. Else ARROW2_LENGTH: `starts_len` is not `lengths_len`. */
uint32_t arrow2_runs(const uint8_t *bytes, size_t bytes_len, size_t offset, size_t length, size_t *at, size_t *starts,
                     size_t starts_len, size_t *lengths, size_t lengths_len, size_t *count);

/* Finds the set bits in a range, the `length` bits from bit `offset` on. Bits of the range are counted from `offset`.
 * The search begins at bit `*at` of the range: set `*at` to 0 before the first call. Bit `indices[k]` of the range is
 * set, and the indices rise. The call stops when `indices` is full or no set bit is left. It writes the number of
 * indices to `*count`, and to `*at` the bit at which the next call begins its search. If `indices` is full, the new
 * `*at` may be any bit after the last index, up to the next set bit (up to `length`, if there is none). If `*count <
 * indices_len`, all set bits are done, and `*at` equals `length`. The items of `indices` from `*count` on may have been
 * written too. For all set bits, call again until `*count` is below `indices_len`, which must be at least 1 for that:
 * with `indices_len` 0 this loop never ends, because `*count` is always 0. A call with `indices_len` 0 may raise `*at`,
 * but never past a set bit. ARROW2_RANGE: the range is not inside the bytes, or `*at` is above `length`. */
uint32_t arrow2_set_indices(const uint8_t *bytes, size_t bytes_len, size_t offset, size_t length, size_t *at,
                            size_t *indices, size_t indices_len, size_t *count);

/* ---- Offsets of 32 and of 64 bits
 *
 * "Offsets" are a list of one or more numbers: none is negative, and none is below the one before it. Slot i spans from
 * offset i to offset i + 1. Each call that takes offsets, except the `_unchecked` ones, tests this first: if the
 * numbers are not offsets, it returns one of the next three codes, whatever other rule is broken. ARROW2_SPEC_EMPTY:
 * there is no number. ARROW2_SPEC_NEGATIVE: the first is negative. ARROW2_SPEC_FALLING: the first is not negative, and
 * some number is below the one before it.
 *
 * The four `_unchecked` calls test no offset. Their numbers must be offsets, so there must be at least one; else the
 * behaviour is undefined, and memory outside `offsets` may be read. They never return one of the three codes above.
 * They return ARROW2_LENGTH and ARROW2_RANGE in the same cases as the calls without `_unchecked`. */

/* Returns ARROW2_OK if the numbers are offsets. */
uint32_t arrow2_offsets32_check(const int32_t *offsets, size_t offsets_len);
uint32_t arrow2_offsets64_check(const int64_t *offsets, size_t offsets_len);

/* Writes the length of each slot. ARROW2_LENGTH: `out_len` is not `offsets_len - 1`. */
uint32_t arrow2_offsets32_lengths(const int32_t *offsets, size_t offsets_len, size_t *out, size_t out_len);
uint32_t arrow2_offsets64_lengths(const int64_t *offsets, size_t offsets_len, size_t *out, size_t out_len);

/* The same without a test of the offsets. The numbers must be offsets: arrow2_offsets32_check or arrow2_offsets64_check
 * must return ARROW2_OK for them. Else the behaviour is undefined. ARROW2_LENGTH as above. */
uint32_t arrow2_offsets32_lengths_unchecked(const int32_t *offsets, size_t offsets_len, size_t *out,
                                            size_t out_len);
uint32_t arrow2_offsets64_lengths_unchecked(const int64_t *offsets, size_t offsets_len, size_t *out,
                                            size_t out_len);

/* out[0] becomes `start`, and out[i + 1] becomes out[i] + lengths[i].
 * ARROW2_LENGTH: `out_len` is not `lengths_len + 1`. Else ARROW2_OVERFLOW: the exact sum of `start` and all lengths
 * is above 2147483647 for 32 bits, or above 9223372036854775807 for 64. */
uint32_t arrow2_offsets32_from_lengths(size_t start, const size_t *lengths, size_t lengths_len, int32_t *out,
                                       size_t out_len);
uint32_t arrow2_offsets64_from_lengths(size_t start, const size_t *lengths, size_t lengths_len, int64_t *out,
                                       size_t out_len);

/* Writes out[i] = offsets[from + i] - offsets[from] for each item of `out`.
 * ARROW2_LENGTH: `out_len` is 0. Else ARROW2_RANGE: from + out_len > offsets_len, computed as if in unlimited
 * integers. */
uint32_t arrow2_offsets32_rebase(const int32_t *offsets, size_t offsets_len, size_t from, int32_t *out,
                                 size_t out_len);
uint32_t arrow2_offsets64_rebase(const int64_t *offsets, size_t offsets_len, size_t from, int64_t *out,
                                 size_t out_len);

/* The same without a test of the offsets. The numbers must be offsets, so there must be at least one; else the
 * behaviour is undefined. ARROW2_LENGTH and ARROW2_RANGE as above. */
uint32_t arrow2_offsets32_rebase_unchecked(const int32_t *offsets, size_t offsets_len, size_t from, int32_t *out,
                                           size_t out_len);
uint32_t arrow2_offsets64_rebase_unchecked(const int64_t *offsets, size_t offsets_len, size_t from, int64_t *out,
                                           size_t out_len);

/* Writes the same numbers in the other width. ARROW2_LENGTH: `out` has another length than `offsets`.
 * Else, for arrow2_offsets_narrow only, ARROW2_OVERFLOW: the last offset is above 2147483647. */
uint32_t arrow2_offsets_widen(const int32_t *offsets, size_t offsets_len, int64_t *out, size_t out_len);
uint32_t arrow2_offsets_narrow(const int64_t *offsets, size_t offsets_len, int32_t *out, size_t out_len);

/* ---- Checks of arrays that somebody else made
 *
 * Each returns ARROW2_OK exactly where its condition holds. Else it returns the code of the first rule that is broken.
 * The rules are tested in the order in which the comment of the call names their codes. If a call returns
 * ARROW2_SPEC_FALLING or ARROW2_PAST, it sets `*index` to a position in `offsets`. If it returns ARROW2_UTF8, it sets
 * `*index` to a slot. If it returns ARROW2_INDEX, it sets `*slot`. If it returns any other code, including ARROW2_OK,
 * it sets neither. */

/* Checks whether the `length` bits from bit `offset` on are inside `bytes`, and exactly `null_count` of them are 0. If
 * `null_count` is -1, it is not checked. The call does not accept a missing validity: NULL, 0 bytes and a length above
 * 0 give ARROW2_RANGE. Without a validity bitmap make no call: `null_count` is right if it is 0 or -1. The exception is
 * an array of the null type (format `n`): it has no validity bitmap, and counts all its items as null. Do not pass its
 * `null_count` to this call: it is right if it is the length of the array or -1.
 * ARROW2_RANGE: the bits are not inside. ARROW2_NULLS: `null_count` is neither -1 nor the number of bits that are 0. */
uint32_t arrow2_validity_check(const uint8_t *bytes, size_t bytes_len, size_t offset, size_t length,
                               int64_t null_count);

/* `bytes` is a number of bytes, `width` the bytes of an item. arrow2_bits_check returns ARROW2_OK if offset + length <=
 * 8 * bytes. arrow2_values_check returns ARROW2_OK if (offset + length) * width <= bytes. Else each returns
 * ARROW2_RANGE. Both conditions are computed as if in unlimited integers, and are tested for length 0 too. Width 0
 * always fits. */
uint32_t arrow2_bits_check(size_t bytes, size_t offset, size_t length);
uint32_t arrow2_values_check(size_t bytes, size_t width, size_t offset, size_t length);

/* Checks whether the numbers are offsets, and none is above `items`. ARROW2_SPEC_EMPTY, ARROW2_SPEC_NEGATIVE,
 * ARROW2_SPEC_FALLING: they are not offsets. ARROW2_PAST: some number is above `items`.
 * `*index` is a position in `offsets`: with ARROW2_SPEC_FALLING the position of the first number that is below the one
 * before it, with ARROW2_PAST the position of the first number above `items`. */
uint32_t arrow2_offsets32_check_inside(const int32_t *offsets, size_t offsets_len, size_t items, size_t *index);
uint32_t arrow2_offsets64_check_inside(const int64_t *offsets, size_t offsets_len, size_t items, size_t *index);

/* Checks whether the numbers are offsets, none is above `values_len`, and the values of each slot, from its offset to
 * the next, are UTF-8. The first two conditions are tested as by arrow2_offsets32_check_inside or
 * arrow2_offsets64_check_inside, with `values_len` as `items`. Then ARROW2_UTF8: a slot is not UTF-8; `*index` is the
 * first such slot. */
uint32_t arrow2_texts32_check(const int32_t *offsets, size_t offsets_len, const uint8_t *values, size_t values_len,
                              size_t *index);
uint32_t arrow2_texts64_check(const int64_t *offsets, size_t offsets_len, const uint8_t *values, size_t values_len,
                              size_t *index);

/* Checks whether the bits of the validity are inside its bytes, and each index that is not null is at least 0 and
 * below `items`. Index k is null if bit `validity_offset` + k of the validity is 0. If `all_valid` is true, no index
 * is null: pointer, number of bytes and offset of the validity are not read, and ARROW2_RANGE never comes from them.
 * The rule for slices still holds for the pointer and its number of bytes: pass NULL, 0, 0, or any valid bitmap, which
 * is then ignored.
 * ARROW2_RANGE: the `indices_len` bits from bit `validity_offset` on are not inside the validity. ARROW2_INDEX: an
 * index that is not null is negative or not below `items`; `*slot` is the position of the first such index, counted
 * from 0. */
uint32_t arrow2_indices_i8_check(const int8_t *indices, size_t indices_len, const uint8_t *validity,
                                 size_t validity_len, size_t validity_offset, bool all_valid, size_t items,
                                 size_t *slot);
uint32_t arrow2_indices_u8_check(const uint8_t *indices, size_t indices_len, const uint8_t *validity,
                                 size_t validity_len, size_t validity_offset, bool all_valid, size_t items,
                                 size_t *slot);
uint32_t arrow2_indices_i16_check(const int16_t *indices, size_t indices_len, const uint8_t *validity,
                                  size_t validity_len, size_t validity_offset, bool all_valid, size_t items,
                                  size_t *slot);
uint32_t arrow2_indices_u16_check(const uint16_t *indices, size_t indices_len, const uint8_t *validity,
                                  size_t validity_len, size_t validity_offset, bool all_valid, size_t items,
                                  size_t *slot);
uint32_t arrow2_indices_i32_check(const int32_t *indices, size_t indices_len, const uint8_t *validity,
                                  size_t validity_len, size_t validity_offset, bool all_valid, size_t items,
                                  size_t *slot);
uint32_t arrow2_indices_u32_check(const uint32_t *indices, size_t indices_len, const uint8_t *validity,
                                  size_t validity_len, size_t validity_offset, bool all_valid, size_t items,
                                  size_t *slot);
uint32_t arrow2_indices_i64_check(const int64_t *indices, size_t indices_len, const uint8_t *validity,
                                  size_t validity_len, size_t validity_offset, bool all_valid, size_t items,
                                  size_t *slot);
uint32_t arrow2_indices_u64_check(const uint64_t *indices, size_t indices_len, const uint8_t *validity,
                                  size_t validity_len, size_t validity_offset, bool all_valid, size_t items,
                                  size_t *slot);

#ifdef __cplusplus
}
#endif

#endif
