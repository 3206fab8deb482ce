/* Calls each function of the library that takes a slice, with a null pointer for each slice of no item, which
 * arrow2_proved.h allows, and those of arrow2_c_data.h over bits with and without bytes. */
#include "arrow2_c_data.h"

#include <stdio.h>

static int failed, passed;

static void expect(const char *call, uint32_t code, uint32_t wanted) {
    passed += code == wanted;
    failed += code != wanted;
    if (code != wanted) {
        printf("FAILED: %s: code %u, and not %u\n", call, (unsigned)code, (unsigned)wanted);
    }
}

#define EXPECT(code, call) expect(#call, call, code)

static void bits(void) {
    size_t zeros = 7, at = 0, count = 7;
    bool flag = false;
    EXPECT(ARROW2_OK, arrow2_count_zeros(NULL, 0, 0, 0, &zeros));
    EXPECT(ARROW2_OK, arrow2_equal_bits(NULL, 0, 0, NULL, 0, 0, 0, &flag));
    EXPECT(ARROW2_RANGE, arrow2_get_bit(NULL, 0, 0, &flag));
    EXPECT(ARROW2_RANGE, arrow2_get_bit_inline(NULL, 0, 0, &flag));
    EXPECT(ARROW2_RANGE, arrow2_set_bit(NULL, 0, 0, true));
    EXPECT(ARROW2_OK, arrow2_copy_bits(NULL, 0, 0, 0, NULL, 0));
    EXPECT(ARROW2_RANGE, arrow2_copy_bits(NULL, 0, 1, 0, NULL, 0));
    EXPECT(ARROW2_OK, arrow2_pack(NULL, 0, NULL, 0));
    EXPECT(ARROW2_OK, arrow2_unpack(NULL, 0, 0, NULL, 0));
    EXPECT(ARROW2_OK, arrow2_runs(NULL, 0, 0, 0, &at, NULL, 0, NULL, 0, &count));
    EXPECT(ARROW2_OK, arrow2_set_indices(NULL, 0, 0, 0, &at, NULL, 0, &count));
    expect("what they wrote", zeros == 0 && flag && at == 0 && count == 0 ? ARROW2_OK : ARROW2_RANGE, ARROW2_OK);
}

/* The call and the code in its place return the same, also past the bytes. */
static void one_bit(void) {
    const uint8_t bytes[] = {0xb6, 0x01, 0x80};
    for (size_t index = 0; index < 40; index++) {
        bool by_call = false, in_place = false;
        EXPECT(arrow2_get_bit(bytes, sizeof bytes, index, &by_call),
               arrow2_get_bit_inline(bytes, sizeof bytes, index, &in_place));
        expect("one bit", by_call == in_place ? ARROW2_OK : ARROW2_RANGE, ARROW2_OK);
    }
}

static void tables(void) {
    EXPECT(ARROW2_OK, arrow2_unary_table(NULL, 0, 0, 0, 1, NULL, 0));
    EXPECT(ARROW2_OK, arrow2_binary_table(NULL, 0, 0, NULL, 0, 0, 0, 8, NULL, 0));
    EXPECT(ARROW2_OK, arrow2_ternary_table(NULL, 0, 0, NULL, 0, 0, NULL, 0, 0, 0, 26, NULL, 0));
    EXPECT(ARROW2_OK, arrow2_quaternary_table(NULL, 0, 0, NULL, 0, 0, NULL, 0, 0, NULL, 0, 0, 0, 77, NULL, 0));
    EXPECT(ARROW2_OK, arrow2_unary_assign_table(NULL, 0, 0, 1));
    EXPECT(ARROW2_OK, arrow2_binary_assign_table(NULL, 0, NULL, 0, 0, 0, 8));
    EXPECT(ARROW2_OK, arrow2_ternary_assign_table(NULL, 0, NULL, 0, 0, NULL, 0, 0, 0, 26));
    EXPECT(ARROW2_OK, arrow2_quaternary_assign_table(NULL, 0, NULL, 0, 0, NULL, 0, 0, NULL, 0, 0, 0, 77));
    EXPECT(ARROW2_OK, arrow2_and_kleene(NULL, 0, 0, NULL, 0, 0, NULL, 0, 0, NULL, 0, 0, 0, NULL, 0, NULL, 0));
    EXPECT(ARROW2_OK, arrow2_or_kleene(NULL, 0, 0, NULL, 0, 0, NULL, 0, 0, NULL, 0, 0, 0, NULL, 0, NULL, 0));
    EXPECT(ARROW2_OK, arrow2_and_kleene_optional(NULL, 0, 0, NULL, 0, 0, true, NULL, 0, 0, NULL, 0, 0, false, 0, NULL,
                                                 0, NULL, 0));
    EXPECT(ARROW2_OK, arrow2_or_kleene_optional(NULL, 0, 0, NULL, 0, 0, false, NULL, 0, 0, NULL, 0, 0, true, 0, NULL,
                                                0, NULL, 0));
}

static void offsets(void) {
    const int32_t narrow[] = {0};
    const int64_t wide[] = {0};
    int32_t narrow_out[1] = {7};
    int64_t wide_out[1] = {7};
    size_t index = 7;
    EXPECT(ARROW2_SPEC_EMPTY, arrow2_offsets32_check(NULL, 0));
    EXPECT(ARROW2_SPEC_EMPTY, arrow2_offsets64_check(NULL, 0));
    EXPECT(ARROW2_OK, arrow2_offsets32_lengths(narrow, 1, NULL, 0));
    EXPECT(ARROW2_OK, arrow2_offsets64_lengths(wide, 1, NULL, 0));
    EXPECT(ARROW2_OK, arrow2_offsets32_lengths_unchecked(narrow, 1, NULL, 0));
    EXPECT(ARROW2_OK, arrow2_offsets64_lengths_unchecked(wide, 1, NULL, 0));
    EXPECT(ARROW2_SPEC_EMPTY, arrow2_offsets32_lengths(NULL, 0, NULL, 0));
    EXPECT(ARROW2_SPEC_EMPTY, arrow2_offsets64_lengths(NULL, 0, NULL, 0));
    EXPECT(ARROW2_OK, arrow2_offsets32_from_lengths(0, NULL, 0, narrow_out, 1));
    EXPECT(ARROW2_OK, arrow2_offsets64_from_lengths(0, NULL, 0, wide_out, 1));
    EXPECT(ARROW2_LENGTH, arrow2_offsets32_from_lengths(0, NULL, 0, NULL, 0));
    EXPECT(ARROW2_LENGTH, arrow2_offsets64_from_lengths(0, NULL, 0, NULL, 0));
    EXPECT(ARROW2_LENGTH, arrow2_offsets32_rebase(narrow, 1, 0, NULL, 0));
    EXPECT(ARROW2_LENGTH, arrow2_offsets64_rebase(wide, 1, 0, NULL, 0));
    EXPECT(ARROW2_LENGTH, arrow2_offsets32_rebase_unchecked(narrow, 1, 0, NULL, 0));
    EXPECT(ARROW2_LENGTH, arrow2_offsets64_rebase_unchecked(wide, 1, 0, NULL, 0));
    EXPECT(ARROW2_SPEC_EMPTY, arrow2_offsets_widen(NULL, 0, NULL, 0));
    EXPECT(ARROW2_SPEC_EMPTY, arrow2_offsets_narrow(NULL, 0, NULL, 0));
    EXPECT(ARROW2_SPEC_EMPTY, arrow2_offsets32_check_inside(NULL, 0, 9, &index));
    EXPECT(ARROW2_SPEC_EMPTY, arrow2_offsets64_check_inside(NULL, 0, 9, &index));
    EXPECT(ARROW2_OK, arrow2_texts32_check(narrow, 1, NULL, 0, &index));
    EXPECT(ARROW2_OK, arrow2_texts64_check(wide, 1, NULL, 0, &index));
    EXPECT(ARROW2_SPEC_EMPTY, arrow2_texts32_check(NULL, 0, NULL, 0, &index));
    EXPECT(ARROW2_SPEC_EMPTY, arrow2_texts64_check(NULL, 0, NULL, 0, &index));
    bool right = narrow_out[0] == 0 && wide_out[0] == 0 && index == 7;
    expect("what they wrote", right ? ARROW2_OK : ARROW2_RANGE, ARROW2_OK);
}

static void checks(void) {
    size_t slot = 7;
    const int8_t one[] = {1};
    EXPECT(ARROW2_OK, arrow2_validity_check(NULL, 0, 0, 0, 0));
    EXPECT(ARROW2_NULLS, arrow2_validity_check(NULL, 0, 0, 0, 1));
    EXPECT(ARROW2_RANGE, arrow2_validity_check(NULL, 0, 0, 1, 0));
    EXPECT(ARROW2_OK, arrow2_indices_i8_check(one, 1, NULL, 0, 0, true, 2, &slot));
    EXPECT(ARROW2_RANGE, arrow2_indices_i8_check(one, 1, NULL, 0, 0, false, 2, &slot));
    EXPECT(ARROW2_OK, arrow2_indices_i8_check(NULL, 0, NULL, 0, 0, false, 0, &slot));
    EXPECT(ARROW2_OK, arrow2_indices_u8_check(NULL, 0, NULL, 0, 0, true, 0, &slot));
    EXPECT(ARROW2_OK, arrow2_indices_i16_check(NULL, 0, NULL, 0, 0, true, 0, &slot));
    EXPECT(ARROW2_OK, arrow2_indices_u16_check(NULL, 0, NULL, 0, 0, true, 0, &slot));
    EXPECT(ARROW2_OK, arrow2_indices_i32_check(NULL, 0, NULL, 0, 0, true, 0, &slot));
    EXPECT(ARROW2_OK, arrow2_indices_u32_check(NULL, 0, NULL, 0, 0, true, 0, &slot));
    EXPECT(ARROW2_OK, arrow2_indices_i64_check(NULL, 0, NULL, 0, 0, true, 0, &slot));
    EXPECT(ARROW2_OK, arrow2_indices_u64_check(NULL, 0, NULL, 0, 0, true, 0, &slot));
    expect("what they wrote", slot == 7 ? ARROW2_OK : ARROW2_RANGE, ARROW2_OK);
}

/* Whether two bytes are these, after a call that returned OK. */
static void expect_bytes(const char *call, uint32_t code, const uint8_t *bytes, uint8_t first, uint8_t second) {
    expect(call, code, ARROW2_OK);
    expect(call, bytes[0] == first && bytes[1] == second ? ARROW2_OK : ARROW2_RANGE, ARROW2_OK);
}

#define EXPECT_BYTES(first, second, call) expect_bytes(#call, call, out, first, second)

static void forms(void) {
    const uint8_t bytes[] = {0x6c, 0x03}, other_bytes[] = {0xc0, 0x0f};
    struct arrow2_bits none = {NULL, 0, 0}, left = {bytes, 2, 1}, right = {other_bytes, 2, 3};
    uint8_t out[2] = {0, 0};
    size_t nulls = 7;
    bool equal = false;
    EXPECT(ARROW2_OK, arrow2_bits_null_count(left, 9, &nulls));
    expect("the nulls", (uint32_t)nulls, 3);
    EXPECT(ARROW2_OK, arrow2_bits_null_count(none, 9, &nulls));
    expect("the nulls of no validity", (uint32_t)nulls, 0);
    EXPECT(ARROW2_OK, arrow2_bits_equal(left, left, 9, &equal));
    expect("equal", equal ? ARROW2_OK : ARROW2_RANGE, ARROW2_OK);
    EXPECT_BYTES(0xb0, 0x01, arrow2_bits_and(left, right, 9, out, 2));
    EXPECT_BYTES(0xfe, 0x01, arrow2_bits_or(left, right, 9, out, 2));
    EXPECT_BYTES(0x4e, 0x00, arrow2_bits_xor(left, right, 9, out, 2));
    EXPECT_BYTES(0x49, 0x00, arrow2_bits_not(left, 9, out, 2));
    EXPECT(ARROW2_OK, arrow2_bits_and(none, none, 0, NULL, 0));
    EXPECT(ARROW2_OK, arrow2_bits_not(none, 0, NULL, 0));
}

/* AND of two validities; each is there or missing. */
static void validities(void) {
    const uint8_t bytes[] = {0x6c, 0x03}, other_bytes[] = {0xc0, 0x0f};
    struct arrow2_bits none = {NULL, 0, 0}, false_count = {NULL, 100, 7};
    struct arrow2_bits left = {bytes, 2, 1}, right = {other_bytes, 2, 3};
    uint8_t out[2] = {0xaa, 0xaa};
    EXPECT(ARROW2_RANGE, arrow2_bits_and_validity(left, right, 16, out, 2));
    EXPECT(ARROW2_RANGE, arrow2_bits_and_validity(left, none, 16, out, 2));
    EXPECT(ARROW2_RANGE, arrow2_bits_and_validity(none, right, 14, NULL, 0));
    EXPECT(ARROW2_LENGTH, arrow2_bits_and_validity(left, right, 9, out, 1));
    EXPECT(ARROW2_LENGTH, arrow2_bits_and_validity(left, none, 9, out, 1));
    EXPECT(ARROW2_LENGTH, arrow2_bits_and_validity(none, right, 9, NULL, 2));
    EXPECT(ARROW2_LENGTH, arrow2_bits_and_validity(none, none, 9, out, 1));
    EXPECT(ARROW2_LENGTH, arrow2_bits_and_validity(none, none, 8, out, 2));
    EXPECT(ARROW2_LENGTH, arrow2_bits_and_validity(none, none, 0, out, 1));
    EXPECT(ARROW2_LENGTH, arrow2_bits_and_validity(none, none, 9, NULL, 2));
    EXPECT(ARROW2_LENGTH, arrow2_bits_and_validity(none, none, SIZE_MAX, out, 0));
    EXPECT_BYTES(0xaa, 0xaa, ARROW2_OK);
    EXPECT_BYTES(0xb0, 0x01, arrow2_bits_and_validity(left, right, 9, out, 2));
    EXPECT_BYTES(0xb6, 0x01, arrow2_bits_and_validity(left, none, 9, out, 2));
    EXPECT_BYTES(0xf8, 0x01, arrow2_bits_and_validity(false_count, right, 9, out, 2));
    EXPECT_BYTES(0xff, 0x01, arrow2_bits_and_validity(none, false_count, 9, out, 2));
    EXPECT_BYTES(0xff, 0xff, arrow2_bits_and_validity(none, none, 16, out, 2));
    EXPECT_BYTES(0x7f, 0xff, arrow2_bits_and_validity(none, none, 7, out, 1));
    EXPECT(ARROW2_OK, arrow2_bits_and_validity(left, right, 0, NULL, 0));
    EXPECT(ARROW2_OK, arrow2_bits_and_validity(left, none, 0, NULL, 5));
    EXPECT(ARROW2_OK, arrow2_bits_and_validity(none, none, 0, NULL, 0));
}

/* Null pointers with a count: the count is not used. */
static void forms_with_counts(void) {
    const uint8_t bytes[] = {0x6c, 0x03};
    struct arrow2_bits none = {NULL, 0, 0}, false_count = {NULL, 100, 0}, some = {bytes, 2, 1};
    uint8_t out[2] = {0xaa, 0xaa}, other[2] = {0xaa, 0xaa};
    bool equal = true;
    EXPECT(ARROW2_RANGE, arrow2_bits_equal(false_count, some, 9, &equal));
    EXPECT(ARROW2_RANGE, arrow2_bits_equal(some, false_count, 9, &equal));
    EXPECT(ARROW2_RANGE, arrow2_bits_table(false_count, some, 9, 9, out, 2));
    EXPECT(ARROW2_RANGE, arrow2_bits_and(some, false_count, 9, out, 2));
    EXPECT(ARROW2_RANGE, arrow2_bits_or(some, false_count, 9, out, 2));
    EXPECT(ARROW2_RANGE, arrow2_bits_xor(false_count, some, 9, out, 2));
    EXPECT(ARROW2_RANGE, arrow2_bits_not(false_count, 9, out, 2));
    EXPECT(ARROW2_RANGE, arrow2_bits_and_kleene(false_count, none, some, some, 9, out, 2, other, 2));
    EXPECT(ARROW2_RANGE, arrow2_bits_or_kleene(some, some, false_count, none, 9, out, 2, other, 2));
    EXPECT(ARROW2_LENGTH, arrow2_bits_and(some, some, 9, NULL, 2));
    EXPECT(ARROW2_LENGTH, arrow2_bits_or(some, some, 9, NULL, 2));
    EXPECT(ARROW2_LENGTH, arrow2_bits_xor(some, some, 9, NULL, 2));
    EXPECT(ARROW2_LENGTH, arrow2_bits_not(some, 9, NULL, 2));
    EXPECT(ARROW2_LENGTH, arrow2_bits_and_kleene(some, some, some, none, 9, NULL, 2, other, 2));
    EXPECT(ARROW2_LENGTH, arrow2_bits_or_kleene(some, some, some, some, 9, out, 2, NULL, 2));
    EXPECT(ARROW2_LENGTH, arrow2_bits_and_kleene(some, some, some, some, 9, out, 1, other, 2));
    EXPECT(ARROW2_LENGTH, arrow2_bits_and_kleene(some, none, some, none, 8, out, 1, other, 2));
    EXPECT(ARROW2_LENGTH, arrow2_bits_or_kleene(some, none, some, some, 9, out, 2, other, 1));
    EXPECT(ARROW2_LENGTH, arrow2_bits_or_kleene(some, some, some, some, 8, out, 2, other, 1));
    EXPECT_BYTES(0xaa, 0xaa, ARROW2_OK);
    expect("what they wrote", equal && other[0] == 0xaa && other[1] == 0xaa ? ARROW2_OK : ARROW2_RANGE, ARROW2_OK);
    EXPECT(ARROW2_OK, arrow2_bits_and_kleene(some, false_count, some, false_count, 9, out, 2, other, 2));
}

static void release_schema(struct ArrowSchema *schema) { schema->release = NULL; }
static void release_array(struct ArrowArray *array) { array->release = NULL; }

/* Whether the bits of a buffer are none. */
static void expect_none(const char *what, struct arrow2_bits bits) {
    expect(what, !bits.bytes && bits.bytes_len == 0 && bits.offset == 0 ? ARROW2_OK : ARROW2_RANGE, ARROW2_OK);
}

/* Buffers that an array does not have, or that are null. */
static void buffers(void) {
    const uint8_t bytes[] = {0x6c};
    const void *some[] = {NULL, bytes}, *no_bytes[] = {NULL, NULL};
    struct ArrowSchema schema = {"n", "", NULL, 0, 0, NULL, NULL, release_schema, NULL};
    struct ArrowArray nulls = {3, -1, 0, 0, 0, NULL, NULL, NULL, release_array, NULL};
    struct ArrowArray three = {3, 0, 2, 2, 0, some, NULL, NULL, release_array, NULL};
    struct ArrowArray empty = {0, 0, 5, 2, 0, no_bytes, NULL, NULL, release_array, NULL};
    struct arrow2_where where;
    uint8_t values[1], validity[1];
    EXPECT(ARROW2_OK, arrow2_array_check(&schema, &nulls, NULL));
    EXPECT(ARROW2_OK, arrow2_array_check_sized(&schema, &nulls, NULL, 5, NULL));
    expect_none("a null array", arrow2_bits_of(&nulls, 0));
    schema.format = "b";
    EXPECT(ARROW2_OK, arrow2_array_check(&schema, &three, NULL));
    EXPECT(ARROW2_C_SIZES, arrow2_array_check_sized(&schema, &three, NULL, 5, &where));
    expect_none("no validity", arrow2_bits_of(&three, 0));
    expect_none("buffer 2 of two", arrow2_bits_of(&three, 2));
    expect_none("buffer -1", arrow2_bits_of(&three, -1));
    struct arrow2_bits of_three = arrow2_bits_of(&three, 1);
    bool right = of_three.bytes == bytes && of_three.bytes_len == 1 && of_three.offset == 2;
    expect("the values", right ? ARROW2_OK : ARROW2_RANGE, ARROW2_OK);
    EXPECT(ARROW2_OK, arrow2_array_check(&schema, &empty, NULL));
    EXPECT(ARROW2_OK, arrow2_bits_and_kleene(arrow2_bits_of(&empty, 1), arrow2_bits_of(&empty, 0),
                                             arrow2_bits_of(&empty, 1), arrow2_bits_of(&empty, 0), 0, values, 0,
                                             validity, 0));
    no_bytes[1] = bytes;
    EXPECT(ARROW2_OK, arrow2_array_check(&schema, &empty, NULL));
    expect_none("values of no items", arrow2_bits_of(&empty, 1));
}

/* Whether bits begin at this bit of these bytes. */
static void expect_bits(const char *what, struct arrow2_bits bits, const uint8_t *bytes, size_t len, size_t offset) {
    bool right = bits.bytes == bytes && bits.bytes_len == len && bits.offset == offset;
    expect(what, right ? ARROW2_OK : ARROW2_RANGE, ARROW2_OK);
}

/* Columns of a batch: both offsets are added, and where there is no buffer or no column there are no bits. */
static void columns(void) {
    const uint8_t valid[] = {0xff}, bytes[] = {0x6c, 0x03};
    const void *some[] = {valid, bytes}, *of_batch[] = {valid};
    struct ArrowSchema boolean = {"b", "", NULL, 0, 0, NULL, NULL, release_schema, NULL}, no_values = boolean;
    no_values.format = "n";
    struct ArrowSchema *fields[] = {&boolean, &no_values};
    struct ArrowSchema schema = {"+s", "", NULL, 0, 2, fields, NULL, release_schema, NULL};
    struct ArrowArray flags = {6, 0, 2, 2, 0, some, NULL, NULL, release_array, NULL};
    struct ArrowArray nulls = {6, 6, 2, 0, 0, NULL, NULL, NULL, release_array, NULL};
    struct ArrowArray *children[] = {&flags, &nulls};
    struct ArrowArray batch = {3, 0, 3, 1, 2, of_batch, children, NULL, release_array, NULL};
    EXPECT(ARROW2_OK, arrow2_array_check(&schema, &batch, NULL));
    expect_bits("a column's validity", arrow2_bits_of_column(&batch, 0, 0), valid, 1, 5);
    expect_bits("a column's values", arrow2_bits_of_column(&batch, 0, 1), bytes, 1, 5);
    expect_bits("the batch's own validity", arrow2_bits_of(&batch, 0), valid, 1, 3);
    expect_none("buffer 2 of two", arrow2_bits_of_column(&batch, 0, 2));
    expect_none("a null column", arrow2_bits_of_column(&batch, 1, 0));
    expect_none("column 2 of two", arrow2_bits_of_column(&batch, 2, 0));
    expect_none("column -1", arrow2_bits_of_column(&batch, -1, 0));
    flags.length = 11;
    some[0] = NULL;
    EXPECT(ARROW2_OK, arrow2_array_check(&schema, &batch, NULL));
    expect_none("a column with no validity", arrow2_bits_of_column(&batch, 0, 0));
    expect_bits("a longer column's values", arrow2_bits_of_column(&batch, 0, 1), bytes, 2, 5);
}

/* All nine pairs of false, true and null, where true stands under a null, with and without their validities. */
static void kleene_forms(void) {
    const uint8_t lefts[] = {0x6c, 0x03}, rights[] = {0xc0, 0x0f}, of_rights[] = {0xf0, 0x03};
    struct arrow2_bits none = {NULL, 0, 0}, left = {lefts, 2, 1}, left_validity = {lefts, 2, 2};
    struct arrow2_bits right = {rights, 2, 3}, right_validity = {of_rights, 2, 4};
    uint8_t values[2], out[2];
    EXPECT_BYTES(0x5f, 0x00, arrow2_bits_and_kleene(left, left_validity, right, right_validity, 9, values, 2, out, 2));
    EXPECT_BYTES(0xbb, 0x00, arrow2_bits_or_kleene(left, left_validity, right, right_validity, 9, values, 2, out, 2));
    EXPECT_BYTES(0xdf, 0x00, arrow2_bits_and_kleene(left, left_validity, right, none, 9, values, 2, out, 2));
    EXPECT_BYTES(0xbf, 0x01, arrow2_bits_or_kleene(left, none, right, right_validity, 9, values, 2, out, 2));
    EXPECT_BYTES(0xff, 0x01, arrow2_bits_and_kleene(left, none, right, none, 9, values, 2, out, 2));
    EXPECT(ARROW2_OK, arrow2_bits_and_kleene(none, none, none, none, 0, NULL, 0, NULL, 5));
    EXPECT(ARROW2_OK, arrow2_bits_or_kleene(none, none, none, none, 0, NULL, 0, NULL, 0));
}

int main(void) {
    bits();
    one_bit();
    tables();
    offsets();
    checks();
    forms();
    validities();
    forms_with_counts();
    buffers();
    columns();
    kleene_forms();
    printf("%d passed, %d failed\n", passed, failed);
    return failed != 0;
}
