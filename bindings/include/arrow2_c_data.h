/* Inline functions on top of the library, which you still link: functions on bits that take fewer arguments, and checks
 * of whole arrays of the Arrow C data interface.
 *
 * The contents of buffers (bits, offsets, texts and indices) are tested by calls of the library, which are proved. The
 * exception is the slots of unions: functions of this header test them. The code that traverses the tree of an array
 * is in this header and written by hand: see docs/BINDINGS.md, which is in the package too.
 *
 * The interface does not state the number of bytes of a buffer. `arrow2_array_check` trusts that each buffer has the
 * bytes that `format`, `length` and `offset` require. It trusts that buffer 2 of binary and utf8 has the bytes up to
 * the last offset, which is `offsets[offset + length]`. `arrow2_array_check_sized` gets the number of bytes of each
 * buffer, trusts that a buffer that is not NULL has that many, and reads nothing outside these bytes. Both functions
 * trust that every other pointer that is not NULL points to what the interface specifies. For some buffers the pointer
 * may have any value, since nothing is read through it: docs/BINDINGS.md lists them.
 *
 * Functions, types and constants whose names begin with `arrow2_c_` or `ARROW2_C_KIND_` are internal: do not use
 * them. */
#ifndef ARROW2_C_DATA_H
#define ARROW2_C_DATA_H

#include "arrow2_proved.h"

#include <stdio.h>
#include <string.h>

#ifdef __cplusplus
extern "C" {
#endif

/* ---- The interface, as its specification declares it */

#ifndef ARROW_C_DATA_INTERFACE
#define ARROW_C_DATA_INTERFACE

#define ARROW_FLAG_DICTIONARY_ORDERED 1
#define ARROW_FLAG_NULLABLE 2
#define ARROW_FLAG_MAP_KEYS_SORTED 4

struct ArrowSchema {
    const char *format;
    const char *name;
    const char *metadata;
    int64_t flags;
    int64_t n_children;
    struct ArrowSchema **children;
    struct ArrowSchema *dictionary;
    void (*release)(struct ArrowSchema *);
    void *private_data;
};

struct ArrowArray {
    int64_t length;
    int64_t null_count;
    int64_t offset;
    int64_t n_buffers;
    int64_t n_children;
    const void **buffers;
    struct ArrowArray **children;
    struct ArrowArray *dictionary;
    void (*release)(struct ArrowArray *);
    void *private_data;
};

#endif

#ifndef ARROW_C_STREAM_INTERFACE
#define ARROW_C_STREAM_INTERFACE

struct ArrowArrayStream {
    int (*get_schema)(struct ArrowArrayStream *, struct ArrowSchema *out);
    int (*get_next)(struct ArrowArrayStream *, struct ArrowArray *out);
    const char *(*get_last_error)(struct ArrowArrayStream *);
    void (*release)(struct ArrowArrayStream *);
    void *private_data;
};

#endif

/* ---- Bits
 *
 * `struct arrow2_bits` has three members: `bytes` points to the bytes, `bytes_len` is the number of bytes, and `offset`
 * is the bit of the bytes at which the bits begin. For a raw bitmap set the members by hand. arrow2_bits_of and
 * arrow2_bits_of_column set them from an array that was checked: one for which a check returned ARROW2_OK, or a child
 * or dictionary of such an array.
 *
 * The rules of arrow2_proved.h hold for these functions too, with two changes: a pointer to bytes may be NULL also if
 * its number of bytes is not 0, and then counts as 0 bytes; and a validity whose `bytes` is NULL means that there is no
 * bitmap. In detail:
 * - Each `arrow2_bits_*` function of this header that returns a code calls one function of the library, and returns its
 *   code. The comment above the inline function names the function of the library. There are two exceptions. Without a
 *   validity arrow2_bits_null_count calls nothing and returns ARROW2_OK. If both validities are missing,
 *   arrow2_bits_and_validity tests the size of `out` itself. With a wrong size the function calls nothing and returns
 *   ARROW2_LENGTH. If size and `length` are both 0, the function calls nothing and returns ARROW2_OK. Else it calls
 *   arrow2_unary_assign_table.
 * - A NULL pointer to bytes counts as 0 bytes, whatever `bytes_len`, `out_len`, `values_len` or `validity_len` is. So a
 *   NULL input gives ARROW2_RANGE, unless its `offset` and the `length` are both 0. A NULL output gives ARROW2_LENGTH,
 *   unless the `length` is 0. ARROW2_RANGE is tested first.
 * - The exception is a validity: there NULL means that there is no validity bitmap, so no item is null. Pass `(struct
 *   arrow2_bits){NULL, 0, 0}`, in C++ `arrow2_bits{nullptr, 0, 0}`. The functions that accept this are
 *   arrow2_bits_null_count, arrow2_bits_and_validity, and for their validity arguments arrow2_bits_and_kleene and
 *   arrow2_bits_or_kleene.
 * - `nulls`, `equal`, `array` and `batch` must not be NULL.
 * - An output must not overlap any other argument, input or output. */

struct arrow2_bits {
    const uint8_t *bytes;
    size_t bytes_len;
    size_t offset;
};

/* Returns the number of items of a slice: 0 if its pointer is NULL, else `count`. */
static inline size_t arrow2_c_count(const void *pointer, size_t count) { return pointer ? count : 0; }

/* Returns (bits + 7) / 8, without overflow: the number of bytes that hold `bits` bits. It is the `out_len` of an output
 * of `bits` bits. */
static inline size_t arrow2_bytes_for(size_t bits) { return bits / 8 + (bits % 8 != 0); }

/* Writes to `*nulls` how many of the `length` items are null by `validity`. Calls arrow2_count_zeros. Without a
 * validity bitmap it makes no call, writes 0 and returns ARROW2_OK. So do not call it for a null array (format `n`),
 * which has no validity bitmap, though each of its items is null. */
static inline uint32_t arrow2_bits_null_count(struct arrow2_bits validity, size_t length, size_t *nulls) {
    if (!validity.bytes) {
        *nulls = 0;
        return ARROW2_OK;
    }
    return arrow2_count_zeros(validity.bytes, validity.bytes_len, validity.offset, length, nulls);
}

/* Writes to `*equal` whether the `length` bits of both are the same. Calls arrow2_equal_bits; `*equal` need not be set
 * before. NULL `bytes` counts as 0 bytes here, not as a missing validity. */
static inline uint32_t arrow2_bits_equal(struct arrow2_bits left, struct arrow2_bits right, size_t length,
                                         bool *equal) {
    bool same = false;
    uint32_t code = arrow2_equal_bits(left.bytes, arrow2_c_count(left.bytes, left.bytes_len), left.offset, right.bytes,
                                      arrow2_c_count(right.bytes, right.bytes_len), right.offset, length, &same);
    if (code == ARROW2_OK) {
        *equal = same;
    }
    return code;
}

/* For each i below `length`, where l is bit i of `left` and r is bit i of `right`, writes bit l + 2 * r of `table` to
 * bit i of `out` (see "Truth tables" in arrow2_proved.h). `out` has arrow2_bytes_for(length) bytes. Calls
 * arrow2_binary_table. NULL `bytes` counts as 0 bytes here, not as a missing validity. */
static inline uint32_t arrow2_bits_table(struct arrow2_bits left, struct arrow2_bits right, size_t length,
                                         uint16_t table, uint8_t *out, size_t out_len) {
    return arrow2_binary_table(left.bytes, arrow2_c_count(left.bytes, left.bytes_len), left.offset, right.bytes,
                               arrow2_c_count(right.bytes, right.bytes_len), right.offset, length, table, out,
                               arrow2_c_count(out, out_len));
}

/* As arrow2_bits_table, with the table of AND. Calls arrow2_binary_table. */
static inline uint32_t arrow2_bits_and(struct arrow2_bits left, struct arrow2_bits right, size_t length, uint8_t *out,
                                       size_t out_len) {
    return arrow2_bits_table(left, right, length, 8, out, out_len);
}

/* As arrow2_bits_table, with the table of OR. Calls arrow2_binary_table. */
static inline uint32_t arrow2_bits_or(struct arrow2_bits left, struct arrow2_bits right, size_t length, uint8_t *out,
                                      size_t out_len) {
    return arrow2_bits_table(left, right, length, 14, out, out_len);
}

/* As arrow2_bits_table, with the table of XOR. Calls arrow2_binary_table. */
static inline uint32_t arrow2_bits_xor(struct arrow2_bits left, struct arrow2_bits right, size_t length, uint8_t *out,
                                       size_t out_len) {
    return arrow2_bits_table(left, right, length, 6, out, out_len);
}

/* Writes NOT of the `length` bits to `out`, which has arrow2_bytes_for(length) bytes. Calls arrow2_unary_table. NULL
 * `bytes` counts as 0 bytes here, not as a missing validity. */
static inline uint32_t arrow2_bits_not(struct arrow2_bits bits, size_t length, uint8_t *out, size_t out_len) {
    return arrow2_unary_table(bits.bytes, arrow2_c_count(bits.bytes, bits.bytes_len), bits.offset, length, 1, out,
                              arrow2_c_count(out, out_len));
}

/* Writes to `out`, for each of `length` items, whether it is valid by both validities. Either validity may be missing;
 * if both are, the first `length` bits become 1. `out` has arrow2_bytes_for(length) bytes, and padding bits become 0.
 * Calls arrow2_binary_table, arrow2_copy_bits or arrow2_unary_assign_table; if both validities are missing and the size
 * of `out` is wrong or 0, it calls nothing.
 * ARROW2_RANGE: a validity was passed, and its bits are not inside its bytes. Else ARROW2_LENGTH: `out` has the
 * wrong size. */
static inline uint32_t arrow2_bits_and_validity(struct arrow2_bits left, struct arrow2_bits right, size_t length,
                                                uint8_t *out, size_t out_len) {
    struct arrow2_bits one = left.bytes ? left : right;
    size_t count = arrow2_c_count(out, out_len);
    if (left.bytes && right.bytes) {
        return arrow2_bits_and(left, right, length, out, count);
    }
    if (one.bytes) {
        return arrow2_copy_bits(one.bytes, one.bytes_len, one.offset, length, out, count);
    }
    if (count != arrow2_bytes_for(length)) {
        return ARROW2_LENGTH;
    }
    if (count == 0) {
        return ARROW2_OK;
    }
    memset(out, 0, count);
    return arrow2_unary_assign_table(out, count, length, 1); /* NOT of zeros */
}

/* Computes Kleene's AND of two boolean columns. Calls arrow2_and_kleene_optional. Either column may have no validity
 * bitmap. `values` and `validity` get the result. Each has arrow2_bytes_for(length) bytes; `values_len` and
 * `validity_len` must both be this number. Both outputs are written, also where neither column has a validity. A NULL
 * output counts as 0 bytes, so it has the wrong size unless `length` is 0.
 * ARROW2_RANGE: the bits of `lhs`, of `rhs` or of a validity that was passed are not inside their bytes. Else
 * ARROW2_LENGTH: `values` or `validity` has the wrong size. */
static inline uint32_t arrow2_bits_and_kleene(struct arrow2_bits lhs, struct arrow2_bits lhs_validity,
                                              struct arrow2_bits rhs, struct arrow2_bits rhs_validity,
                                              size_t length, uint8_t *values, size_t values_len, uint8_t *validity,
                                              size_t validity_len) {
    return arrow2_and_kleene_optional(
        lhs.bytes, arrow2_c_count(lhs.bytes, lhs.bytes_len), lhs.offset, lhs_validity.bytes,
        arrow2_c_count(lhs_validity.bytes, lhs_validity.bytes_len), lhs_validity.offset, !lhs_validity.bytes,
        rhs.bytes, arrow2_c_count(rhs.bytes, rhs.bytes_len), rhs.offset, rhs_validity.bytes,
        arrow2_c_count(rhs_validity.bytes, rhs_validity.bytes_len), rhs_validity.offset, !rhs_validity.bytes,
        length, values, arrow2_c_count(values, values_len), validity, arrow2_c_count(validity, validity_len));
}

/* Computes Kleene's OR of two boolean columns. Calls arrow2_or_kleene_optional. The arguments are those of
 * arrow2_bits_and_kleene. */
static inline uint32_t arrow2_bits_or_kleene(struct arrow2_bits lhs, struct arrow2_bits lhs_validity,
                                             struct arrow2_bits rhs, struct arrow2_bits rhs_validity, size_t length,
                                             uint8_t *values, size_t values_len, uint8_t *validity,
                                             size_t validity_len) {
    return arrow2_or_kleene_optional(
        lhs.bytes, arrow2_c_count(lhs.bytes, lhs.bytes_len), lhs.offset, lhs_validity.bytes,
        arrow2_c_count(lhs_validity.bytes, lhs_validity.bytes_len), lhs_validity.offset, !lhs_validity.bytes,
        rhs.bytes, arrow2_c_count(rhs.bytes, rhs.bytes_len), rhs.offset, rhs_validity.bytes,
        arrow2_c_count(rhs_validity.bytes, rhs_validity.bytes_len), rhs_validity.offset, !rhs_validity.bytes,
        length, values, arrow2_c_count(values, values_len), validity, arrow2_c_count(validity, validity_len));
}

/* Returns the bits of buffer `index` of an array that was checked, from the array's own offset on. Call it only for
 * these two buffers: the validity, which is buffer 0 (formats `n` and unions have none), and the values of a boolean
 * array, which are buffer 1. For any other buffer `bytes_len` is not the number of its bytes, and may be greater.
 *
 * The result has `bytes` NULL, `bytes_len` 0 and `offset` 0 in each of these cases: `index` is negative or not below
 * `n_buffers`; the buffer is NULL; `length` is 0 and `index` is 1 or more. A null array has no buffer, and each of
 * its items is null. So test the format before you take a validity, as `columns.c` of the examples does.
 *
 * Only the array's own offset is applied. The result has no member for the number of bits, which is `array->length`.
 * The first of these bits is bit `result.offset` of `result.bytes`, as in every `struct arrow2_bits`. For a column
 * of a batch call arrow2_bits_of_column. */
static inline struct arrow2_bits arrow2_bits_of(const struct ArrowArray *array, int index) {
    struct arrow2_bits bits = {NULL, 0, 0};
    if (index < 0 || index >= array->n_buffers || !array->buffers[index] || (index > 0 && array->length == 0)) {
        return bits;
    }
    bits.bytes = (const uint8_t *)array->buffers[index];
    bits.bytes_len = arrow2_bytes_for((size_t)array->offset + (size_t)array->length);
    bits.offset = (size_t)array->offset;
    return bits;
}

/* Returns the bits of buffer `index` of column `column` of a batch that was checked, from row 0 of the batch on. A
 * batch is a struct: its row i is item `batch->offset + i` of each column, so the batch's offset is added to the
 * column's own offset. This function also serves for the children of a sparse union. If there is no such column, or
 * arrow2_bits_of returns no bytes, the result has `bytes` NULL, `bytes_len` 0 and `offset` 0. Used as a validity, this
 * result means that no item is null. So test the format first, as for arrow2_bits_of: a null array has no buffer and
 * only nulls, and buffer 0 of a union is its types.
 *
 * `batch->length` bits belong to the batch, even if the column has more. The validity of the struct itself is not
 * applied: arrow2_bits_of(batch, 0) returns it. */
static inline struct arrow2_bits arrow2_bits_of_column(const struct ArrowArray *batch, int64_t column, int index) {
    struct arrow2_bits bits = {NULL, 0, 0};
    if (column < 0 || column >= batch->n_children) {
        return bits;
    }
    bits = arrow2_bits_of(batch->children[column], index);
    bits.offset += bits.bytes ? (size_t)batch->offset : 0;
    return bits;
}

/* ---- Checks of whole arrays */

/* The codes that only the check of an array returns. It returns some codes of arrow2_proved.h too. */
/* A pointer that the array needs is NULL. */
#define ARROW2_C_NULL 32u
/* The schema or the array was released: its member `release` is NULL. */
#define ARROW2_C_RELEASED 33u
/* `length`, `offset`, `n_buffers` or `n_children` of the array is negative, or length + offset is above 2^63 - 1. */
#define ARROW2_C_NEGATIVE 34u
/* The check does not know the format, and rejects the array. */
#define ARROW2_C_FORMAT 35u
/* `n_buffers` is not the number that the format requires. */
#define ARROW2_C_BUFFERS 36u
/* `n_children` of the array or of the schema is not the number that the format requires; or, for a struct,
 * `n_children` of the array differs from that of the schema; or the schema of the child of a map is not that of a
 * struct of two children. */
#define ARROW2_C_CHILDREN 37u
/* A child of a struct, a fixed-size list or a sparse union has fewer items than its parent needs. (For lists and maps
 * the code is ARROW2_PAST, for dense unions ARROW2_C_UNION_OFFSET.) */
#define ARROW2_C_SHORT_CHILD 38u
/* Only one of schema and array has a dictionary, or the format of the indices is not that of an integer. */
#define ARROW2_C_DICTIONARY 39u
/* A slot of a union has a type that the format does not name. */
#define ARROW2_C_TYPE 40u
/* A slot of a dense union points outside its child, or before the item of an earlier slot of the same type. */
#define ARROW2_C_UNION_OFFSET 41u
/* An array is ARROW2_C_MAX_DEPTH levels below the root, or the tree has more arrays than ARROW2_C_MAX_ARRAYS. */
#define ARROW2_C_TOO_LARGE 42u
/* A buffer of 16-, 32- or 64-bit numbers that the check has to read is not aligned. */
#define ARROW2_C_UNALIGNED 43u
/* There are more or fewer sizes than buffers in the tree. Only arrow2_array_check_sized returns this code. */
#define ARROW2_C_SIZES 44u

#define ARROW2_C_MAX_DEPTH 64
#define ARROW2_C_MAX_ARRAYS 1048576
/* Stands for the size of a buffer where the size is not known; no real buffer is this large. */
#define ARROW2_C_MAX_BYTES ((size_t)1 << 56)
/* More bytes than the longest path needs. */
#define ARROW2_C_PATH 1280

/* Where the check failed.
 *
 * `path` leads from the root to the array at fault. With ARROW2_C_SHORT_CHILD it leads to the child. If the schema of a
 * map's child is not that of a struct of two children, it leads to the map. If a child or a dictionary is NULL, was
 * released, has no format, or has a number that ARROW2_C_NEGATIVE rejects, the path leads to this child or dictionary.
 * If there are more sizes than buffers, it leads to the root. The path of the root is empty. A step to a child is
 * `list.0`, `fixed_list.0`, `map.0`, `struct.K` or `union.K`, by the format of the parent; K counts children from 0 on.
 * The step to a dictionary is `dictionary`. A `/` stands between two steps: `struct.3/list.0` is child 0 of a list,
 * which is child 3 of a struct.
 *
 * `slot` is the slot at which this array breaks the rule, with the codes ARROW2_SPEC_NEGATIVE, ARROW2_SPEC_FALLING,
 * ARROW2_PAST, ARROW2_UTF8, ARROW2_INDEX, ARROW2_C_TYPE and ARROW2_C_UNION_OFFSET. With all other codes it is -1. Slots
 * are counted from 0 at `array->offset`. If an offset of a binary, utf8, list or map array breaks a rule, the slot is
 * the one that ends at this offset; for the first offset it is slot 0. In a dense union each slot has its own offset,
 * and `slot` is the slot of the offset that breaks the rule. */
struct arrow2_where {
    char path[ARROW2_C_PATH];
    int64_t slot;
};

enum arrow2_c_kind {
    ARROW2_C_KIND_NULL,
    ARROW2_C_KIND_BOOLEAN,
    ARROW2_C_KIND_FIXED,
    ARROW2_C_KIND_BYTES,
    ARROW2_C_KIND_TEXT,
    ARROW2_C_KIND_LIST,
    ARROW2_C_KIND_FIXED_LIST,
    ARROW2_C_KIND_STRUCT,
    ARROW2_C_KIND_MAP,
    ARROW2_C_KIND_SPARSE_UNION,
    ARROW2_C_KIND_DENSE_UNION
};

/* The layout that a format describes: `size` is, depending on `kind`, the bytes per value, the bytes per offset, or the
 * items per slot; `index` is the format letter of an integer, else 0; `types` is the list of types of a union, else
 * NULL; `children` is the number of children, or -1 for any number. */
struct arrow2_c_layout {
    enum arrow2_c_kind kind;
    size_t size;
    char index;
    const char *types;
    int64_t buffers;
    int64_t children;
};

struct arrow2_c_tree {
    struct arrow2_where *where;
    const size_t *sizes; /* NULL only in a call of arrow2_array_check, which knows no sizes */
    size_t sizes_len;
    size_t next_size;
    size_t arrays;
    int depth;
    const char *kinds[ARROW2_C_MAX_DEPTH];
    int64_t children[ARROW2_C_MAX_DEPTH];
};

/* ---- Formats */

/* Reads a number without a sign, at most 2^31 - 1, and moves `*at` past it. Returns false if there is no such
 * number. */
static inline bool arrow2_c_number(const char **at, size_t *number) {
    const char *digit = *at;
    size_t sum = 0;
    for (; *digit >= '0' && *digit <= '9'; digit++) {
        sum = 10 * sum + (size_t)(*digit - '0');
        if (sum > 2147483647) {
            return false;
        }
    }
    bool some = digit != *at;
    *at = digit;
    *number = sum;
    return some;
}

static inline struct arrow2_c_layout arrow2_c_layout_of(enum arrow2_c_kind kind, size_t size, int64_t buffers,
                                                        int64_t children) {
    struct arrow2_c_layout layout;
    layout.kind = kind;
    layout.size = size;
    layout.index = 0;
    layout.types = NULL;
    layout.buffers = buffers;
    layout.children = children;
    return layout;
}

/* Returns the number of bytes of a decimal, `d:precision,scale` or `d:precision,scale,bits`, or 0 if the format is not
 * one of these two, or has a number that is not allowed. */
static inline size_t arrow2_c_decimal(const char *at) {
    size_t precision, scale, bits = 128;
    if (!arrow2_c_number(&at, &precision) || precision == 0 || *at++ != ',') {
        return 0;
    }
    if (*at == '-') {
        at++;
    }
    if (!arrow2_c_number(&at, &scale)) {
        return 0;
    }
    if (*at == ',') {
        at++;
        if (!arrow2_c_number(&at, &bits)) {
            return 0;
        }
    }
    bool known = bits == 32 || bits == 64 || bits == 128 || bits == 256;
    return *at == 0 && known ? bits / 8 : 0;
}

/* Returns the number of bytes of a value of a date, a time, a timestamp, a duration or an interval, or 0 if the format
 * is none of these. */
static inline size_t arrow2_c_temporal(const char *format) {
    static const struct {
        char format[4];
        size_t size;
    } known[] = {{"tdD", 4}, {"tdm", 8}, {"tts", 4}, {"ttm", 4}, {"ttu", 8}, {"ttn", 8}, {"tDs", 8},
                 {"tDm", 8}, {"tDu", 8}, {"tDn", 8}, {"tiM", 4}, {"tiD", 8}, {"tin", 16}};
    if (format[1] == 's') {
        bool unit = format[2] && strchr("smun", format[2]);
        return unit && format[3] == ':' ? 8 : 0;
    }
    for (size_t i = 0; i < sizeof known / sizeof known[0]; i++) {
        if (strcmp(format, known[i].format) == 0) {
            return known[i].size;
        }
    }
    return 0;
}

/* Returns the number of types of a union, or -1 if the text is not a list of types. Each type is from 0 to 127, and no
 * type occurs twice. */
static inline int64_t arrow2_c_types(const char *at) {
    bool named[128] = {false};
    size_t type;
    int64_t count = 0;
    if (*at == 0) {
        return 0;
    }
    for (;;) {
        if (!arrow2_c_number(&at, &type) || type > 127 || named[type]) {
            return -1;
        }
        named[type] = true;
        count++;
        if (*at == 0) {
            return count;
        }
        if (*at++ != ',') {
            return -1;
        }
    }
}

/* Reads a format that begins with `+`. Returns false if the format is not known. */
static inline bool arrow2_c_nested(const char *format, struct arrow2_c_layout *layout) {
    if (strcmp(format, "+l") == 0 || strcmp(format, "+L") == 0) {
        *layout = arrow2_c_layout_of(ARROW2_C_KIND_LIST, format[1] == 'l' ? 4 : 8, 2, 1);
        return true;
    }
    if (strcmp(format, "+s") == 0) {
        *layout = arrow2_c_layout_of(ARROW2_C_KIND_STRUCT, 0, 1, -1);
        return true;
    }
    if (strcmp(format, "+m") == 0) {
        *layout = arrow2_c_layout_of(ARROW2_C_KIND_MAP, 4, 2, 1);
        return true;
    }
    if (strncmp(format, "+w:", 3) == 0) {
        const char *at = format + 3;
        *layout = arrow2_c_layout_of(ARROW2_C_KIND_FIXED_LIST, 0, 1, 1);
        return arrow2_c_number(&at, &layout->size) && *at == 0;
    }
    if (strncmp(format, "+ud:", 4) == 0 || strncmp(format, "+us:", 4) == 0) {
        bool dense = format[2] == 'd';
        *layout = arrow2_c_layout_of(dense ? ARROW2_C_KIND_DENSE_UNION : ARROW2_C_KIND_SPARSE_UNION, 0, dense ? 2 : 1,
                                     arrow2_c_types(format + 4));
        layout->types = format + 4;
        return layout->children >= 0;
    }
    return false;
}

/* Reads a format of one letter. Returns false if the format is not known. */
static inline bool arrow2_c_letter(char letter, struct arrow2_c_layout *layout) {
    static const char letters[] = "cCsSiIlLefg";
    static const size_t sizes[] = {1, 1, 2, 2, 4, 4, 8, 8, 2, 4, 8};
    const char *found = strchr(letters, letter);
    if (found) {
        *layout = arrow2_c_layout_of(ARROW2_C_KIND_FIXED, sizes[found - letters], 2, 0);
        layout->index = found - letters < 8 ? letter : 0;
        return true;
    }
    switch (letter) {
    case 'n': *layout = arrow2_c_layout_of(ARROW2_C_KIND_NULL, 0, 0, 0); return true;
    case 'b': *layout = arrow2_c_layout_of(ARROW2_C_KIND_BOOLEAN, 0, 2, 0); return true;
    case 'z': *layout = arrow2_c_layout_of(ARROW2_C_KIND_BYTES, 4, 3, 0); return true;
    case 'Z': *layout = arrow2_c_layout_of(ARROW2_C_KIND_BYTES, 8, 3, 0); return true;
    case 'u': *layout = arrow2_c_layout_of(ARROW2_C_KIND_TEXT, 4, 3, 0); return true;
    case 'U': *layout = arrow2_c_layout_of(ARROW2_C_KIND_TEXT, 8, 3, 0); return true;
    default: return false;
    }
}

/* Reads a format. Returns false if the format is not known. */
static inline bool arrow2_c_read_format(const char *format, struct arrow2_c_layout *layout) {
    if (format[0] == 0) {
        return false;
    }
    if (format[1] == 0) {
        return arrow2_c_letter(format[0], layout);
    }
    *layout = arrow2_c_layout_of(ARROW2_C_KIND_FIXED, 0, 2, 0);
    if (strncmp(format, "w:", 2) == 0) {
        const char *at = format + 2;
        return arrow2_c_number(&at, &layout->size) && *at == 0;
    }
    if (strncmp(format, "d:", 2) == 0) {
        layout->size = arrow2_c_decimal(format + 2);
        return layout->size != 0;
    }
    if (format[0] == 't') {
        layout->size = arrow2_c_temporal(format);
        return layout->size != 0;
    }
    return format[0] == '+' && arrow2_c_nested(format, layout);
}

static inline const char *arrow2_c_kind_name(enum arrow2_c_kind kind) {
    static const char *const names[] = {"null", "boolean", "fixed", "bytes", "text", "list",
                                        "fixed_list", "struct", "map", "union", "union"};
    return names[kind];
}

/* ---- Where the check is */

/* If `tree->where` is not NULL, writes there `slot` and the path of the array that the check has reached. Returns
 * `code`. */
static inline uint32_t arrow2_c_reject(const struct arrow2_c_tree *tree, uint32_t code, int64_t slot) {
    if (!tree->where) {
        return code;
    }
    tree->where->slot = slot;
    tree->where->path[0] = 0;
    size_t at = 0;
    for (int i = 0; i < tree->depth; i++) {
        char *rest = tree->where->path + at;
        size_t size = sizeof tree->where->path - at;
        int length = tree->children[i] < 0
                         ? snprintf(rest, size, "%s%s", i ? "/" : "", tree->kinds[i])
                         : snprintf(rest, size, "%s%s.%lld", i ? "/" : "", tree->kinds[i],
                                    (long long)tree->children[i]);
        if (length < 0 || (size_t)length >= size) {
            break;
        }
        at += (size_t)length;
    }
    return code;
}

/* The same if `code` is an error; else only returns `code`. */
static inline uint32_t arrow2_c_unless_ok(const struct arrow2_c_tree *tree, uint32_t code, int64_t slot) {
    return code == ARROW2_OK ? code : arrow2_c_reject(tree, code, slot);
}

/* ---- One array */

/* A buffer, its size, and the array's length and offset, which were tested not to be negative. */
struct arrow2_c_buffer {
    const void *bytes;
    size_t size;
    size_t offset;
    size_t length;
};

/* Checks that schema and array are not NULL and not released, that the format is not NULL, that `length`, `offset`,
 * `n_children` and `n_buffers` of the array are not negative, and that length + offset does not overflow. */
static inline uint32_t arrow2_c_check_head(const struct ArrowSchema *schema, const struct ArrowArray *array) {
    if (!schema || !array) {
        return ARROW2_C_NULL;
    }
    if (!schema->release || !array->release) {
        return ARROW2_C_RELEASED;
    }
    if (!schema->format) {
        return ARROW2_C_NULL;
    }
    if (array->length < 0 || array->offset < 0 || array->n_children < 0 || array->n_buffers < 0 ||
        array->offset > INT64_MAX - array->length) {
        return ARROW2_C_NEGATIVE;
    }
    return ARROW2_OK;
}

/* Moves `tree` to child `index` of an array of kind `kind`, or with -1 to its dictionary, and adds the step to the
 * path. */
static inline void arrow2_c_enter(struct arrow2_c_tree *tree, enum arrow2_c_kind kind, int64_t index) {
    tree->kinds[tree->depth] = index < 0 ? "dictionary" : arrow2_c_kind_name(kind);
    tree->children[tree->depth] = index;
    tree->depth++;
}

/* Checks that there are the buffers and children that the format requires, and at most ARROW2_C_MAX_ARRAYS children;
 * that a size is left for each buffer, where sizes were passed; and that array and schema both have a dictionary or
 * both have none. A dictionary is rejected where the format is not that of an integer. */
static inline uint32_t arrow2_c_check_counts(struct arrow2_c_tree *tree, const struct arrow2_c_layout *layout,
                                             const struct ArrowSchema *schema, const struct ArrowArray *array) {
    int64_t children = layout->children < 0 ? schema->n_children : layout->children;
    if (array->n_buffers != layout->buffers) {
        return ARROW2_C_BUFFERS;
    }
    if (array->n_children != children || schema->n_children != children) {
        return ARROW2_C_CHILDREN;
    }
    if (children > ARROW2_C_MAX_ARRAYS) {
        return ARROW2_C_TOO_LARGE;
    }
    if ((array->n_buffers && !array->buffers) || (children && (!array->children || !schema->children))) {
        return ARROW2_C_NULL;
    }
    if (!array->dictionary != !schema->dictionary || (array->dictionary && !layout->index)) {
        return ARROW2_C_DICTIONARY;
    }
    if (tree->sizes && tree->sizes_len - tree->next_size < (size_t)layout->buffers) {
        return ARROW2_C_SIZES;
    }
    return ARROW2_OK;
}

/* Checks the head of each child and of the dictionary, so that their lengths can be read. If a head is rejected, `tree`
 * is left at that child or dictionary. */
static inline uint32_t arrow2_c_check_heads(struct arrow2_c_tree *tree, enum arrow2_c_kind kind,
                                            const struct ArrowSchema *schema, const struct ArrowArray *array) {
    for (int64_t i = 0; i < array->n_children; i++) {
        uint32_t code = arrow2_c_check_head(schema->children[i], array->children[i]);
        if (code != ARROW2_OK) {
            arrow2_c_enter(tree, kind, i);
            return code;
        }
    }
    if (array->dictionary) {
        uint32_t code = arrow2_c_check_head(schema->dictionary, array->dictionary);
        if (code != ARROW2_OK) {
            arrow2_c_enter(tree, kind, -1);
            return code;
        }
    }
    return ARROW2_OK;
}

/* Buffer `index` of an array whose counts were checked. If no sizes are known, it is taken to have
 * ARROW2_C_MAX_BYTES bytes. */
static inline struct arrow2_c_buffer arrow2_c_buffer_of(const struct arrow2_c_tree *tree,
                                                        const struct ArrowArray *array, int index) {
    struct arrow2_c_buffer buffer;
    buffer.bytes = array->buffers[index];
    buffer.size = tree->sizes ? tree->sizes[tree->next_size + (size_t)index] : ARROW2_C_MAX_BYTES;
    buffer.offset = (size_t)array->offset;
    buffer.length = (size_t)array->length;
    return buffer;
}

/* Tests the pointer of a buffer from which `count` items will be read: whether it is not NULL, and a multiple of
 * `width`. Where any alignment will do, `width` is 1. If `count` or `width` is 0, any pointer will do. */
static inline uint32_t arrow2_c_check_pointer(const void *bytes, size_t count, size_t width) {
    if (count == 0 || width == 0) {
        return ARROW2_OK;
    }
    if (!bytes) {
        return ARROW2_C_NULL;
    }
    return (uintptr_t)bytes % width ? ARROW2_C_UNALIGNED : ARROW2_OK;
}

/* Checks that the validity has a bit for each item, and that `null_count` is -1 or the number of its nulls. Without a
 * bitmap `null_count` must be 0 or -1. */
static inline uint32_t arrow2_c_check_validity(const struct arrow2_c_tree *tree, const struct ArrowArray *array) {
    struct arrow2_c_buffer buffer = arrow2_c_buffer_of(tree, array, 0);
    if (!buffer.bytes) {
        return array->null_count == 0 || array->null_count == -1 ? ARROW2_OK : ARROW2_NULLS;
    }
    uint32_t code = arrow2_bits_check(buffer.size, buffer.offset, buffer.length);
    if (code != ARROW2_OK) {
        return code;
    }
    return arrow2_validity_check((const uint8_t *)buffer.bytes, arrow2_bytes_for(buffer.offset + buffer.length),
                                 buffer.offset, buffer.length, array->null_count);
}

/* Checks that a buffer is long enough for the array's values, and that it is not NULL if values are read from it. A
 * value is one bit where `bits` is true, else `width` bytes. */
static inline uint32_t arrow2_c_check_values(struct arrow2_c_buffer values, bool bits, size_t width) {
    uint32_t code = bits ? arrow2_bits_check(values.size, values.offset, values.length)
                         : arrow2_values_check(values.size, width, values.offset, values.length);
    return code != ARROW2_OK ? code : arrow2_c_check_pointer(values.bytes, values.length, bits ? 1 : width > 0);
}

/* Checks whether the buffer holds valid offsets of `width` bytes each, none above `items`. If an offset is wrong,
 * `*slot` becomes its slot. `*last` becomes the last offset. If the array has no items, no offset is read. */
static inline uint32_t arrow2_c_check_offsets(struct arrow2_c_buffer offsets, size_t width, size_t items, int64_t *slot,
                                              size_t *last) {
    *last = 0;
    if (offsets.length == 0) {
        return ARROW2_OK;
    }
    size_t index = 0, count = offsets.length + 1;
    uint32_t code = arrow2_values_check(offsets.size, width, offsets.offset, count);
    if (code == ARROW2_OK) {
        code = arrow2_c_check_pointer(offsets.bytes, count, width);
    }
    if (code != ARROW2_OK) {
        return code;
    }
    if (width == 4) {
        const int32_t *first = (const int32_t *)offsets.bytes + offsets.offset;
        code = arrow2_offsets32_check_inside(first, count, items, &index);
        *last = code == ARROW2_OK ? (size_t)first[count - 1] : 0;
    } else {
        const int64_t *first = (const int64_t *)offsets.bytes + offsets.offset;
        code = arrow2_offsets64_check_inside(first, count, items, &index);
        *last = code == ARROW2_OK ? (size_t)first[count - 1] : 0;
    }
    if (code != ARROW2_OK) {
        *slot = index ? (int64_t)(index - 1) : 0;
    }
    return code;
}

/* Checks whether the offsets of byte strings or texts are inside their bytes, and texts are UTF-8. */
static inline uint32_t arrow2_c_check_bytes(struct arrow2_c_buffer offsets, struct arrow2_c_buffer values, size_t width,
                                            bool texts, int64_t *slot) {
    size_t last, index = 0;
    uint32_t code = arrow2_c_check_offsets(offsets, width, values.size, slot, &last);
    if (code == ARROW2_OK) {
        code = arrow2_c_check_pointer(values.bytes, last, 1);
    }
    if (code != ARROW2_OK || !texts || last == 0) {
        return code;
    }
    const uint8_t *bytes = (const uint8_t *)values.bytes;
    size_t count = offsets.length + 1;
    code = width == 4
               ? arrow2_texts32_check((const int32_t *)offsets.bytes + offsets.offset, count, bytes, last, &index)
               : arrow2_texts64_check((const int64_t *)offsets.bytes + offsets.offset, count, bytes, last, &index);
    if (code != ARROW2_OK) {
        *slot = (int64_t)index;
    }
    return code;
}

/* Checks whether the indices are aligned, if there are any, and whether those that are not null are inside the
 * dictionary, which has `items` items. `letter` is the format of the indices. */
static inline uint32_t arrow2_c_check_indices(struct arrow2_c_buffer indices, struct arrow2_c_buffer validity,
                                              char letter, size_t width, size_t items, int64_t *slot) {
    size_t first = 0, n = indices.length, o = indices.offset;
    uint32_t code = arrow2_c_check_pointer(indices.bytes, n, width);
    if (code != ARROW2_OK || n == 0) {
        return code;
    }
    const void *bytes = (const uint8_t *)indices.bytes + width * o;
    const uint8_t *valid = (const uint8_t *)validity.bytes;
    bool all = !valid;
    size_t valid_count = arrow2_c_count(valid, arrow2_bytes_for(o + n));
#define ARROW2_C_INDICES(name, type)                                                                                   \
    arrow2_indices_##name##_check((const type *)bytes, n, valid, valid_count, o, all, items, &first)
    switch (letter) {
    case 'c': code = ARROW2_C_INDICES(i8, int8_t); break;
    case 'C': code = ARROW2_C_INDICES(u8, uint8_t); break;
    case 's': code = ARROW2_C_INDICES(i16, int16_t); break;
    case 'S': code = ARROW2_C_INDICES(u16, uint16_t); break;
    case 'i': code = ARROW2_C_INDICES(i32, int32_t); break;
    case 'I': code = ARROW2_C_INDICES(u32, uint32_t); break;
    case 'l': code = ARROW2_C_INDICES(i64, int64_t); break;
    default: code = ARROW2_C_INDICES(u64, uint64_t); break;
    }
#undef ARROW2_C_INDICES
    if (code != ARROW2_OK) {
        *slot = (int64_t)first;
    }
    return code;
}

/* Sets child_of[type] to the child of that type for each type that a union names, and to -1 for all others. */
static inline void arrow2_c_read_types(const char *at, int64_t child_of[128]) {
    size_t type;
    for (int i = 0; i < 128; i++) {
        child_of[i] = -1;
    }
    for (int64_t child = 0; arrow2_c_number(&at, &type); child++) {
        child_of[type] = child;
        if (*at == ',') {
            at++;
        }
    }
}

/* Checks whether the format names each slot's type. For a dense union, which has offsets, also checks whether each
 * offset is inside its child and not below the offset of an earlier slot of the same type. */
static inline uint32_t arrow2_c_check_union(struct arrow2_c_buffer types, const struct arrow2_c_buffer *offsets,
                                            const char *named, const struct ArrowArray *array, int64_t *slot) {
    int64_t child_of[128];
    int32_t least[128] = {0};
    if (types.length == 0) {
        return ARROW2_OK;
    }
    arrow2_c_read_types(named, child_of);
    const int8_t *type = (const int8_t *)types.bytes + types.offset;
    const int32_t *offset = offsets ? (const int32_t *)offsets->bytes + types.offset : NULL;
    for (size_t i = 0; i < types.length; i++) {
        *slot = (int64_t)i;
        if (type[i] < 0 || child_of[type[i]] < 0) {
            return ARROW2_C_TYPE;
        }
        if (offset) {
            if (offset[i] < least[type[i]] || offset[i] >= array->children[child_of[type[i]]]->length) {
                return ARROW2_C_UNION_OFFSET;
            }
            least[type[i]] = offset[i];
        }
    }
    *slot = -1;
    return ARROW2_OK;
}

/* Checks that the types of a union, and its offsets if it is dense, are long enough and are not NULL where they are
 * read. Offsets that are read must also be aligned. Then checks the slots of the union. */
static inline uint32_t arrow2_c_check_union_buffers(const struct arrow2_c_tree *tree, const char *named, bool dense,
                                                    const struct ArrowArray *array, int64_t *slot) {
    struct arrow2_c_buffer types = arrow2_c_buffer_of(tree, array, 0), offsets = types;
    uint32_t code = arrow2_c_check_values(types, false, 1);
    if (code == ARROW2_OK && dense) {
        offsets = arrow2_c_buffer_of(tree, array, 1);
        code = arrow2_c_check_values(offsets, false, 4);
    }
    if (code == ARROW2_OK && dense) {
        code = arrow2_c_check_pointer(offsets.bytes, offsets.length, 4);
    }
    return code != ARROW2_OK ? code : arrow2_c_check_union(types, dense ? &offsets : NULL, named, array, slot);
}

/* Checks whether each child has the items that its parent needs: `of_a_slot` items for each slot, including the slots
 * before the offset. If a child has too few, `tree` is left at that child. */
static inline uint32_t arrow2_c_check_lengths(struct arrow2_c_tree *tree, enum arrow2_c_kind kind, size_t of_a_slot,
                                              const struct ArrowArray *array) {
    for (int64_t i = 0; i < array->n_children; i++) {
        if (arrow2_values_check((size_t)array->children[i]->length, of_a_slot, (size_t)array->offset,
                                (size_t)array->length) != ARROW2_OK) {
            arrow2_c_enter(tree, kind, i);
            return ARROW2_C_SHORT_CHILD;
        }
    }
    return ARROW2_OK;
}

/* Whether the schema of the child of a map is that of a struct of two children. */
static inline bool arrow2_c_is_entries(const struct ArrowSchema *entries) {
    return strcmp(entries->format, "+s") == 0 && entries->n_children == 2;
}

/* Checks whether the values of an array of no children are all there and right. */
static inline uint32_t arrow2_c_check_flat(const struct arrow2_c_tree *tree, const struct arrow2_c_layout *layout,
                                           const struct ArrowArray *array, int64_t *slot) {
    struct arrow2_c_buffer second = arrow2_c_buffer_of(tree, array, 1);
    if (layout->kind == ARROW2_C_KIND_BYTES || layout->kind == ARROW2_C_KIND_TEXT) {
        return arrow2_c_check_bytes(second, arrow2_c_buffer_of(tree, array, 2), layout->size,
                                    layout->kind == ARROW2_C_KIND_TEXT, slot);
    }
    uint32_t code = arrow2_c_check_values(second, layout->kind == ARROW2_C_KIND_BOOLEAN, layout->size);
    if (code != ARROW2_OK || !array->dictionary) {
        return code;
    }
    return arrow2_c_check_indices(second, arrow2_c_buffer_of(tree, array, 0), layout->index, layout->size,
                                  (size_t)array->dictionary->length, slot);
}

/* Checks the buffers of an array (but not its validity), the `null_count` of a null array, and the lengths of the
 * children, as the layout requires. Call this only after the counts of the array and the heads of its children were
 * checked. */
static inline uint32_t arrow2_c_check_content(struct arrow2_c_tree *tree, const struct arrow2_c_layout *layout,
                                              const struct ArrowSchema *schema, const struct ArrowArray *array,
                                              int64_t *slot) {
    size_t last;
    switch (layout->kind) {
    case ARROW2_C_KIND_NULL:
        return array->null_count == -1 || array->null_count == array->length ? ARROW2_OK : ARROW2_NULLS;
    case ARROW2_C_KIND_MAP:
        if (!arrow2_c_is_entries(schema->children[0])) {
            return ARROW2_C_CHILDREN;
        }
        return arrow2_c_check_offsets(arrow2_c_buffer_of(tree, array, 1), layout->size,
                                      (size_t)array->children[0]->length, slot, &last);
    case ARROW2_C_KIND_LIST:
        return arrow2_c_check_offsets(arrow2_c_buffer_of(tree, array, 1), layout->size,
                                      (size_t)array->children[0]->length, slot, &last);
    case ARROW2_C_KIND_STRUCT: return arrow2_c_check_lengths(tree, layout->kind, 1, array);
    case ARROW2_C_KIND_FIXED_LIST: return arrow2_c_check_lengths(tree, layout->kind, layout->size, array);
    case ARROW2_C_KIND_SPARSE_UNION: {
        uint32_t code = arrow2_c_check_union_buffers(tree, layout->types, false, array, slot);
        return code != ARROW2_OK ? code : arrow2_c_check_lengths(tree, layout->kind, 1, array);
    }
    case ARROW2_C_KIND_DENSE_UNION: return arrow2_c_check_union_buffers(tree, layout->types, true, array, slot);
    default: return arrow2_c_check_flat(tree, layout, array, slot);
    }
}

/* Checks the counts and the buffers of an array. Of its children and its dictionary it checks only what
 * arrow2_c_check_head checks. If the array is a map, it also checks that the schema of the child is that of a struct of
 * two children. It uses the lengths of children and dictionary: the children of a struct, a fixed-size list or a sparse
 * union must be long enough, offsets must be inside the child, and indices inside the dictionary. If an array is
 * rejected, `tree` is left at that array. */
static inline uint32_t arrow2_c_check_own(struct arrow2_c_tree *tree, const struct arrow2_c_layout *layout,
                                          const struct ArrowSchema *schema, const struct ArrowArray *array,
                                          int64_t *slot) {
    bool has_validity = layout->buffers > 0 && !layout->types;
    uint32_t code = arrow2_c_check_counts(tree, layout, schema, array);
    if (code == ARROW2_OK) {
        code = arrow2_c_check_heads(tree, layout->kind, schema, array);
    }
    if (code == ARROW2_OK && has_validity) {
        code = arrow2_c_check_validity(tree, array);
    }
    if (code == ARROW2_OK && layout->types && array->null_count != 0 && array->null_count != -1) {
        code = ARROW2_NULLS;
    }
    return code != ARROW2_OK ? code : arrow2_c_check_content(tree, layout, schema, array, slot);
}

/* Checks whether an array, whose head was checked, and all arrays below it are right. */
static inline uint32_t arrow2_c_check_tree(struct arrow2_c_tree *tree, const struct ArrowSchema *schema,
                                           const struct ArrowArray *array) {
    struct arrow2_c_layout layout;
    int64_t slot = -1;
    if (tree->depth >= ARROW2_C_MAX_DEPTH || tree->arrays++ >= ARROW2_C_MAX_ARRAYS) {
        return arrow2_c_reject(tree, ARROW2_C_TOO_LARGE, -1);
    }
    if (!arrow2_c_read_format(schema->format, &layout)) {
        return arrow2_c_reject(tree, ARROW2_C_FORMAT, -1);
    }
    uint32_t code = arrow2_c_check_own(tree, &layout, schema, array, &slot);
    if (code != ARROW2_OK) {
        return arrow2_c_reject(tree, code, slot);
    }
    tree->next_size += tree->sizes ? (size_t)layout.buffers : 0;
    for (int64_t i = 0; i < array->n_children; i++) {
        arrow2_c_enter(tree, layout.kind, i);
        code = arrow2_c_check_tree(tree, schema->children[i], array->children[i]);
        if (code != ARROW2_OK) {
            return code;
        }
        tree->depth--;
    }
    if (array->dictionary) {
        arrow2_c_enter(tree, layout.kind, -1);
        code = arrow2_c_check_tree(tree, schema->dictionary, array->dictionary);
        tree->depth--;
    }
    return code;
}

/* Checks whether a whole tree is right. If `sizes` is not NULL, also checks whether the tree has exactly `sizes_len`
 * buffers. */
static inline uint32_t arrow2_c_check_root(const struct ArrowSchema *schema, const struct ArrowArray *array,
                                           const size_t *sizes, size_t sizes_len, struct arrow2_where *where) {
    struct arrow2_c_tree tree;
    tree.where = where;
    tree.sizes = sizes;
    tree.sizes_len = sizes_len;
    tree.next_size = 0;
    tree.arrays = 0;
    tree.depth = 0;
    uint32_t code = arrow2_c_unless_ok(&tree, arrow2_c_check_head(schema, array), -1);
    if (code == ARROW2_OK) {
        code = arrow2_c_check_tree(&tree, schema, array);
    }
    if (code == ARROW2_OK && sizes && tree.next_size != sizes_len) {
        return arrow2_c_reject(&tree, ARROW2_C_SIZES, -1);
    }
    return code;
}

/* Checks an array against the rules of docs/BINDINGS.md. Returns ARROW2_OK if it follows them, else the code of the
 * first rule that is broken. The page has the order of the rules, what is not tested, and where they are stricter than
 * the Arrow format; for example, the bytes of a null slot of a text must be UTF-8 too.
 *
 * It returns the codes ARROW2_C_* above, but never ARROW2_C_SIZES. It also returns these codes of arrow2_proved.h:
 * ARROW2_RANGE, ARROW2_NULLS, ARROW2_SPEC_NEGATIVE, ARROW2_SPEC_FALLING, ARROW2_PAST, ARROW2_UTF8 and ARROW2_INDEX.
 * ARROW2_RANGE means that a buffer would have to be larger than 2^56 bytes; only arrow2_array_check_sized finds a
 * buffer that is too short. `schema` and `array` may be NULL: the code is then ARROW2_C_NULL. `where` may be NULL.
 *
 * Schema and array stay the caller's, whatever the code is: nothing in them is changed, kept or released. The caller
 * releases both, also after an error: `if (own.release) own.release(&own);` for its own struct `own`, since with
 * ARROW2_C_RELEASED `release` may be NULL.
 *
 * If the code is ARROW2_OK, all offsets and indices that the check read are aligned. Plain values are possibly not
 * aligned: read an int64 column through `int64_t *` only where its pointer is a multiple of 8, else by memcpy.
 *
 * If the code is not ARROW2_OK and `where` is not NULL, `*where` is written; else it stays as it was. Nothing is read
 * past the bytes that format, `length`, `offset` and last offset require. Since the sizes of buffers are not known,
 * 2^56 bytes are taken as the size of each. An array that would need a larger buffer is rejected, with ARROW2_PAST for
 * an offset into binary or utf8 bytes, else with ARROW2_RANGE. */
static inline uint32_t arrow2_array_check(const struct ArrowSchema *schema, const struct ArrowArray *array,
                                          struct arrow2_where *where) {
    return arrow2_c_check_root(schema, array, NULL, 0, where);
}

/* The same check with sizes: `sizes` has the number of bytes of each buffer of the tree. Nothing outside these bytes is
 * read. The order of the sizes is depth first: the sizes of an array's own buffers, then those of its children in
 * order, then those of its dictionary. A NULL buffer takes a size too. The size 0 is always enough for a NULL validity,
 * and, if `length` is 0, for the offsets of binary, utf8, lists and maps and for the bytes of binary and utf8.
 *
 * - Values, and types and offsets of a union, need the bytes of offset + length items, also where `length` is 0 and
 *   where the buffer is NULL. An int32 array of length 0 and offset 5 needs 20 bytes of values: with NULL and the size
 *   0 the code is ARROW2_RANGE, and arrow2_array_check returns ARROW2_OK for the same array.
 * - A validity needs the bytes of offset + length bits. If it is NULL its size is not used.
 * - Offsets of binary, utf8, lists and maps need the bytes of offset + length + 1 offsets. The buffer of the bytes of
 *   binary and utf8 needs the bytes up to the last offset. If `length` is 0 neither size is used.
 *
 * NULL `sizes` counts as an empty list, whatever `sizes_len` is: any tree that has a buffer is rejected, with
 * ARROW2_C_SIZES unless an earlier rule is broken. To check without sizes call arrow2_array_check.
 * ARROW2_C_SIZES: there are more or fewer sizes than buffers. */
static inline uint32_t arrow2_array_check_sized(const struct ArrowSchema *schema, const struct ArrowArray *array,
                                                const size_t *sizes, size_t sizes_len, struct arrow2_where *where) {
    static const size_t none = 0;
    return arrow2_c_check_root(schema, array, sizes ? sizes : &none, arrow2_c_count(sizes, sizes_len), where);
}

/* Returns a static text for a code, never NULL. It is not to be freed. */
static inline const char *arrow2_code_text(uint32_t code) {
    static const char *const of_library[] = {
        "right",
        "an index or a range is out of bounds, or a table number is too large",
        "a slice does not have the required length",
        "a number is above the greatest offset",
        "out of memory",
        "there is no offset",
        "the first offset is negative",
        "an offset falls",
        "the number of nulls is not the declared one",
        "an offset is past its items",
        "a text is not UTF-8",
        "an index is outside its dictionary",
    };
    static const char *const of_tree[] = {
        "a pointer is null",
        "it was released",
        "a number is negative, or length + offset is too large",
        "the format is not known",
        "the number of buffers is not what the format requires",
        "the children are not what the format requires",
        "a child is too short",
        "the dictionary does not fit",
        "a union has a type that its format does not name",
        "an offset of a union is outside its child, or falls",
        "the tree is too large",
        "numbers are not aligned",
        "the number of sizes is not the number of buffers",
    };
    if (code < sizeof of_library / sizeof of_library[0]) {
        return of_library[code];
    }
    if (code >= 32 && code - 32 < sizeof of_tree / sizeof of_tree[0]) {
        return of_tree[code - 32];
    }
    return "no code of this version";
}

#ifdef __cplusplus
}
#endif

#endif
