/* A batch of two boolean columns (one has no validity bitmap), a null array and a union: checks it, counts the nulls of
 * each column, and prints which rows are valid in two columns, and Kleene's AND of the booleans. Releases it.
 * Then checks a batch that was released, and offsets and bytes that belong to no array. */
#include "arrow2_c_data.h"

/* Whether column `k` is a null array: each row is null, and it has no buffer. */
static bool is_null_array(const struct ArrowSchema *schema, int64_t k) {
    return strcmp(schema->children[k]->format, "n") == 0;
}

/* The validity of column `k` of a checked batch. A union has none: its buffer 0 is its types, and no row is null. */
static struct arrow2_bits validity_of_column(const struct ArrowSchema *schema, const struct ArrowArray *batch,
                                             int64_t k) {
    const struct arrow2_bits none = {NULL, 0, 0};
    return strncmp(schema->children[k]->format, "+u", 2) == 0 ? none : arrow2_bits_of_column(batch, k, 0);
}

/* Counts the rows of column `k` of a checked batch that are null. */
static uint32_t nulls_of_column(const struct ArrowSchema *schema, const struct ArrowArray *batch, int64_t k,
                                size_t *nulls) {
    if (is_null_array(schema, k)) {
        *nulls = (size_t)batch->length;
        return ARROW2_OK;
    }
    return arrow2_bits_null_count(validity_of_column(schema, batch, k), (size_t)batch->length, nulls);
}

/* Sets bit i of `both` if row i is valid in columns `j` and `k` of a checked batch, else clears it. `count` is the size
 * of `both`, which must be arrow2_bytes_for(batch->length). */
static uint32_t valid_in_both(const struct ArrowSchema *schema, const struct ArrowArray *batch, int64_t j, int64_t k,
                              uint8_t *both, size_t count) {
    size_t rows = (size_t)batch->length;
    struct arrow2_bits left = validity_of_column(schema, batch, j), right = validity_of_column(schema, batch, k);
    uint32_t code = arrow2_bits_and_validity(left, right, rows, both, count);
    if (code == ARROW2_OK && rows > 0 && (is_null_array(schema, j) || is_null_array(schema, k))) {
        memset(both, 0, count); /* no row is valid in a null array */
    }
    return code;
}

/* Writes Kleene's AND of the first two columns of a checked batch, which are booleans, format `b`. Each output has
 * arrow2_bytes_for(batch->length) bytes. */
static uint32_t and_of_columns(const struct ArrowArray *batch, uint8_t *values, uint8_t *validity) {
    size_t rows = (size_t)batch->length, count = arrow2_bytes_for(rows);
    struct arrow2_bits left = arrow2_bits_of_column(batch, 0, 1), left_validity = arrow2_bits_of_column(batch, 0, 0);
    struct arrow2_bits right = arrow2_bits_of_column(batch, 1, 1), right_validity = arrow2_bits_of_column(batch, 1, 0);
    return arrow2_bits_and_kleene(left, left_validity, right, right_validity, rows, values, count, validity, count);
}

/* Checks texts in a file's buffers. */
static void check_texts(const int32_t *offsets, size_t slots, const uint8_t *bytes, size_t bytes_len) {
    size_t index = 0;
    uint32_t code = arrow2_texts32_check(offsets, slots + 1, bytes, bytes_len, &index);
    if (code == ARROW2_UTF8)
        printf("slot %zu is not UTF-8\n", index);
    else if (code == ARROW2_SPEC_FALLING || code == ARROW2_PAST)
        printf("%s: offsets[%zu]\n", arrow2_code_text(code), index);
    else
        printf("%s\n", arrow2_code_text(code));
}

static void release_schema(struct ArrowSchema *schema) { schema->release = NULL; }
static void release_array(struct ArrowArray *array) { array->release = NULL; }

static struct ArrowSchema field(const char *format, int64_t count, struct ArrowSchema **children) {
    struct ArrowSchema made = {format, "", NULL, ARROW_FLAG_NULLABLE, count, children, NULL, release_schema, NULL};
    return made;
}

/* Prints the nulls of each column of a checked batch of 4 rows, which rows are valid in column 0 and another, and
 * Kleene's AND of columns 0 and 1. */
static uint32_t print_batch(const struct ArrowSchema *schema, const struct ArrowArray *batch) {
    uint8_t both[1], values[1], validity[1];
    for (int64_t k = 0; k < batch->n_children; k++) {
        size_t nulls = 0;
        uint32_t code = nulls_of_column(schema, batch, k, &nulls);
        if (code == ARROW2_OK) {
            code = valid_in_both(schema, batch, 0, k, both, sizeof both);
        }
        if (code != ARROW2_OK) {
            return code;
        }
        printf("column %d: %zu null, valid in it and column 0: ", (int)k, nulls);
        for (int row = 0; row < 4; row++) {
            putchar(both[0] >> row & 1 ? '1' : '0');
        }
        putchar('\n');
    }
    uint32_t code = and_of_columns(batch, values, validity);
    for (int row = 0; code == ARROW2_OK && row < 4; row++) {
        bool known = validity[0] >> row & 1, value = values[0] >> row & 1;
        printf("row %d: AND is %s\n", row, !known ? "null" : value ? "true" : "false");
    }
    return code;
}

/* Checks a batch, prints it, and releases schema and batch. Returns the code of the check, or of the first call that
 * fails. */
static uint32_t check_and_print(struct ArrowSchema schema, struct ArrowArray batch) {
    struct arrow2_where where;
    uint32_t code = arrow2_array_check(&schema, &batch, &where);
    if (code != ARROW2_OK) {
        printf("%s at \"%s\", slot %lld\n", arrow2_code_text(code), where.path, (long long)where.slot);
    } else {
        code = print_batch(&schema, &batch);
    }
    if (batch.release) { /* also after an error; NULL if it was released before */
        batch.release(&batch);
    }
    if (schema.release) {
        schema.release(&schema);
    }
    return code;
}

int main(void) {
    /* Row i is item i + 1 of each column, so bit i + 3 of `paid` and bit i + 1 of `sent`. */
    const uint8_t paid_valid[] = {0x1c}, paid_bits[] = {0x28}, sent_bits[] = {0x16};
    const int8_t types[] = {0, 0, 0, 0, 0};
    const void *of_paid[] = {paid_valid, paid_bits}, *of_sent[] = {NULL, sent_bits}, *of_either[] = {types};
    const void *of_batch[] = {NULL};
    struct ArrowSchema nothing = field("n", 0, NULL), *of_union[] = {&nothing};
    struct ArrowSchema fields[] = {field("b", 0, NULL), field("b", 0, NULL), field("n", 0, NULL),
                                   field("+us:0", 1, of_union)};
    struct ArrowSchema *field_pointers[] = {&fields[0], &fields[1], &fields[2], &fields[3]};
    struct ArrowArray paid = {5, 2, 2, 2, 0, of_paid, NULL, NULL, release_array, NULL};
    struct ArrowArray sent = {5, 0, 0, 2, 0, of_sent, NULL, NULL, release_array, NULL};
    struct ArrowArray notes = {5, 5, 0, 0, 0, NULL, NULL, NULL, release_array, NULL}, none = notes;
    struct ArrowArray *children[] = {&none};
    struct ArrowArray either = {5, 0, 0, 1, 1, of_either, children, NULL, release_array, NULL};
    struct ArrowArray *columns[] = {&paid, &sent, &notes, &either};
    struct ArrowArray batch = {4, 0, 1, 1, 4, of_batch, columns, NULL, release_array, NULL}, released = batch;
    released.release = NULL;
    if (check_and_print(field("+s", 4, field_pointers), batch) != ARROW2_OK ||
        check_and_print(field("+s", 4, field_pointers), released) != ARROW2_C_RELEASED) {
        return 1;
    }
    const int32_t right[] = {0, 1, 3}, falls[] = {0, 3, 2}, past[] = {0, 1, 9}, cuts[] = {0, 2, 3};
    const int32_t negative[] = {-1, 0, 0};
    const uint8_t bytes[] = {'a', 0xc3, 0xa9};
    check_texts(right, 2, bytes, sizeof bytes);
    check_texts(falls, 2, bytes, sizeof bytes);
    check_texts(past, 2, bytes, sizeof bytes);
    check_texts(cuts, 2, bytes, sizeof bytes);
    check_texts(negative, 2, bytes, sizeof bytes);
    return 0;
}
