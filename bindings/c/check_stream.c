/* Checks each batch of a stream of the Arrow C data interface, and prints a table of its columns.
 *
 *   check_stream                 a stream made here: the batches of make_batch
 *   check_stream FILE [ROWS]     a file that GDAL reads, in batches of ROWS rows (with ARROW2_WITH_GDAL)
 */
#include "arrow2_c_data.h"

#include <stdlib.h>

#ifdef ARROW2_WITH_GDAL
#include <cpl_string.h>
#include <gdal.h>
#include <ogr_api.h>
#endif

/* Returns how many of the rows of a checked column are null, by the bits of its buffer 0. */
static size_t nulls_of(const struct ArrowSchema *schema, struct arrow2_bits validity, size_t rows) {
    size_t nulls = 0;
    if (strcmp(schema->format, "n") == 0) {
        return rows;
    }
    if (strncmp(schema->format, "+u", 2) == 0) {
        return 0; /* A union has no validity: its buffer 0 is the types. */
    }
    uint32_t code = arrow2_bits_null_count(validity, rows, &nulls);
    if (code != ARROW2_OK) {
        printf("nulls of a checked column: %s\n", arrow2_code_text(code));
        exit(1);
    }
    return nulls;
}

static void print_column(const struct ArrowSchema *schema, struct arrow2_bits validity, size_t rows) {
    printf("%-12s %-8s %6zu %6zu\n", schema->name ? schema->name : "", schema->format, rows,
           nulls_of(schema, validity, rows));
}

/* Prints the columns of a batch, or the batch itself where it is no struct, or why it is rejected. Returns whether it is
 * right. */
static bool print_batch(const struct ArrowSchema *schema, const struct ArrowArray *batch) {
    struct arrow2_where where;
    uint32_t code = arrow2_array_check(schema, batch, &where);
    if (code != ARROW2_OK) {
        printf("rejected: %s, at \"%s\" slot %lld\n", arrow2_code_text(code), where.path, (long long)where.slot);
        return false;
    }
    printf("%-12s %-8s %6s %6s\n", "column", "format", "rows", "nulls");
    if (strcmp(schema->format, "+s") != 0) {
        print_column(schema, arrow2_bits_of(batch, 0), (size_t)batch->length);
        return true;
    }
    for (int64_t i = 0; i < batch->n_children; i++) {
        print_column(schema->children[i], arrow2_bits_of_column(batch, i, 0), (size_t)batch->length);
    }
    return true;
}

/* Checks a stream to its end, and releases its batches. Returns the number of batches that are not right, or -1. */
static int check_stream(struct ArrowArrayStream *stream) {
    struct ArrowSchema schema;
    struct ArrowArray batch;
    int wrong = 0;
    if (stream->get_schema(stream, &schema) != 0) {
        return -1;
    }
    for (;;) {
        if (stream->get_next(stream, &batch) != 0) {
            wrong = -1;
            break;
        }
        if (!batch.release) {
            break;
        }
        wrong += !print_batch(&schema, &batch);
        batch.release(&batch); /* also after an error */
    }
    if (schema.release) {
        schema.release(&schema);
    }
    return wrong;
}

/* ---- A stream made here: columns of numbers, of texts, and of nulls */

static void release_schema(struct ArrowSchema *schema) { schema->release = NULL; }
static void release_array(struct ArrowArray *array) { array->release = NULL; }
static void release_stream(struct ArrowArrayStream *stream) { stream->release = NULL; }

static struct ArrowSchema field(const char *format, const char *name, int64_t count, struct ArrowSchema **children) {
    struct ArrowSchema made = {format, name, NULL, ARROW_FLAG_NULLABLE, count, children, NULL, release_schema, NULL};
    return made;
}

static int get_schema(struct ArrowArrayStream *stream, struct ArrowSchema *out) {
    static struct ArrowSchema prices, names, notes, *children[] = {&prices, &names, &notes};
    (void)stream;
    prices = field("l", "prices", 0, NULL);
    names = field("u", "names", 0, NULL);
    notes = field("n", "notes", 0, NULL);
    *out = field("+s", "", 3, children);
    return 0;
}

static struct ArrowArray column(int64_t null_count, int64_t n_buffers, const void **buffers) {
    struct ArrowArray made = {3, null_count, 0, n_buffers, 0, buffers, NULL, NULL, release_array, NULL};
    return made;
}

enum { WHOLE, SLICED, NOT_UTF8, NO_BUFFERS, BATCHES };

/* Makes a batch of three rows; one of the last two of them; one with a text that is no UTF-8; one with neither the
 * buffer nor the children of a struct. */
static struct ArrowArray make_batch(int which) {
    static const uint8_t valid[] = {0x05};
    static const int64_t prices[] = {30, 0, 50};
    static const int32_t offsets[] = {0, 1, 3, 5};
    static const void *of_prices[] = {valid, prices}, *of_names[] = {NULL, offsets, NULL}, *of_batch[] = {NULL};
    static struct ArrowArray columns[3], *children[] = {&columns[0], &columns[1], &columns[2]};
    struct ArrowArray batch = {3, 0, 0, 1, 3, of_batch, children, NULL, release_array, NULL};
    of_names[2] = which == NOT_UTF8 ? "ab\xc3\xa9y" : "a\xc3\xa9xy";
    columns[0] = column(-1, 2, of_prices);
    columns[1] = column(0, 3, of_names);
    columns[2] = column(-1, 0, NULL);
    if (which == SLICED) {
        batch.offset = 1;
        batch.length = 2;
    }
    if (which == NO_BUFFERS) {
        batch.n_buffers = 0;
        batch.buffers = NULL;
        batch.children = NULL;
    }
    return batch;
}

static int get_next(struct ArrowArrayStream *stream, struct ArrowArray *out) {
    int *next = (int *)stream->private_data;
    *out = make_batch(*next);
    if (*next == BATCHES) {
        out->release = NULL;
    } else {
        (*next)++;
    }
    return 0;
}

static int check_made_stream(void) {
    int next = 0;
    struct ArrowArrayStream stream = {get_schema, get_next, NULL, release_stream, &next};
    int wrong = check_stream(&stream);
    stream.release(&stream);
    return wrong;
}

#ifdef ARROW2_WITH_GDAL
static int check_file(const char *path, const char *rows) {
    struct ArrowArrayStream stream;
    int wrong = -1;
    GDALAllRegister();
    GDALDatasetH dataset = GDALOpenEx(path, GDAL_OF_VECTOR, NULL, NULL, NULL);
    if (!dataset) {
        return -1;
    }
    char **options = rows ? CSLSetNameValue(NULL, "MAX_FEATURES_IN_BATCH", rows) : NULL;
    if (OGR_L_GetArrowStream(GDALDatasetGetLayer(dataset, 0), &stream, options)) {
        wrong = check_stream(&stream);
        stream.release(&stream);
    }
    CSLDestroy(options);
    GDALClose(dataset);
    return wrong;
}
#endif

int main(int argc, char **argv) {
#ifdef ARROW2_WITH_GDAL
    if (argc > 1) {
        return check_file(argv[1], argc > 2 ? argv[2] : NULL) != 0;
    }
#endif
    (void)argv;
    return argc > 1 || check_made_stream() != 2;
}
