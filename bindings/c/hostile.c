/* Arrays made by hand, right ones and hostile ones, each with the code, the path and the slot that a check must return.
 *
 *   hostile heap     each buffer in memory of its own, so that valgrind sees a read outside it
 *   hostile pages    each buffer ends where a page begins that may not be touched
 *
 * Each right array is also checked with each of its buffers one byte short, each of its nulls miscounted, each of its
 * pointers null, and each of its arrays released. With ARROW2_HOSTILE_LIBRARY there is no `main`, so that another check
 * can be given the same arrays.
 */
#define _DEFAULT_SOURCE
#include "arrow2_c_data.h"

#include <stdlib.h>
#include <sys/mman.h>
#include <unistd.h>

typedef uint32_t (*check_function)(const struct ArrowSchema *, const struct ArrowArray *, const size_t *, size_t,
                                   struct arrow2_where *);

struct tree {
    struct ArrowSchema schema;
    struct ArrowArray array;
    const void *buffers[4];
    size_t sizes[4];
    struct ArrowSchema *child_schemas[8];
    struct ArrowArray *child_arrays[8];
    struct tree *children[8];
    struct tree *dictionary;
    int64_t buffers_count, children_count; /* as they are, whatever the array declares */
};

static check_function check;
static bool in_pages;
static int passed, failed;

/* ---- Building */

static void release_schema(struct ArrowSchema *schema) { schema->release = NULL; }

static void release_array(struct ArrowArray *array) { array->release = NULL; }

static void *placed(const void *bytes, size_t size) {
    if (!in_pages) {
        void *copy = malloc(size ? size : 1);
        return size ? memcpy(copy, bytes, size) : copy;
    }
    size_t page = (size_t)sysconf(_SC_PAGESIZE), whole = (size + page - 1) / page * page;
    char *start = mmap(NULL, whole + page, PROT_READ | PROT_WRITE, MAP_PRIVATE | MAP_ANONYMOUS, -1, 0);
    if (start == MAP_FAILED || mprotect(start + whole, page, PROT_NONE) != 0) {
        perror("mmap");
        exit(2);
    }
    return size ? memcpy(start + whole - size, bytes, size) : start + whole;
}

static struct tree *tree(const char *format, int64_t length, int64_t offset, int64_t nulls) {
    struct tree *made = calloc(1, sizeof *made);
    made->schema.format = format;
    made->schema.name = "";
    made->schema.release = release_schema;
    made->schema.children = made->child_schemas;
    made->array.length = length;
    made->array.offset = offset;
    made->array.null_count = nulls;
    made->array.buffers = made->buffers;
    made->array.children = made->child_arrays;
    made->array.release = release_array;
    return made;
}

static struct tree *add(struct tree *to, const void *bytes, size_t size) {
    to->buffers[to->array.n_buffers] = bytes ? placed(bytes, size) : NULL;
    to->sizes[to->array.n_buffers] = size;
    to->buffers_count = ++to->array.n_buffers;
    return to;
}

static struct tree *adopt(struct tree *to, struct tree *child) {
    int64_t index = to->array.n_children++;
    to->schema.n_children = to->children_count = to->array.n_children;
    to->children[index] = child;
    to->child_schemas[index] = &child->schema;
    to->child_arrays[index] = &child->array;
    return to;
}

static struct tree *look_up(struct tree *indices, struct tree *dictionary) {
    indices->dictionary = dictionary;
    indices->schema.dictionary = &dictionary->schema;
    indices->array.dictionary = &dictionary->array;
    return indices;
}

/* Writes the sizes of a tree's buffers in the order of the check, and returns their number. */
static size_t sizes_of(const struct tree *of, size_t *sizes) {
    size_t count = 0;
    for (int64_t i = 0; i < of->buffers_count; i++) {
        sizes[count++] = of->sizes[i];
    }
    for (int64_t i = 0; i < of->children_count; i++) {
        count += sizes_of(of->children[i], sizes + count);
    }
    return of->dictionary ? count + sizes_of(of->dictionary, sizes + count) : count;
}

/* ---- Expecting */

static void report(const char *name, const char *how, bool right, uint32_t code, const struct arrow2_where *where) {
    passed += right;
    failed += !right;
    if (!right) {
        printf("FAILED: %s, %s: code %u at \"%s\", slot %lld\n", name, how, (unsigned)code, where->path,
               (long long)where->slot);
    }
}

static void expect_at(const char *name, const char *how, struct tree *of, const size_t *sizes, size_t count,
                      uint32_t code, const char *path, int64_t slot) {
    struct arrow2_where where = {"", -1};
    uint32_t given = check(&of->schema, &of->array, sizes, count, &where);
    report(name, how, given == code && strcmp(where.path, path) == 0 && where.slot == slot, given, &where);
}

static void expect_sized(const char *name, struct tree *of, uint32_t code, const char *path, int64_t slot) {
    size_t sizes[256], count = sizes_of(of, sizes);
    expect_at(name, "with sizes", of, sizes, count, code, path, slot);
}

static void expect(const char *name, struct tree *of, uint32_t code, const char *path, int64_t slot) {
    expect_sized(name, of, code, path, slot);
    expect_at(name, "without sizes", of, NULL, 0, code, path, slot);
}

/* Only the code, which is one of two. */
static void expect_one_of(const char *name, const char *how, struct tree *root, bool sized, uint32_t one,
                          uint32_t other) {
    size_t sizes[256], count = sizes_of(root, sizes);
    struct arrow2_where where = {"", -1};
    uint32_t given = check(&root->schema, &root->array, sized ? sizes : NULL, sized ? count : 0, &where);
    report(name, how, given == one || given == other, given, &where);
}

/* ---- Each right array, broken in each way */

static void break_buffers(const char *name, struct tree *root, struct tree *at) {
    for (int64_t i = 0; i < at->array.n_buffers; i++) {
        const void *bytes = at->buffers[i];
        size_t size = at->sizes[i];
        if (size == 0 || !bytes) {
            continue;
        }
        at->buffers[i] = placed(bytes, size - 1);
        at->sizes[i] = size - 1;
        expect_one_of(name, "a byte short", root, true, ARROW2_RANGE, ARROW2_PAST);
        at->buffers[i] = NULL;
        at->sizes[i] = size;
        /* A validity that is not there means that there are no nulls. */
        bool is_validity = i == 0 && at->schema.format[1] != 'u';
        uint32_t code = !is_validity ? ARROW2_C_NULL : at->array.null_count > 0 ? ARROW2_NULLS : ARROW2_OK;
        if (!is_validity || !at->dictionary) {
            expect_one_of(name, "a buffer that is null", root, true, code, code);
            expect_one_of(name, "a buffer that is null", root, false, code, code);
        }
        at->buffers[i] = bytes;
    }
}

static void break_numbers(const char *name, struct tree *root, struct tree *at) {
    struct ArrowArray kept = at->array;
    at->array.n_buffers++;
    expect_one_of(name, "a buffer more", root, false, ARROW2_C_BUFFERS, ARROW2_C_BUFFERS);
    at->array = kept;
    at->array.n_children++;
    expect_one_of(name, "a child more", root, false, ARROW2_C_CHILDREN, ARROW2_C_CHILDREN);
    at->array = kept;
    at->schema.n_children++;
    expect_one_of(name, "a child more in the schema", root, false, ARROW2_C_CHILDREN, ARROW2_C_CHILDREN);
    at->schema.n_children--;
    at->array.null_count = kept.null_count + 1;
    expect_one_of(name, "a null more", root, false, ARROW2_NULLS, ARROW2_NULLS);
    at->array.null_count = -2;
    expect_one_of(name, "-2 nulls", root, false, ARROW2_NULLS, ARROW2_NULLS);
    at->array.null_count = -1;
    expect_one_of(name, "nulls that are not counted", root, false, ARROW2_OK, ARROW2_OK);
    at->array = kept;
    const int64_t numbers[] = {-1, INT64_MIN, INT64_MAX, INT64_MAX - 1, (int64_t)1 << 62};
    for (int i = 0; i < 5; i++) {
        bool negative = numbers[i] < 0;
        bool any = at->schema.format[0] == 'n' && !negative;
        at->array.length = numbers[i];
        size_t sizes[256], count = sizes_of(root, sizes);
        struct arrow2_where where = {"", -1};
        uint32_t given = check(&root->schema, &root->array, sizes, count, &where);
        report(name, "a length near 2^63", any || given != ARROW2_OK, given, &where);
        at->array = kept;
        at->array.offset = numbers[i];
        given = check(&root->schema, &root->array, sizes, count, &where);
        report(name, "an offset near 2^63", any || given != ARROW2_OK, given, &where);
        at->array = kept;
    }
}

static void break_pointers(const char *name, struct tree *root, struct tree *at) {
    struct ArrowArray kept = at->array;
    struct ArrowSchema kept_schema = at->schema;
    at->array.release = NULL;
    expect_one_of(name, "a released array", root, false, ARROW2_C_RELEASED, ARROW2_C_RELEASED);
    at->array = kept;
    at->schema.release = NULL;
    expect_one_of(name, "a released schema", root, false, ARROW2_C_RELEASED, ARROW2_C_RELEASED);
    at->schema = kept_schema;
    at->schema.format = NULL;
    expect_one_of(name, "no format", root, false, ARROW2_C_NULL, ARROW2_C_NULL);
    at->schema.format = "vu";
    expect_one_of(name, "an unknown format", root, false, ARROW2_C_FORMAT, ARROW2_C_CHILDREN);
    at->schema = kept_schema;
    if (kept.n_buffers) {
        at->array.buffers = NULL;
        expect_one_of(name, "no buffers", root, false, ARROW2_C_NULL, ARROW2_C_NULL);
        at->array = kept;
    }
    if (kept.n_children) {
        at->array.children = NULL;
        expect_one_of(name, "no children", root, false, ARROW2_C_NULL, ARROW2_C_NULL);
        at->array = kept;
        at->schema.children = NULL;
        expect_one_of(name, "no children of the schema", root, false, ARROW2_C_NULL, ARROW2_C_NULL);
        at->schema = kept_schema;
    }
    for (int64_t i = 0; i < kept.n_children; i++) {
        at->child_arrays[i] = NULL;
        expect_one_of(name, "a child that is null", root, false, ARROW2_C_NULL, ARROW2_C_NULL);
        at->child_arrays[i] = &at->children[i]->array;
        at->child_schemas[i] = NULL;
        expect_one_of(name, "a child's schema that is null", root, false, ARROW2_C_NULL, ARROW2_C_NULL);
        at->child_schemas[i] = &at->children[i]->schema;
    }
    if (at->dictionary) {
        at->array.dictionary = NULL;
        expect_one_of(name, "no dictionary", root, false, ARROW2_C_DICTIONARY, ARROW2_C_DICTIONARY);
        at->array = kept;
        at->schema.dictionary = NULL;
        expect_one_of(name, "no dictionary of the schema", root, false, ARROW2_C_DICTIONARY, ARROW2_C_DICTIONARY);
        at->schema = kept_schema;
    }
}

static void break_all(const char *name, struct tree *root, struct tree *at) {
    break_buffers(name, root, at);
    break_numbers(name, root, at);
    break_pointers(name, root, at);
    for (int64_t i = 0; i < at->array.n_children; i++) {
        break_all(name, root, at->children[i]);
    }
    if (at->dictionary) {
        break_all(name, root, at->dictionary);
    }
}

static void right(const char *name, struct tree *of) {
    size_t sizes[256], count = sizes_of(of, sizes);
    expect(name, of, ARROW2_OK, "", -1);
    expect_at(name, "a size more", of, sizes, count + 1, ARROW2_C_SIZES, "", -1);
    if (count) {
        expect_one_of(name, "a size less", of, false, ARROW2_OK, ARROW2_OK);
        struct arrow2_where where = {"", -1};
        const size_t *fewer = (const size_t *)placed(sizes, (count - 1) * sizeof *sizes);
        uint32_t code = check(&of->schema, &of->array, fewer, count - 1, &where);
        report(name, "a size less", code == ARROW2_C_SIZES, code, &where);
    }
    break_all(name, of, of);
}

/* ---- Right arrays: three items from item 2 on; the second is null, if items may be null */

static const uint8_t valid[] = {0x15};

static struct tree *flat(const char *format, const void *bytes, size_t size) {
    return add(add(tree(format, 3, 2, 1), valid, 1), bytes, size);
}

static struct tree *texts(const char *format, bool wide, const char *bytes, size_t size) {
    const int32_t narrow_offsets[] = {0, 0, 1, 3, 3, 5};
    const int64_t wide_offsets[] = {0, 0, 1, 3, 3, 5};
    struct tree *made = add(tree(format, 3, 2, 1), valid, 1);
    add(made, wide ? (const void *)wide_offsets : narrow_offsets, wide ? sizeof wide_offsets : sizeof narrow_offsets);
    return add(made, bytes, size);
}

static struct tree *items(int64_t length) {
    const uint8_t zeros[16] = {0};
    return add(add(tree("C", length, 0, 0), NULL, 0), zeros, (size_t)length);
}

static struct tree *dictionary(const char *format, size_t width, int64_t null_index) {
    unsigned char bytes[40] = {0};
    const int64_t numbers[] = {99, 99, 1, null_index, 2};
    for (size_t i = 0; i < 5; i++) {
        memcpy(bytes + i * width, numbers + i, width);
    }
    return look_up(flat(format, bytes, 5 * width), texts("u", false, "a\xc3\xa9xy", 5));
}

static void right_flat_arrays(void) {
    static const struct {
        const char *format;
        size_t width;
    } fixed[] = {{"c", 1}, {"C", 1}, {"s", 2}, {"S", 2}, {"i", 4}, {"I", 4}, {"l", 8}, {"L", 8}, {"e", 2},
                 {"f", 4}, {"g", 8}, {"w:3", 3}, {"w:0", 0}, {"d:9,2", 16}, {"d:76,-3,256", 32}, {"d:9,2,64", 8},
                 {"d:1,0,32", 4}, {"d:5,5,128", 16}, {"tdD", 4}, {"tdm", 8}, {"tts", 4}, {"ttm", 4}, {"ttu", 8},
                 {"ttn", 8}, {"tss:", 8}, {"tsm:UTC", 8}, {"tsu:+01:00", 8}, {"tsn:", 8}, {"tDs", 8}, {"tDm", 8},
                 {"tDu", 8}, {"tDn", 8}, {"tiM", 4}, {"tiD", 8}, {"tin", 16}};
    const uint8_t zeros[160] = {0};
    for (size_t i = 0; i < sizeof fixed / sizeof fixed[0]; i++) {
        right(fixed[i].format, flat(fixed[i].format, zeros, 5 * fixed[i].width));
    }
    right("n", tree("n", 3, 2, 3));
    right("b", flat("b", zeros, 1));
    right("b over two bytes", add(add(tree("b", 3, 6, 1), "\x40\x01", 2), zeros, 2));
    right("z", texts("z", false, "\xff\xff\xff\xff\xff", 5));
    right("Z", texts("Z", true, "\xff\xff\xff\xff\xff", 5));
    right("u", texts("u", false, "a\xc3\xa9xy", 5));
    right("U", texts("U", true, "a\xc3\xa9xy", 5));
}

static void right_nested_arrays(void) {
    const int32_t narrow[] = {0, 0, 1, 3, 3, 5};
    const int64_t wide[] = {0, 0, 1, 3, 3, 5};
    const int8_t types[] = {9, 9, 5, 7, 5};
    const int32_t places[] = {-1, 99, 0, 0, 1};
    right("+l", adopt(flat("+l", narrow, sizeof narrow), items(5)));
    right("+L", adopt(flat("+L", wide, sizeof wide), items(5)));
    right("+w:3", adopt(add(tree("+w:3", 3, 2, 1), valid, 1), items(15)));
    right("+s", adopt(adopt(add(tree("+s", 3, 2, 1), valid, 1), items(5)), items(6)));
    right("+s of texts", adopt(adopt(add(tree("+s", 3, 0, 0), NULL, 0), items(3)),
                               texts("u", false, "a\xc3\xa9xy", 5)));
    right("+m", adopt(flat("+m", narrow, sizeof narrow),
                      adopt(adopt(add(tree("+s", 5, 0, 0), NULL, 0), items(5)), items(5))));
    const char *sparse = (const char *)placed("+us:5,7", 8), *dense = (const char *)placed("+ud:7,5", 8);
    right("+us:5,7", adopt(adopt(add(tree(sparse, 3, 2, 0), types, 5), items(5)), items(5)));
    expect("+us:", add(tree("+us:", 0, 0, 0), NULL, 0), ARROW2_OK, "", -1);
    right("+ud:7,5", adopt(adopt(add(add(tree(dense, 3, 2, 0), types, 5), places, sizeof places), items(1)),
                           items(2)));
    right("dictionary", adopt(add(tree("+s", 3, 0, 0), NULL, 0), dictionary("s", 2, -7)));
}

static void right_dictionaries(void) {
    static const char *const formats[] = {"c", "C", "s", "S", "i", "I", "l", "L"};
    for (size_t i = 0; i < 8; i++) {
        right(formats[i], dictionary(formats[i], (size_t)1 << (i / 2), i % 2 ? 99 : -99));
    }
}

/* ---- Hostile arrays */

static struct tree *list_of(const int32_t *offsets, int64_t length, int64_t items_len) {
    struct tree *made = add(add(tree("+l", length, 0, 0), NULL, 0), offsets, 4 * (size_t)(length + 1));
    return adopt(made, items(items_len));
}

static void hostile_offsets(void) {
    const int32_t falling[] = {0, 3, 1, 5}, negative[] = {-1, 0, 1, 1}, past[] = {0, 1, 9, 9}, later[] = {0, 2, -1, 5};
    expect("offsets that fall", list_of(falling, 3, 5), ARROW2_SPEC_FALLING, "", 1);
    expect("an offset that is negative", list_of(negative, 3, 5), ARROW2_SPEC_NEGATIVE, "", 0);
    expect("a negative offset behind others", list_of(later, 3, 5), ARROW2_SPEC_FALLING, "", 1);
    expect("offsets past the items", list_of(past, 3, 5), ARROW2_PAST, "", 1);
    struct tree *text = add(add(tree("u", 3, 0, 0), NULL, 0), past, sizeof past);
    expect_sized("offsets past the bytes", add(text, "abcde", 5), ARROW2_PAST, "", 1);
    const int64_t great[] = {0, INT64_MAX - 1, INT64_MAX};
    struct tree *bytes = add(add(tree("Z", 2, 0, 0), NULL, 0), great, sizeof great);
    expect("offsets near 2^63", add(bytes, "abcde", 5), ARROW2_PAST, "", 0);
    expect("no offsets for no items", add(add(add(tree("u", 0, 0, 0), NULL, 0), NULL, 0), NULL, 0), ARROW2_OK, "", -1);
    struct tree *slack = add(add(tree("u", 3, 0, 0), NULL, 0), falling, sizeof falling);
    expect("an array in a struct in a struct",
           adopt(add(tree("+s", 3, 0, 0), NULL, 0),
                 adopt(adopt(add(tree("+s", 3, 0, 0), NULL, 0), items(3)), add(slack, "abcde", 5))),
           ARROW2_SPEC_FALLING, "struct.0/struct.1", 1);
}

/* Arrays of no item: of their offsets, indices and places nothing is read, wherever the pointer leads. */
static void hostile_empties(void) {
    static const char *const with_offsets[] = {"z", "Z", "u", "U", "+l", "+L"};
    const void *const odd = (const void *)1;
    const int64_t wrong[] = {-1, -1, -1};
    for (size_t i = 0; i < sizeof with_offsets / sizeof with_offsets[0]; i++) {
        for (int64_t offset = 0; offset < 3; offset += 2) {
            for (int which = 0; which < 3; which++) {
                struct tree *made = add(tree(with_offsets[i], 0, offset, 0), NULL, 0);
                add(made, wrong, which == 0 ? sizeof wrong : 0);
                made->buffers[1] = which == 2 ? odd : made->buffers[1];
                expect("no item, and offsets that are not read", i < 4 ? add(made, NULL, 0) : adopt(made, items(0)),
                       ARROW2_OK, "", -1);
            }
        }
    }
    const char *const indices[] = {"c", "S", "i", "L"};
    for (size_t i = 0; i < sizeof indices / sizeof indices[0]; i++) {
        struct tree *made = dictionary(indices[i], (size_t)1 << i, 0);
        made->array.length = made->array.offset = made->array.null_count = 0;
        made->buffers[1] = odd;
        made->sizes[1] = 0;
        expect("no item, and indices that are not read", made, ARROW2_OK, "", -1);
    }
    struct tree *behind = add(add(tree("i", 0, 5, 0), NULL, 0), NULL, 0);
    expect_sized("no item behind five, and no buffer", behind, ARROW2_RANGE, "", -1);
    expect_at("no item behind five, and no buffer", "without sizes", behind, NULL, 0, ARROW2_OK, "", -1);
    struct tree *either = adopt(add(add(tree("+ud:0", 0, 0, 0), "", 0), "", 0), items(1));
    either->buffers[0] = either->buffers[1] = odd;
    expect("no item, and a union that is not read", either, ARROW2_OK, "", -1);
}

/* Sixteen zeros that begin at no multiple of four. */
static const void *unaligned_zeros(void) {
    const uint8_t zeros[17] = {0};
    const uint8_t *at = (const uint8_t *)placed(zeros, sizeof zeros);
    return (uintptr_t)at % 4 ? at : at + 1;
}

static void hostile_alignments(void) {
    const int32_t zeros[4] = {0};
    struct tree *text = add(add(add(tree("u", 3, 0, 0), NULL, 0), zeros, sizeof zeros), "abcde", 5);
    text->buffers[1] = unaligned_zeros();
    expect("offsets that are not aligned", text, ARROW2_C_UNALIGNED, "", -1);
    struct tree *indices = dictionary("i", 4, 0);
    indices->array.offset = 0;
    indices->array.null_count = -1;
    indices->buffers[1] = unaligned_zeros();
    indices->sizes[1] = 16;
    expect("indices that are not aligned", indices, ARROW2_C_UNALIGNED, "", -1);
    struct tree *either = add(add(tree("+ud:0", 4, 0, 0), zeros, 4), zeros, sizeof zeros);
    either->buffers[1] = unaligned_zeros();
    expect("a union whose offsets are not aligned", adopt(either, items(1)), ARROW2_C_UNALIGNED, "", -1);
    struct tree *numbers = add(add(tree("i", 4, 0, 0), NULL, 0), zeros, sizeof zeros);
    numbers->buffers[1] = unaligned_zeros();
    expect("numbers that nobody reads", numbers, ARROW2_OK, "", -1);
}

static void hostile_texts(void) {
    const int32_t inside[] = {0, 1, 2, 3, 5}, whole[] = {0, 1, 3, 5, 5};
    const char *const formats[] = {"u", "z"};
    for (int i = 0; i < 2; i++) {
        uint32_t code = i == 0 ? ARROW2_UTF8 : ARROW2_OK;
        struct tree *cut = add(add(tree(formats[i], 4, 0, 0), NULL, 0), inside, sizeof inside);
        expect("a character over two slots", add(cut, "a\xc3\xa9xy", 5), code, "", i == 0 ? 1 : -1);
        struct tree *end = add(add(tree(formats[i], 4, 0, 0), NULL, 0), whole, sizeof whole);
        expect("a character that is cut at the end", add(end, "abcx\xc3", 5), code, "", i == 0 ? 2 : -1);
    }
    struct tree *last = add(add(tree("u", 3, 0, 0), NULL, 0), whole, sizeof whole);
    expect("a last text that is cut", add(last, "abcx\xc3", 5), ARROW2_UTF8, "", 2);
    struct tree *null = add(add(tree("u", 4, 0, 1), "\x0b", 1), whole, sizeof whole);
    expect("a null that is not UTF-8", add(null, "abcx\xff", 5), ARROW2_UTF8, "", 2);
    struct tree *sliced = add(add(tree("u", 2, 2, 0), NULL, 0), whole, sizeof whole);
    expect("what a slice does not show", add(sliced, "\xff\xff\xff" "xy", 5), ARROW2_OK, "", -1);
}

static void hostile_indices(void) {
    struct tree *low = dictionary("i", 4, 0), *high = dictionary("i", 4, 0);
    const int32_t negative[] = {0, 0, 1, 0, -1}, past[] = {0, 0, 3, 0, 1};
    low->buffers[1] = placed(negative, sizeof negative);
    high->buffers[1] = placed(past, sizeof past);
    expect("a negative index", low, ARROW2_INDEX, "", 2);
    expect("an index past its dictionary", adopt(add(tree("+s", 3, 0, 0), NULL, 0), high), ARROW2_INDEX, "struct.0", 0);
    struct tree *all = dictionary("L", 8, -1);
    all->buffers[0] = NULL;
    all->sizes[0] = 0;
    all->array.null_count = 0;
    expect("an index under no null", all, ARROW2_INDEX, "", 1);
    struct tree *broken = dictionary("c", 1, 0);
    ((int32_t *)broken->dictionary->buffers[1])[5] = 1;
    expect("a dictionary whose offsets fall", broken, ARROW2_SPEC_FALLING, "dictionary", 2);
    struct tree *floats = dictionary("i", 4, 0);
    floats->schema.format = "f";
    expect("indices that are no whole numbers", floats, ARROW2_C_DICTIONARY, "", -1);
}

static void hostile_children(void) {
    struct tree *apart = adopt(adopt(add(tree("+s", 3, 2, 0), NULL, 0), items(5)), items(4));
    expect("a child that is too short", apart, ARROW2_C_SHORT_CHILD, "struct.1", -1);
    struct tree *lists = adopt(add(tree("+w:3", 3, 2, 0), NULL, 0), items(14));
    expect("too few items for fixed lists", lists, ARROW2_C_SHORT_CHILD, "fixed_list.0", -1);
    struct tree *many = adopt(add(tree("+w:2147483647", INT64_MAX, 0, 0), NULL, 0), items(14));
    expect("2^94 items of fixed lists", many, ARROW2_C_SHORT_CHILD, "fixed_list.0", -1);
    const int32_t none[] = {0, 0};
    struct tree *map = adopt(add(add(tree("+m", 1, 0, 0), NULL, 0), none, sizeof none), items(3));
    expect("a map of no entries", map, ARROW2_C_CHILDREN, "", -1);
    struct tree *bytes = items(3);
    bytes->array.length = ((int64_t)1 << 56) + 1;
    expect("2^56 bytes and one", bytes, ARROW2_RANGE, "", -1);
    struct tree *more = adopt(add(tree("+s", 3, 0, 0), NULL, 0), items(3));
    more->array.n_children = more->schema.n_children = INT64_MAX;
    expect_at("2^63 children", "without sizes", more, NULL, 0, ARROW2_C_TOO_LARGE, "", -1);
}

static struct tree *union_of(const char *format, const int8_t *types, const int32_t *places, int64_t length) {
    struct tree *made = add(tree(format, length, 0, 0), types, (size_t)length);
    if (places) {
        add(made, places, 4 * (size_t)length);
    }
    return adopt(adopt(made, items(2)), items(2));
}

static void hostile_unions(void) {
    const int8_t named[] = {0, 1, 0}, unknown[] = {0, 1, 2}, negative[] = {0, 1, -1};
    const int32_t inside[] = {0, 0, 1}, past[] = {0, 0, 2}, below[] = {-1, 0, 0}, back[] = {1, 0, 0};
    expect("a type that is not named", union_of("+ud:0,1", unknown, inside, 3), ARROW2_C_TYPE, "", 2);
    expect("a negative type", union_of("+us:0,1", negative, NULL, 2), ARROW2_OK, "", -1);
    expect("a negative type that counts", union_of("+ud:0,1", negative, inside, 3), ARROW2_C_TYPE, "", 2);
    expect("a union past its child", union_of("+ud:0,1", named, past, 3), ARROW2_C_UNION_OFFSET, "", 2);
    expect("a union in front of its child", union_of("+ud:0,1", named, below, 3), ARROW2_C_UNION_OFFSET, "", 0);
    expect("a union that goes back", union_of("+ud:0,1", named, back, 3), ARROW2_C_UNION_OFFSET, "", 2);
    expect("a sparse union of short children", union_of("+us:0,1", named, NULL, 3), ARROW2_C_SHORT_CHILD, "union.0",
           -1);
    expect("types that are none", union_of("+us:0,0", named, NULL, 2), ARROW2_C_FORMAT, "", -1);
    expect("a type past 127", union_of("+us:0,128", named, NULL, 2), ARROW2_C_FORMAT, "", -1);
}

static void hostile_formats(void) {
    static const char *const unknown[] = {
        "", "q", "vz", "vu", "+vl", "+r", "+x", "+", "++", "w:", "w:-1", "w:2147483648", "w:99999999999999999999",
        "w:3x", "d:", "d:9", "d:0,0", "d:9,2,", "d:9,2,127", "d:9,2,64 ", "t", "td", "tdx", "tdDD", "ts", "tss", "tsx:",
        "ts:", "ti",
        "ttsx", "+w", "+w:", "+w:x", "+w:-3", "+ud", "+ud:0,", "+ud:,0", "+us:0 1", "+us:-1", "uu", "ll", "+ll", "+sx"};
    for (size_t i = 0; i < sizeof unknown / sizeof unknown[0]; i++) {
        const char *format = (const char *)placed(unknown[i], strlen(unknown[i]) + 1);
        expect(unknown[i], tree(format, 0, 0, 0), ARROW2_C_FORMAT, "", -1);
    }
}

/* Lists in lists; the innermost one has no items. */
static struct tree *nested(int depth) {
    const int32_t none[] = {0};
    struct tree *made = items(0);
    for (int i = 0; i < depth; i++) {
        struct tree *list = add(add(tree("+l", 0, 0, 0), NULL, 0), none, sizeof none);
        made = adopt(list, made);
    }
    return made;
}

static void expect_too_large(const char *name, struct tree *of) {
    struct arrow2_where where = {"", -1};
    uint32_t code = check(&of->schema, &of->array, NULL, 0, &where);
    report(name, "without sizes", code == ARROW2_C_TOO_LARGE, code, &where);
}

/* A number of a format that is not known, in the greatest number of lists that is allowed. */
static void hostile_paths(void) {
    char path[ARROW2_C_PATH] = "";
    struct tree *made = tree("q", 0, 0, 0);
    for (int i = 0; i < ARROW2_C_MAX_DEPTH - 1; i++) {
        made = adopt(add(tree("+w:0", 0, 0, 0), NULL, 0), made);
        strcat(path, i ? "/fixed_list.0" : "fixed_list.0");
    }
    expect("a path of 63 steps", made, ARROW2_C_FORMAT, path, -1);
}

static void hostile_depths(void) {
    expect("63 lists in one another", nested(ARROW2_C_MAX_DEPTH - 1), ARROW2_OK, "", -1);
    expect_too_large("64 lists in one another", nested(ARROW2_C_MAX_DEPTH));
    if (!in_pages) {
        expect_too_large("100,000 lists in one another", nested(100000));
    }
    struct tree *circle = nested(1);
    circle->child_arrays[0] = &circle->array;
    circle->child_schemas[0] = &circle->schema;
    expect_too_large("a list that is its own child", circle);
    struct tree *twice = items(0);
    for (int i = 0; i < 40; i++) {
        twice = adopt(adopt(add(tree("+s", 0, 0, 0), NULL, 0), twice), twice);
    }
    expect_too_large("2^40 arrays in 41", twice);
}

static void hostile_roots(void) {
    struct tree *some = items(3);
    struct arrow2_where where = {"", -1};
    report("no array", "", check(&some->schema, NULL, NULL, 0, &where) == ARROW2_C_NULL, 0, &where);
    report("no schema", "", check(NULL, &some->array, NULL, 0, &where) == ARROW2_C_NULL, 0, &where);
    report("texts of codes", "",
           strcmp(arrow2_code_text(ARROW2_INDEX), "an index is outside its dictionary") == 0 &&
               strcmp(arrow2_code_text(ARROW2_C_NULL), "a pointer is null") == 0 &&
               strcmp(arrow2_code_text(ARROW2_C_SIZES), "the number of sizes is not the number of buffers") == 0 &&
               strcmp(arrow2_code_text(12), arrow2_code_text(45)) == 0,
           0, &where);
    report("no place", "", check(NULL, &some->array, NULL, 0, NULL) == ARROW2_C_NULL, 0, &where);
}

/* Gives all arrays to a check, and returns the number of its results that are not as they must be. */
int arrow2_hostile_run(check_function given, bool pages) {
    check = given;
    in_pages = pages;
    passed = failed = 0;
    right_flat_arrays();
    right_nested_arrays();
    right_dictionaries();
    hostile_offsets();
    hostile_empties();
    hostile_alignments();
    hostile_texts();
    hostile_indices();
    hostile_children();
    hostile_unions();
    hostile_formats();
    hostile_paths();
    hostile_depths();
    hostile_roots();
    printf("%d passed, %d failed\n", passed, failed);
    fflush(stdout);
    return failed;
}

#ifndef ARROW2_HOSTILE_LIBRARY
static uint32_t by_header(const struct ArrowSchema *schema, const struct ArrowArray *array, const size_t *sizes,
                          size_t count, struct arrow2_where *where) {
    return sizes ? arrow2_array_check_sized(schema, array, sizes, count, where)
                 : arrow2_array_check(schema, array, where);
}

int main(int argc, char **argv) {
    return arrow2_hostile_run(by_header, argc > 1 && strcmp(argv[1], "pages") == 0) != 0;
}
#endif
