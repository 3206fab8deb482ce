/* Reads two validity bitmaps, counts them, combines them, and prints which rows are valid in both. */
#include "arrow2_proved.h"

#include <stdio.h>
#include <stdlib.h>

/* Ends the program where a call returns an error. */
static void expect_ok(uint32_t code, const char *call) {
    if (code != ARROW2_OK) {
        fprintf(stderr, "%s: code %u\n", call, (unsigned)code);
        exit(1);
    }
}

/* Prints `length` bits from bit `offset` on, and the number that are not set. */
static void print_bits(const char *name, const uint8_t *bytes, size_t bytes_len, size_t offset, size_t length) {
    size_t zeros = 0;
    printf("%s: ", name);
    for (size_t i = 0; i < length; i++) {
        bool bit = false;
        expect_ok(arrow2_get_bit(bytes, bytes_len, offset + i, &bit), "arrow2_get_bit");
        putchar(bit ? '1' : '0');
    }
    expect_ok(arrow2_count_zeros(bytes, bytes_len, offset, length, &zeros), "arrow2_count_zeros");
    printf(", %zu null\n", zeros);
}

int main(void) {
    /* 12 rows of a slice that begins at row 3, and 12 rows of another column. */
    const uint8_t prices[] = {0xf8, 0x6f};
    const uint8_t names[] = {0xee, 0x0f};
    const size_t rows = 12;
    uint8_t both[2];
    print_bits("prices", prices, sizeof prices, 3, rows);
    print_bits("names", names, sizeof names, 0, rows);

    expect_ok(arrow2_binary_table(prices, sizeof prices, 3, names, sizeof names, 0, rows, 8, both, sizeof both),
              "arrow2_binary_table");
    print_bits("both", both, sizeof both, 0, rows);

    /* Runs, two at a time. */
    size_t at = 0, count = 0, starts[2], run_lengths[2];
    do {
        expect_ok(arrow2_runs(both, sizeof both, 0, rows, &at, starts, 2, run_lengths, 2, &count), "arrow2_runs");
        for (size_t i = 0; i < count; i++) {
            printf("rows %zu to %zu are valid in both\n", starts[i], starts[i] + run_lengths[i] - 1);
        }
    } while (count == 2);

    /* A range that is not inside is an error, and nothing is written. */
    size_t zeros = 77;
    uint32_t code = arrow2_count_zeros(both, sizeof both, 8, 9, &zeros);
    printf("bits 8 to 16 of 16: code %u, zeros %zu\n", (unsigned)code, zeros);

    /* Where the text of each row begins, from its length. */
    const size_t lengths[] = {3, 0, 4};
    int32_t offsets[4];
    expect_ok(arrow2_offsets32_from_lengths(0, lengths, 3, offsets, 4), "arrow2_offsets32_from_lengths");
    printf("offsets: %d %d %d %d\n", (int)offsets[0], (int)offsets[1], (int)offsets[2], (int)offsets[3]);
    return 0;
}
