/* Which rows are valid in two columns? Prints AND of two bitmaps that begin at bits 3 and 5 of their bytes. */
#include "arrow2_c_data.h"

#include <stdio.h>

enum { ROWS = 10 };

int main(void) {
    const uint8_t price_bytes[] = {0xf8, 0x1b}; /* row i is bit 3 + i, the lowest bit of a byte first */
    const uint8_t name_bytes[] = {0xa0, 0x3f};  /* row i is bit 5 + i */
    const struct arrow2_bits prices = {price_bytes, sizeof price_bytes, 3};
    const struct arrow2_bits names = {name_bytes, sizeof name_bytes, 5};
    uint8_t both[(ROWS + 7) / 8]; /* exactly arrow2_bytes_for(ROWS) bytes */

    uint32_t code = arrow2_bits_and(prices, names, ROWS, both, arrow2_bytes_for(ROWS));
    if (code != ARROW2_OK) {
        fprintf(stderr, "%s\n", arrow2_code_text(code));
        return 1;
    }
    for (int row = 0; row < ROWS; row++) {
        putchar(both[row / 8] >> row % 8 & 1 ? '1' : '0');
    }
    putchar('\n');
    return 0;
}
