/* Prints, for each row of the cartridge image in a file, the count and the patterns tried: what a plot of effort takes.
 * A stack's row has no tried; a refused row has neither. */
#include "image.h"

static void print_row(size_t k, entry row) {
    uint8_t out[MOST_CELLS];
    entry by = entry_at(row.reference);
    size_t cells = by.body[0];
    int plan = by.kind == PLAN;
    levels_reading r = plan ? levels_decode(by.body, by.length, row.body, row.length, out, cells)
                            : levels_decode_stack(by.body, by.length, row.body, row.length, out, cells);
    if (r.number != 0) {
        printf("row %zu refused %zu\n", k, r.number);
    } else if (plan) {
        printf("row %zu count %zu tried %zu\n", k, r.count, r.tried);
    } else {
        printf("row %zu count %zu\n", k, r.count);
    }
}

int main(int count, char **names) {
    return print_rows(count, names, print_row);
}
