/* Prints the rows of the cartridge image in a file, a line for each, as cartlist does. A row whose plan describes the binary Golay code of
 * 23 cells is read by the table and by the search; where the two differ, the program says so and ends with status 1. */
#include <stdlib.h>
#include <string.h>

#include "image.h"

/* GENERATOR is x^11 + x^9 + x^7 + x^6 + x^5 + x + 1: bit e is the coefficient of x^e. */
enum { CELLS = 23, CHECK_CELLS = 11, DATA_CELLS = CELLS - CHECK_CELLS, FIELDS = 6, GENERATOR = 0xae3 };
enum { DESCRIPTION_BYTES = FIELDS + CHECK_CELLS * DATA_CELLS };

/* The remainder of x^e by the generator. */
static unsigned remainder_of(unsigned e) {
    unsigned left = 1;
    while (e-- > 0) {
        left <<= 1;
        if (left >> CHECK_CELLS & 1) {
            left ^= GENERATOR;
        }
    }
    return left;
}

/* The description for q levels: the column of cell j is the remainder of x^(23-j), row k has the coefficients of x^(11-k). */
static void describe(uint8_t q, uint8_t *description) {
    const uint8_t fields[FIELDS] = {CELLS, CHECK_CELLS, q, 2, 1, 3};
    unsigned j, k;
    memcpy(description, fields, FIELDS);
    for (k = 1; k <= CHECK_CELLS; k++) {
        for (j = 1; j <= DATA_CELLS; j++) {
            description[FIELDS + (k - 1) * DATA_CELLS + j - 1] = remainder_of(CELLS - j) >> (CHECK_CELLS - k) & 1;
        }
    }
}

/* Can the table read the rows of this plan? Where q is odd, a codeword's check cells stay below q - 1, and it cannot. */
static int has_table(entry plan) {
    uint8_t description[DESCRIPTION_BYTES];
    if (plan.kind != PLAN || plan.length != DESCRIPTION_BYTES || plan.body[2] % 2 != 0) {
        return 0;
    }
    describe(plan.body[2], description);
    return memcmp(plan.body, description, DESCRIPTION_BYTES) == 0;
}

static void print_levels(size_t k, size_t count, const uint8_t *levels, size_t cells) {
    size_t i;
    printf("row %zu count %zu levels", k, count);
    for (i = 0; i < cells; i++) {
        printf(" %u", levels[i]);
    }
    printf("\n");
}

/* By the table and by the search. A refusal leaves both buffers at 0. */
static void print_golay_row(size_t k, entry plan, entry row) {
    uint8_t out[CELLS] = {0}, found[CELLS] = {0};
    levels_reading by_table = levels_decode_golay(plan.body[2], row.body, row.length, out, CELLS);
    levels_reading by_search = levels_decode(plan.body, plan.length, row.body, row.length, found, CELLS);
    if (by_table.number != by_search.number || by_table.count != by_search.count || memcmp(out, found, CELLS) != 0) {
        fprintf(stderr, "row %zu is read by the table and by the search in two ways\n", k);
        exit(1);
    }
    if (by_table.number != 0) {
        printf("row %zu refused %zu\n", k, by_table.number);
    } else {
        print_levels(k, by_table.count, out, CELLS);
    }
}

static void print_other_row(size_t k) {
    uint8_t out[MOST_CELLS];
    size_t cells = levels_row_cells(image, image_length, k).size;
    levels_record r = levels_read_row(image, image_length, k, out, cells);
    if (r.refusal != 0) {
        printf("row %zu refused %zu\n", k, r.refusal);
    } else {
        print_levels(k, r.count, out, cells);
    }
}

static void print_row(size_t k, entry row) {
    entry by = entry_at(row.reference);
    if (has_table(by)) {
        print_golay_row(k, by, row);
    } else {
        print_other_row(k);
    }
}

int main(int count, char **names) {
    return print_rows(count, names, print_row);
}
