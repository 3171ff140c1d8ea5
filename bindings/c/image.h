/* The cartridge image in a file, for the example programs that read its rows from the bodies. */
#ifndef IMAGE_H
#define IMAGE_H

#include <stdio.h>

#include "fingerkerf.h"

enum { MOST_BYTES = 65536, MOST_CELLS = 64, ENTRY_BYTES = 6, PLAN = 1, ROW = 3 };

static uint8_t image[MOST_BYTES];
static size_t image_length;

typedef struct {
    unsigned kind, reference;
    const uint8_t *body;
    size_t length;
} entry;

/* Entry k, from 1, of an image that passed its check. */
static entry entry_at(size_t k) {
    const uint8_t *e = image + 1 + ENTRY_BYTES * (k - 1);
    entry found = {e[0], e[1], image + e[2] + 256 * e[3], e[4] + 256u * e[5]};
    return found;
}

/* Checks the image in the file that the program was given and prints its rows, each by the function. Gives the program's status. */
static int print_rows(int count, char **names, void (*print_row)(size_t k, entry row)) {
    FILE *source = count == 2 ? fopen(names[1], "rb") : NULL;
    size_t number, k;
    if (source == NULL) {
        fprintf(stderr, "the name of an image that can be read\n");
        return 1;
    }
    image_length = fread(image, 1, MOST_BYTES, source);
    fclose(source);
    number = levels_check_image(image, image_length);
    if (number != 0) {
        printf("image refused %zu\n", number);
        return 0;
    }
    for (k = 1; k <= image[0]; k++) {
        if (entry_at(k).kind == ROW) {
            print_row(k, entry_at(k));
        }
    }
    return 0;
}

#endif
