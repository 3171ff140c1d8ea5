/* Document 01's examples, a transponder number and leftover bits as document 02 wants them, and the Golay code's table, through the C
 * boundary. Prints a line for each that fails, then how many passed. */
#include <stdio.h>
#include <string.h>

#include "fingerkerf.h"

static int passed, failed;

static void expect(const char *example, int holds) {
    if (holds) {
        passed++;
    } else {
        failed++;
        printf("example %s fails\n", example);
    }
}

/* A row given back: the count, the patterns tried (0 for a stack) and the levels. */
static int gives(levels_reading r, size_t count, size_t tried, const uint8_t *out, const uint8_t *levels, size_t n) {
    return r.number == 0 && r.count == count && r.tried == tried && r.plane == 0 && memcmp(out, levels, n) == 0;
}

/* Is an output buffer still all 9? */
static int untouched(const uint8_t *out, size_t n) {
    size_t i;
    for (i = 0; i < n; i++) {
        if (out[i] != 9) {
            return 0;
        }
    }
    return 1;
}

/* A refusal with its plane, and an output buffer that is still all 9. */
static int refuses(levels_reading r, size_t number, size_t plane, const uint8_t *out, size_t n) {
    return untouched(out, n) && r.number == number && r.count == 0 && r.tried == 0 && r.plane == plane;
}

static const uint8_t R[] = {5, 4, 8, 2, 1, 2, 1, 1, 1, 1};
static const uint8_t F[] = {12, 2, 5, 5, 2, 1, 0, 1, 1, 1, 1, 4, 4, 4, 4, 4, 4, 1, 2, 3, 4, 0, 1, 2, 3, 4};
static const uint8_t S[] = {3, 3, 2, 2, 1, 1, 1, 2, 2, 1, 1, 1, 2, 2, 1, 1, 1};
static const uint8_t T[] = {6, 2, 6, 3, 1, 1, 1, 1, 2, 2, 1, 2, 1, 2};

static levels_reading decode(const uint8_t *body, size_t body_len, const uint8_t *word, size_t n, uint8_t *out) {
    memset(out, 9, n);
    return levels_decode(body, body_len, word, n, out, n);
}

static levels_reading decode_stack(const uint8_t *body, size_t body_len, const uint8_t *word, size_t n, uint8_t *out) {
    memset(out, 9, n);
    return levels_decode_stack(body, body_len, word, n, out, n);
}

static levels_reading decode_golay(size_t q, const uint8_t *word, size_t word_len, uint8_t *out, size_t out_len) {
    memset(out, 9, out_len);
    return levels_decode_golay(q, word, word_len, out, out_len);
}

static size_t message_of_number(const uint8_t *body, size_t body_len, uint64_t value, uint8_t *out, size_t n) {
    memset(out, 9, n);
    return levels_message_of_number(body, body_len, value, out, n);
}

static size_t unpack(const uint8_t *body, size_t body_len, const uint8_t *bytes, size_t bytes_len, uint8_t *out, size_t n) {
    memset(out, 9, n);
    return levels_unpack(body, body_len, bytes, bytes_len, out, n);
}

static int has_number(levels_value v, size_t number, uint64_t value) {
    return v.number == number && v.value == value;
}

static void codes_r(void) {
    uint8_t out[5];
    const uint8_t message[] = {3, 2, 1, 0, 0}, written[] = {3, 5, 3, 1, 1}, b[] = {4, 5, 3, 2, 1}, c[] = {4, 6, 3, 2, 1};
    const uint8_t c_levels[] = {4, 6, 2, 2, 0}, d[] = {1, 0, 0, 0, 0}, zeros[5] = {0}, beyond[] = {0, 1, 1, 1, 1};
    expect("a", levels_encode(R, sizeof R, message, 5, out, 5) == 0 && memcmp(out, written, 5) == 0);
    expect("a, recovered", levels_recover(R, sizeof R, written, 5, out, 5) == 0 && memcmp(out, message, 5) == 0);
    expect("b", gives(decode(R, sizeof R, b, 5, out), 2, 9, out, written, 5));
    expect("c", gives(decode(R, sizeof R, c, 5, out), 2, 15, out, c_levels, 5));
    expect("d", gives(decode(R, sizeof R, d, 5, out), 1, 2, out, zeros, 5));
    expect("d, beyond", refuses(decode(R, sizeof R, beyond, 5, out), 11, 0, out, 5));
}

static void codes_f(void) {
    uint8_t out[12];
    const uint8_t message[12] = {0, 1}, zeros[12] = {0}, first[12] = {2};
    const uint8_t written[12] = {0, 1, 0, 0, 0, 0, 0, 0, 0, 0, 4, 4}, last[12] = {0, 0, 0, 0, 0, 0, 0, 0, 0, 0, 0, 3};
    expect("e", levels_encode(F, sizeof F, message, 12, out, 12) == 0 && memcmp(out, written, 12) == 0);
    expect("f", gives(decode(F, sizeof F, first, 12, out), 1, 3, out, zeros, 12));
    expect("f, beyond", refuses(decode(F, sizeof F, last, 12, out), 11, 0, out, 12));
}

static void other_codes(void) {
    uint8_t out[4];
    const uint8_t g[] = {2, 1, 8, 2, 1, 1, 1}, g2[] = {1, 0, 2, 2, 1, 0}, h[] = {4, 3, 8, 3, 2, 1, 2, 2, 2}, word[] = {7, 7, 7, 7};
    const uint8_t l[] = {45, 0, 3, 3, 2, 2}, l2[] = {46, 0, 3, 3, 2, 2};
    expect("g", levels_test(g, sizeof g) == 6);
    expect("g, accepted", levels_test(g2, sizeof g2) == 0);
    expect("h", refuses(decode(h, sizeof h, word, 4, out), 11, 0, out, 4));
    expect("l", levels_code_cells(l, sizeof l).size == 45);
    expect("l, refused", levels_code_cells(l2, sizeof l2).number == 5);
}

static void stacks(void) {
    uint8_t out[3];
    const uint8_t i[] = {5, 5, 4}, fives[] = {5, 5, 5}, j[] = {0, 1, 7}, sevens[] = {7, 7, 7};
    const uint8_t k[] = {2, 1, 2, 1, 0, 1}, word[] = {0, 1};
    expect("i", gives(decode_stack(S, sizeof S, i, 3, out), 1, 0, out, fives, 3));
    expect("j", gives(decode_stack(S, sizeof S, j, 3, out), 2, 0, out, sevens, 3));
    expect("k", refuses(decode_stack(k, sizeof k, word, 2, out), 11, 0, out, 2));
}

/* A transponder code has four octal digits. It is written to six cells of six levels and read with cell 3 risen. */
static void transponder(void) {
    uint8_t out[6];
    const uint64_t code = 04271;
    const uint8_t message[] = {1, 0, 2, 4, 1, 0}, written[] = {1, 0, 2, 4, 5, 1}, read[] = {1, 0, 3, 4, 5, 1};
    expect("transponder", message_of_number(T, sizeof T, code, out, 6) == 0 && memcmp(out, message, 6) == 0);
    expect("transponder, written", levels_encode(T, sizeof T, message, 6, out, 6) == 0 && memcmp(out, written, 6) == 0);
    expect("transponder, read", gives(decode(T, sizeof T, read, 6, out), 1, 4, out, written, 6));
    expect("transponder, recovered", levels_recover(T, sizeof T, written, 6, out, 6) == 0 && memcmp(out, message, 6) == 0);
    expect("transponder, number", has_number(levels_number_of_message(T, sizeof T, message, 6), 0, code));
}

/* The messages of T have the numbers below 5,184. 63 cells of two levels have 2^63 messages, one cell more too many. */
static void numbers(void) {
    uint8_t out[64];
    const uint8_t most[] = {63, 0, 2, 2, 1, 0}, above[] = {64, 0, 2, 2, 1, 0}, last[] = {5, 5, 5, 5, 1, 1}, large[] = {0, 0, 0, 0, 2, 0};
    expect("last number", message_of_number(T, sizeof T, 5183, out, 6) == 0 && memcmp(out, last, 6) == 0);
    expect("18", message_of_number(T, sizeof T, 5184, out, 6) == 18 && untouched(out, 6));
    expect("9", has_number(levels_number_of_message(T, sizeof T, large, 6), 9, 0));
    expect("2^63 messages", message_of_number(most, sizeof most, INT64_MAX, out, 63) == 0);
    expect("2^63 messages, back", has_number(levels_number_of_message(most, sizeof most, out, 63), 0, INT64_MAX));
    expect("17", message_of_number(above, sizeof above, 0, out, 64) == 17 && untouched(out, 64));
    expect("17, back", has_number(levels_number_of_message(above, sizeof above, out, 64), 17, 0));
}

/* A message of R has 11 bits, so that of two bytes the last five bits are left over. Rubbish in one of them is refused; whole bytes
 * have none. */
static void leftover_bits(void) {
    uint8_t out[8], packed[2];
    const uint8_t message[] = {3, 2, 1, 0, 0}, clean[] = {51, 0}, lowest[] = {51, 8}, highest[] = {51, 128};
    const uint8_t whole[] = {8, 0, 2, 2, 1, 0}, byte[] = {255}, ones[] = {1, 1, 1, 1, 1, 1, 1, 1};
    expect("bytes", levels_pack(R, sizeof R, message, 5, packed, 2) == 0 && memcmp(packed, clean, 2) == 0);
    expect("bytes, back", unpack(R, sizeof R, clean, 2, out, 5) == 0 && memcmp(out, message, 5) == 0);
    expect("19", unpack(R, sizeof R, lowest, 2, out, 5) == 19 && untouched(out, 5));
    expect("19, highest bit", unpack(R, sizeof R, highest, 2, out, 5) == 19 && untouched(out, 5));
    expect("no leftover bits", unpack(whole, sizeof whole, byte, 1, out, 8) == 0 && memcmp(out, ones, 8) == 0);
}

/* A codeword of the Golay code of eight levels, and rows read with one and with three cells risen. */
static const uint8_t GOLAY[] = {6, 2, 4, 6, 0, 2, 4, 6, 0, 2, 4, 1, 6, 3, 0, 5, 7, 1, 4, 2, 0, 3, 1};
static const uint8_t ONE_RISEN[] = {6, 2, 4, 6, 1, 2, 4, 6, 0, 2, 4, 1, 6, 3, 0, 5, 7, 1, 4, 2, 0, 3, 1};
static const uint8_t THREE_RISEN[] = {7, 2, 4, 6, 0, 2, 4, 6, 0, 2, 4, 1, 6, 4, 0, 5, 7, 1, 4, 2, 0, 3, 2};

/* No pattern is tried: it is looked up. */
static void golay(void) {
    uint8_t out[23];
    const uint8_t zeros[23] = {0}, first[23] = {1};
    expect("Golay code", gives(decode_golay(8, GOLAY, 23, out, 23), 0, 0, out, GOLAY, 23));
    expect("Golay code, one cell", gives(decode_golay(8, ONE_RISEN, 23, out, 23), 1, 0, out, GOLAY, 23));
    expect("Golay code, three cells", gives(decode_golay(8, THREE_RISEN, 23, out, 23), 3, 0, out, GOLAY, 23));
    expect("Golay code, 64 levels", gives(decode_golay(64, THREE_RISEN, 23, out, 23), 3, 0, out, GOLAY, 23));
    expect("Golay code, two levels", gives(decode_golay(2, first, 23, out, 23), 1, 0, out, zeros, 23));
}

/* Cell 12 of the codeword is at 1. With a 0 there, only lowering that 0 would give a codeword. */
static void golay_refusals(void) {
    uint8_t out[24], beyond[23];
    memcpy(beyond, GOLAY, 23);
    beyond[11] = 0;
    expect("Golay code, 2", refuses(decode_golay(9, GOLAY, 23, out, 23), 2, 0, out, 23));
    expect("Golay code, 2, no levels", refuses(decode_golay(0, GOLAY, 23, out, 23), 2, 0, out, 23));
    expect("Golay code, 2, 66 levels", refuses(decode_golay(66, GOLAY, 23, out, 23), 2, 0, out, 23));
    expect("Golay code, 2, 8 modulo 256", refuses(decode_golay(264, GOLAY, 23, out, 23), 2, 0, out, 23));
    expect("Golay code, 2, almost 2^64", refuses(decode_golay(SIZE_MAX - 1, GOLAY, 22, out, 24), 2, 0, out, 24));
    expect("Golay code, 8", refuses(decode_golay(8, GOLAY, 22, out, 23), 8, 0, out, 23));
    expect("Golay code, 8, output", refuses(decode_golay(2, GOLAY, 23, out, 24), 8, 0, out, 24));
    expect("Golay code, 10", refuses(decode_golay(6, beyond, 23, out, 23), 10, 0, out, 23));
    expect("Golay code, 11", refuses(decode_golay(8, beyond, 23, out, 23), 11, 0, out, 23));
}

static void image(void) {
    uint8_t out[5];
    const uint8_t x[] = {2, 1, 0, 13, 0, 10, 0, 3, 1, 23, 0, 5, 0, 5, 4, 8, 2, 1, 2, 1, 1, 1, 1, 4, 5, 3, 2, 1};
    const uint8_t levels[] = {3, 5, 3, 1, 1};
    levels_record r = levels_read_row(x, sizeof x, 2, out, levels_row_cells(x, sizeof x, 2).size);
    expect("image", r.number == 0 && r.entry == 2 && r.refusal == 0 && r.count == 2 && memcmp(out, levels, 5) == 0);
    expect("image, entry 1", levels_read_row(x, sizeof x, 1, out, 5).number == 2);
}

int main(void) {
    codes_r();
    codes_f();
    other_codes();
    stacks();
    transponder();
    numbers();
    leftover_bits();
    golay();
    golay_refusals();
    image();
    printf("examples in C: %d passed, %d failed\n", passed, failed);
    return failed != 0;
}
