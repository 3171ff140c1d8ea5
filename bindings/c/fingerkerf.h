/* Fingerkerf: codes for cartridges of multilevel flash cells, after document 01, "Level codes for exercise cartridges".
 *
 * Link with libfingerkerf.a (`make library` writes it to target/staticlib; for x86-64 programs).
 *
 * Every function takes byte slices as a pointer and a length; null with length 0 is an empty slice. Buffers of one call may not
 * overlap, except that two inputs may. Nothing is kept between calls: any number of threads may call at once, each with its own
 * output buffers. No call allocates memory; the most stack that one takes is listed in docs/PROMISES.md.
 *
 * Every call ends and answers. A refusal is a number, and leaves every buffer as it was:
 *
 *    1  a body too short for its fields               take the whole body; it was cut off
 *    2  field, length, kind, entry or q out of range  check the fields against document 01's ranges; for a row, its entry number; of the Golay code, an even q
 *    3  a body of another length than its fields ask  take exactly the body: its matrix is cut off or followed by other bytes
 *    4  an entry of the matrix of M or more           the matrix is damaged, or of another modulus
 *    5  more than 4,096 patterns                      choose smaller n, l or t
 *    6  not accepted: two patterns share residues     choose another matrix; rows of this one can be mended in two ways
 *    7  a stack of more than 64 levels                choose fewer planes or smaller digits
 *    8  a buffer not of its exact length              ask for the size first (levels_code_cells and its like)
 *    9  a symbol too large                            the message was not made for this body
 *   10  a level, or a state, of q or more             the row was not read from such cells
 *   11  no codeword within reach                      the row cannot be mended; keep it as it was read
 *   12  not a codeword                                read (decode) the row first
 *   13  a label table that is no permutation          make the table with levels_make_labels
 *   14  q or floor(q/M) is no power of two            such levels have no bits; use another labeling or keep the symbols
 *   15  an image whose contents are wrong             the image is cut off, too long, or not an image
 *   16  a body refused by its test, or a reference    one body of the image is damaged
 *   17  more than 2^63 messages                       choose fewer cells or levels; the messages of this body have no 64-bit numbers
 *   18  a number that no message has                  it must be below the product of all radices
 *   19  a leftover bit of the last byte is set        clear the bits past the last symbol; packing leaves them 0
 *
 * Reading a plan or a stack does not test it: levels_test and levels_test_stack do. Without a passed test a row may be mended in
 * two ways; with one, the codeword within reach is the only one (document 01, demand 3).
 */
#ifndef FINGERKERF_H
#define FINGERKERF_H

#include <stddef.h>
#include <stdint.h>

#ifdef __cplusplus
extern "C" {
#endif

/* What reading answers. A row given back: number 0, the count of changed cells, the patterns tried, plane 0. Tried is the place,
 * counted from 1, of the given pattern in document 01's order: 1 for a row that was a codeword, at most P; 0 for a stack, and where a
 * table was read.
 * A refusal: its number, count 0, tried 0; with a stack's 11 the plane, from 0, that has no pattern. */
typedef struct {
    size_t number;
    size_t count;
    size_t tried;
    size_t plane;
} levels_reading;

/* What reading a row entry of an image answers. A plain refusal (15, 16, 2): number, all else 0. A record: number 0, the entry
 * number handed in, and either refusal 0 with the count, or the refusal (8, 10, 11), with a stack's 11 its plane. */
typedef struct {
    size_t number;
    size_t entry;
    size_t refusal;
    size_t count;
    size_t plane;
} levels_record;

/* A size: number 0 and the size, or the refusal's number and size 0. */
typedef struct {
    size_t number;
    size_t size;
} levels_size;

/* A message's number: number 0 and the value, or the refusal's number and value 0. */
typedef struct {
    size_t number;
    uint64_t value;
} levels_value;

/* Plans. The body is n r q M l t and the matrix. 0, or the refusal's number. */
size_t levels_test(const uint8_t *body, size_t body_len);
/* Write: message of n symbols to out of n cells. */
size_t levels_encode(const uint8_t *body, size_t body_len, const uint8_t *message, size_t message_len, uint8_t *out, size_t out_len);
/* Read: word of n levels, the levels given back to out of n cells. */
levels_reading levels_decode(const uint8_t *body, size_t body_len, const uint8_t *word, size_t word_len, uint8_t *out, size_t out_len);
/* Recover the message of a codeword: word of n levels to out of n symbols. */
size_t levels_recover(const uint8_t *body, size_t body_len, const uint8_t *word, size_t word_len, uint8_t *out, size_t out_len);

/* Read a word of the binary Golay code of 23 cells, without a description: q is even, 2 to 64, word and out have 23 cells. It answers and
 * writes what levels_decode does with that code's description, but for tried, which is 0: the pattern is looked up in a table of 2,048, and
 * nothing is searched. The description is 23 11 q 2 1 3 and the matrix whose column j, from 1 to 12, is the remainder of x^(23-j) by
 * x^11 + x^9 + x^7 + x^6 + x^5 + x + 1, modulo 2, with the coefficient of x^(11-k) in row k. That code is accepted for every such q.
 * Refusals, in this order: 2 for an odd q or one outside 2 to 64; 8; 10; 11. */
levels_reading levels_decode_golay(size_t q, const uint8_t *word, size_t word_len, uint8_t *out, size_t out_len);

/* Stacks, likewise. A message has levels_stack_symbols digits. */
size_t levels_test_stack(const uint8_t *body, size_t body_len);
size_t levels_encode_stack(const uint8_t *body, size_t body_len, const uint8_t *message, size_t message_len, uint8_t *out, size_t out_len);
levels_reading levels_decode_stack(const uint8_t *body, size_t body_len, const uint8_t *word, size_t word_len, uint8_t *out, size_t out_len);
size_t levels_recover_stack(const uint8_t *body, size_t body_len, const uint8_t *word, size_t word_len, uint8_t *out, size_t out_len);

/* Labels: a table of q levels, by state. kind 1 straight, 2 Gray, 3 reversed. */
size_t levels_make_labels(size_t kind, uint8_t *table, size_t table_len);
size_t levels_to_levels(const uint8_t *table, size_t table_len, const uint8_t *states, size_t states_len, uint8_t *levels, size_t levels_len);
size_t levels_to_states(const uint8_t *table, size_t table_len, const uint8_t *levels, size_t levels_len, uint8_t *states, size_t states_len);

/* Bytes: a plan's message to and from levels_packed_bytes bytes. The bits of the last byte past the last symbol are left over: packing
 * leaves them 0, and unpacking refuses (19) when one is set, so that equal rows mean equal bytes. */
size_t levels_pack(const uint8_t *body, size_t body_len, const uint8_t *message, size_t message_len, uint8_t *bytes, size_t bytes_len);
size_t levels_unpack(const uint8_t *body, size_t body_len, const uint8_t *bytes, size_t bytes_len, uint8_t *message, size_t message_len);

/* Numbers: a plan's message of n symbols from one 64-bit number, and back. The first symbol is the least significant; the radix of a
 * cell is q, of a check cell floor(q/M). The numbers of messages are those below the product of all n radices. */
size_t levels_message_of_number(const uint8_t *body, size_t body_len, uint64_t value, uint8_t *message, size_t message_len);
levels_value levels_number_of_message(const uint8_t *body, size_t body_len, const uint8_t *message, size_t message_len);

/* The cartridge image. entry counts from 1. */
size_t levels_check_image(const uint8_t *image, size_t image_len);
levels_record levels_read_row(const uint8_t *image, size_t image_len, size_t entry, uint8_t *out, size_t out_len);

/* Sizes to ask for before a call: the cells of a plan, a stack, a row entry's plan or stack; the digits of a stack's message; the
 * bytes of a plan's packed message. */
levels_size levels_code_cells(const uint8_t *body, size_t body_len);
levels_size levels_stack_cells(const uint8_t *body, size_t body_len);
levels_size levels_stack_symbols(const uint8_t *body, size_t body_len);
levels_size levels_packed_bytes(const uint8_t *body, size_t body_len);
levels_size levels_row_cells(const uint8_t *image, size_t image_len, size_t entry);

#ifdef __cplusplus
}
#endif

#endif
