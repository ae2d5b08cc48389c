// What the timed programs share: fields, arrays of circulants, and the entry points of both sides.
#ifndef CODE_H
#define CODE_H

#include <stddef.h>
#include <stdint.h>

enum { CELLS = 512, BLOCKS = 16384, COLUMNS = 64, SIZE = 512 };

// The field of 2^degree symbols, with the tables that only the product by logarithms reads.
struct field {
    unsigned degree;
    unsigned order;
    uint16_t polynomial;
    uint16_t powers[1024];      // x^k for k from 0 to 2 q - 3: two turns, of which one product reads the first only
    uint16_t logarithms[512];
};

// A cell as the library takes it.
struct term {
    uint16_t shift;
    uint16_t coefficient;
};

struct cell_row {
    uint8_t count;
    struct term terms[4];
};

struct code {
    size_t size;
    size_t rows;
    size_t columns;
    struct cell_row cells[CELLS];
};

// The library; a slice is its address and its length, and a field is 0 for the table field or the degree of a shift field.
uint8_t timing_build(uint8_t field, size_t size, size_t rows, size_t columns, const struct cell_row *cells, size_t cells_length,
    uint16_t *blocks, size_t blocks_length);
uint8_t timing_encode(uint8_t field, size_t size, size_t rows, size_t columns, const uint16_t *blocks, size_t blocks_length,
    const uint16_t *message, size_t message_length, uint16_t *out, size_t out_length, uint16_t *work, size_t work_length);
uint8_t timing_check(uint8_t field, size_t size, size_t rows, size_t columns, const struct cell_row *cells, size_t cells_length,
    const uint16_t *word, size_t word_length);
uint8_t timing_recover(uint8_t field, size_t size, size_t rows, size_t columns, const struct cell_row *cells, size_t cells_length,
    const uint16_t *blocks, size_t blocks_length, const uint16_t *word, size_t word_length, uint16_t *out, size_t out_length,
    uint16_t *work, size_t work_length);

// The same loops in C, by logarithms with two turns of powers and with one, by nine shifts and by a shift for each bit of the degree,
// at two levels of optimisation.
struct loops {
    void (*build)(const struct field *f, const struct code *c, uint16_t *blocks);
    void (*encode)(const struct field *f, const struct code *c, const uint16_t *blocks, const uint16_t *message, uint16_t *out, uint16_t *work);
    int (*check)(const struct field *f, const struct code *c, const uint16_t *word);
    int (*recover)(const struct field *f, const struct code *c, const uint16_t *blocks, const uint16_t *word, uint16_t *out, uint16_t *work);
};

extern const struct loops table_loops_2, turn_loops_2, shift_loops_2, bits_loops_2, table_loops_3, turn_loops_3, shift_loops_3, bits_loops_3;

#endif
