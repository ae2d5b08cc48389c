// The loops over each product. LEVEL is the level of optimisation that this file is compiled at.
#include "code.h"

#define JOIN3(a, b, c) a##b##c
#define JOINED(a, b, c) JOIN3(a, b, c)

// By logarithms, with two turns of powers: the sum of two logarithms is read as it is.
static inline uint16_t table_product(const struct field *f, uint16_t a, uint16_t b)
{
    if (a == 0 || b == 0)
        return 0;
    return f->powers[f->logarithms[a] + f->logarithms[b]];
}

static inline uint16_t table_inverse(const struct field *f, uint16_t a)
{
    return a == 0 ? 0 : f->powers[f->order - 1 - f->logarithms[a]];
}

// By logarithms, with one turn of powers, as the library has it: the sum of two logarithms is reduced modulo q - 1.
static inline uint16_t turn_product(const struct field *f, uint16_t a, uint16_t b)
{
    if (a == 0 || b == 0)
        return 0;
    unsigned k = f->logarithms[a] + f->logarithms[b];
    return f->powers[k < f->order - 1 ? k : k - (f->order - 1)];
}

static inline uint16_t turn_inverse(const struct field *f, uint16_t a)
{
    if (a == 0)
        return 0;
    unsigned k = f->logarithms[a];
    return f->powers[k == 0 ? 0 : f->order - 1 - k];
}

// Nine steps at every degree, as the library has it.
static inline uint16_t shift_product(const struct field *f, uint16_t a, uint16_t b)
{
    uint16_t p = 0;
    for (int i = 0; i < 9; i++) {
        p ^= -(a >> i & 1) & b;
        b <<= 1;
        b ^= -(b >> f->degree) & f->polynomial;
    }
    return p;
}

static inline uint16_t shift_inverse(const struct field *f, uint16_t a)
{
    uint16_t square = a, p = 1;
    for (unsigned i = 1; i < f->degree; i++) {
        square = shift_product(f, square, square);
        p = shift_product(f, p, square);
    }
    return p;
}

// A step for each bit, as many as the degree says.
static inline uint16_t bits_product(const struct field *f, uint16_t a, uint16_t b)
{
    uint16_t p = 0;
    for (int i = (int)f->degree - 1; i >= 0; i--) {
        p <<= 1;
        p ^= -(p >> f->degree) & f->polynomial;
        p ^= -(b >> i & 1) & a;
    }
    return p;
}

static inline uint16_t bits_inverse(const struct field *f, uint16_t a)
{
    uint16_t square = a, p = 1;
    for (unsigned i = 1; i < f->degree; i++) {
        square = bits_product(f, square, square);
        p = bits_product(f, p, square);
    }
    return p;
}

// The leading columns of a block, one for each row that has any; the answer is how many there are.
static inline size_t leads(const struct code *c, const uint16_t *block, size_t *lead)
{
    size_t rank = 0;
    for (size_t i = 0; i < c->rows; i++) {
        size_t j = 0;
        while (j < c->columns && block[i * c->columns + j] == 0)
            j++;
        if (j == c->columns)
            break;
        lead[rank++] = j;
    }
    return rank;
}

// The symbols in the free columns of a block; the answer is how many there are.
static inline size_t read_free(const struct code *c, const uint16_t *block, const uint16_t *row, uint16_t *out)
{
    size_t lead[8], rank = leads(c, block, lead), used = 0;
    for (size_t j = 0, i = 0; j < c->columns; j++)
        if (i < rank && lead[i] == j)
            i++;
        else
            out[used++] = row[j];
    return used;
}

#define PRODUCT table_product
#define INVERSE table_inverse
#define NAME(x) JOINED(table_, x, LEVEL)
#include "loops.h"
#undef PRODUCT
#undef INVERSE
#undef NAME

#define PRODUCT turn_product
#define INVERSE turn_inverse
#define NAME(x) JOINED(turn_, x, LEVEL)
#include "loops.h"
#undef PRODUCT
#undef INVERSE
#undef NAME

#define PRODUCT shift_product
#define INVERSE shift_inverse
#define NAME(x) JOINED(shift_, x, LEVEL)
#include "loops.h"
#undef PRODUCT
#undef INVERSE
#undef NAME

#define PRODUCT bits_product
#define INVERSE bits_inverse
#define NAME(x) JOINED(bits_, x, LEVEL)
#include "loops.h"
