// Build, encode, check and recover over one product. Included once for each, with PRODUCT, INVERSE and NAME defined.

static uint16_t NAME(power)(const struct field *f, uint16_t a, size_t k)
{
    uint16_t p = 1;
    for (int i = 8; i >= 0; i--) {
        p = PRODUCT(f, p, p);
        if (k >> i & 1)
            p = PRODUCT(f, a, p);
    }
    return p;
}

static uint16_t NAME(root)(const struct field *f, const struct code *c)
{
    return NAME(power)(f, 2, (f->order - 1) / c->size);
}

// Reduced row echelon form, in place.
static void NAME(reduce)(const struct field *f, uint16_t *block, size_t rows, size_t columns)
{
    size_t top = 0;
    for (size_t column = 0; column < columns && top < rows; column++) {
        size_t i = top;
        while (i < rows && block[i * columns + column] == 0)
            i++;
        if (i == rows)
            continue;
        uint16_t *pivot = block + top * columns;
        if (i != top)
            for (size_t j = 0; j < columns; j++) {
                uint16_t kept = pivot[j];
                pivot[j] = block[i * columns + j];
                block[i * columns + j] = kept;
            }
        uint16_t by = INVERSE(f, pivot[column]);
        for (size_t j = 0; j < columns; j++)
            pivot[j] = PRODUCT(f, pivot[j], by);
        for (size_t h = 0; h < rows; h++) {
            uint16_t *row = block + h * columns;
            by = row[column];
            if (h == top || by == 0)
                continue;
            for (size_t j = 0; j < columns; j++)
                row[j] ^= PRODUCT(f, pivot[j], by);
        }
        top++;
    }
}

static void NAME(build)(const struct field *f, const struct code *c, uint16_t *blocks)
{
    size_t places = c->rows * c->columns;
    uint16_t alpha = NAME(root)(f, c);
    for (size_t i = 0; i < places * c->size; i++)
        blocks[i] = 0;
    for (size_t k = 0; k < places; k++)
        for (size_t n = 0; n < c->cells[k].count; n++) {
            uint16_t step = NAME(power)(f, alpha, c->cells[k].terms[n].shift % c->size);
            uint16_t p = c->cells[k].terms[n].coefficient;
            for (size_t t = 0; t < c->size; t++) {
                blocks[t * places + k] ^= p;
                p = PRODUCT(f, p, step);
            }
        }
    for (size_t t = 0; t < c->size; t++)
        NAME(reduce)(f, blocks + t * places, c->rows, c->columns);
}

// The spectrum at one frequency: message symbols in the free columns, and in each leading column the sum of its row. The answer is
// the number of free columns.
static size_t NAME(fill)(const struct field *f, const struct code *c, const uint16_t *block, const uint16_t *message, uint16_t *row)
{
    size_t lead[8], rank = leads(c, block, lead), used = 0;
    for (size_t j = 0, i = 0; j < c->columns; j++) {
        if (i < rank && lead[i] == j) {
            row[j] = 0;
            i++;
        } else {
            row[j] = message[used++];
        }
    }
    uint16_t sums[8];
    for (size_t i = 0; i < rank; i++) {
        sums[i] = 0;
        for (size_t j = 0; j < c->columns; j++)
            sums[i] ^= PRODUCT(f, block[i * c->columns + j], row[j]);
    }
    for (size_t i = 0; i < rank; i++)
        row[lead[i]] = sums[i];
    return used;
}

// The value at x of the polynomial in each column, by Horner's rule with the columns innermost.
static inline void NAME(evaluate)(const struct field *f, const struct code *c, const uint16_t *restrict work, uint16_t x, uint16_t *restrict sums)
{
    size_t columns = c->columns;
    for (size_t j = 0; j < columns; j++)
        sums[j] = 0;
    for (size_t t = c->size; t-- > 0;)
        for (size_t j = 0; j < columns; j++)
            sums[j] = work[t * columns + j] ^ PRODUCT(f, sums[j], x);
}

static void NAME(encode)(const struct field *f, const struct code *c, const uint16_t *blocks, const uint16_t *message, uint16_t *out, uint16_t *work)
{
    size_t columns = c->columns, size = c->size;
    for (size_t t = 0; t < size; t++)
        message += NAME(fill)(f, c, blocks + t * c->rows * columns, message, work + t * columns);
    uint16_t alpha = NAME(root)(f, c), x = 1, sums[COLUMNS];
    for (size_t l = 0; l < size; l++) {
        NAME(evaluate)(f, c, work, x, sums);
        for (size_t j = 0; j < columns; j++)
            out[j * size + l] = sums[j];
        x = PRODUCT(f, alpha, x);
    }
}

static void NAME(add)(const struct field *f, uint16_t *restrict sums, const uint16_t *restrict xs, size_t n, uint16_t by)
{
    for (size_t s = 0; s < n; s++)
        sums[s] ^= PRODUCT(f, xs[s], by);
}

static int NAME(check)(const struct field *f, const struct code *c, const uint16_t *word)
{
    uint16_t sums[SIZE];
    for (size_t i = 0; i < c->columns * c->size; i++)
        if (word[i] >= f->order)
            return 0;
    for (size_t i = 0; i < c->rows; i++) {
        for (size_t s = 0; s < c->size; s++)
            sums[s] = 0;
        for (size_t j = 0; j < c->columns; j++) {
            const struct cell_row *cell = &c->cells[i * c->columns + j];
            const uint16_t *column = word + j * c->size;
            for (size_t n = 0; n < cell->count; n++) {
                size_t first = cell->terms[n].shift % c->size;
                uint16_t by = cell->terms[n].coefficient;
                NAME(add)(f, sums, column + first, c->size - first, by);
                NAME(add)(f, sums + c->size - first, column, first, by);
            }
        }
        for (size_t s = 0; s < c->size; s++)
            if (sums[s] != 0)
                return 0;
    }
    return 1;
}

// The message of a word, where the word passes: the answer is whether it does.
static int NAME(recover)(const struct field *f, const struct code *c, const uint16_t *blocks, const uint16_t *word, uint16_t *out, uint16_t *work)
{
    size_t columns = c->columns, size = c->size;
    if (!NAME(check)(f, c, word))
        return 0;
    for (size_t l = 0; l < size; l++)
        for (size_t j = 0; j < columns; j++)
            work[l * columns + j] = word[j * size + l];
    uint16_t beta = INVERSE(f, NAME(root)(f, c)), x = 1, sums[COLUMNS];
    for (size_t t = 0; t < size; t++) {
        NAME(evaluate)(f, c, work, x, sums);
        out += read_free(c, blocks + t * c->rows * columns, sums, out);
        x = PRODUCT(f, beta, x);
    }
    return 1;
}

const struct loops NAME(loops_) = { NAME(build), NAME(encode), NAME(check), NAME(recover) };
