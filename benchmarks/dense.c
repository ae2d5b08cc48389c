#include "dense.h"

#include <stdlib.h>

static uint16_t product(const struct dense *d, uint16_t a, uint16_t b)
{
    return d->powers[d->logarithms[a] + d->logarithms[b]];
}

static void add_multiple(const struct dense *d, uint16_t *row, const uint16_t *pivot, size_t n, uint16_t by)
{
    if (by == 1)
        for (size_t j = 0; j < n; j++)
            row[j] ^= pivot[j];
    else
        for (size_t j = 0; j < n; j++)
            row[j] ^= product(d, pivot[j], by);
}

// The parity-check matrix: row (i, s) has the coefficient of each term of row i at symbol (shift + s) mod e of its column.
static void fill_checks(const struct code *c, uint16_t *checks, size_t n)
{
    for (size_t i = 0; i < c->rows; i++)
        for (size_t s = 0; s < c->size; s++)
            for (size_t j = 0; j < c->columns; j++) {
                const struct cell_row *cell = &c->cells[i * c->columns + j];
                for (size_t k = 0; k < cell->count; k++)
                    checks[(i * c->size + s) * n + j * c->size + (cell->terms[k].shift + s) % c->size] ^= cell->terms[k].coefficient;
            }
}

int dense_make(struct dense *d, const struct field *f, const struct code *c)
{
    size_t n = d->length = c->columns * c->size, height = c->rows * c->size, rank = 0, k = 0;
    for (size_t i = 0; i < 2048; i++)
        d->powers[i] = i < 2 * (f->order - 1) ? f->powers[i] : 0;
    for (size_t a = 0; a < f->order; a++)
        d->logarithms[a] = a == 0 ? 2 * (f->order - 1) : f->logarithms[a];
    uint16_t *checks = calloc(height * n, sizeof *checks);
    d->message_places = malloc(n * sizeof *d->message_places);
    d->parity_places = malloc(n * sizeof *d->parity_places);
    if (!checks || !d->message_places || !d->parity_places)
        return 0;
    fill_checks(c, checks, n);
    // reduced row echelon form: parity symbols in the leading columns, message symbols in the others
    for (size_t column = 0; column < n; column++) {
        size_t i = rank;
        while (i < height && checks[i * n + column] == 0)
            i++;
        if (i == height) {
            d->message_places[k++] = column;
            continue;
        }
        uint16_t *pivot = checks + rank * n, *found = checks + i * n;
        for (size_t j = column; j < n && i != rank; j++) {
            uint16_t kept = pivot[j];
            pivot[j] = found[j];
            found[j] = kept;
        }
        uint16_t by = pivot[column] == 1 ? 1 : f->powers[f->order - 1 - f->logarithms[pivot[column]]];
        for (size_t j = column; j < n && by != 1; j++)
            pivot[j] = product(d, pivot[j], by);
        for (size_t h = 0; h < height; h++)
            if (h != rank && checks[h * n + column] != 0)
                add_multiple(d, checks + h * n + column, pivot + column, n - column, checks[h * n + column]);
        d->parity_places[rank++] = column;
    }
    d->dimension = k;
    d->parity = malloc(k * rank * sizeof *d->parity);
    d->sums = malloc(rank * sizeof *d->sums);
    if (!d->parity || !d->sums)
        return 0;
    for (size_t m = 0; m < k; m++)
        for (size_t i = 0; i < rank; i++)
            d->parity[m * rank + i] = checks[i * n + d->message_places[m]];
    free(checks);
    return 1;
}

void dense_encode(struct dense *d, const uint16_t *message, uint16_t *out)
{
    size_t rank = d->length - d->dimension;
    for (size_t i = 0; i < rank; i++)
        d->sums[i] = 0;
    for (size_t m = 0; m < d->dimension; m++) {
        const uint16_t *row = d->parity + m * rank;
        const uint16_t *powers = d->powers + d->logarithms[message[m]];
        out[d->message_places[m]] = message[m];
        if (message[m] != 0)
            for (size_t i = 0; i < rank; i++)
                d->sums[i] ^= powers[d->logarithms[row[i]]];
    }
    for (size_t i = 0; i < rank; i++)
        out[d->parity_places[i]] = d->sums[i];
}

void dense_free(struct dense *d)
{
    free(d->message_places);
    free(d->parity_places);
    free(d->parity);
    free(d->sums);
}
