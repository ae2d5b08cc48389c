// Encoding by the parity part of a systematic generator matrix: what an encoder does that knows nothing of circulants.
#ifndef DENSE_H
#define DENSE_H

#include "code.h"

struct dense {
    size_t length;              // n
    size_t dimension;           // k
    size_t *message_places;     // where the k message symbols stand in the word
    size_t *parity_places;      // where the n - k parity symbols stand
    uint16_t *parity;           // k x (n - k), a row for each message symbol
    uint16_t *sums;             // n - k, free for working
    uint16_t logarithms[512];   // 0 has one so great that every power from there on is 0
    uint16_t powers[2048];
};

int dense_make(struct dense *d, const struct field *f, const struct code *c);
void dense_encode(struct dense *d, const uint16_t *message, uint16_t *out);
void dense_free(struct dense *d);

#endif
