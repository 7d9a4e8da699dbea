/* What the tests need of 36.211, written for them from the standard's text and the header's. */
#ifndef SIGNALS_H
#define SIGNALS_H

#include "gomzelat.h"

static inline int bit_at(const uint8_t *bytes, size_t i) { return bytes[i / 8] >> (7 - i % 8) & 1; }

/* c_init (6.3.1). */
static inline uint32_t initial(struct gomzelat_scrambling s) {
    return s.rnti * 16384 + s.q * 8192 + s.slot / 2 * 512 + s.cell;
}

/* The sequence c from its next element on (7.2): 31 elements of x1 and of x2, the next in the lowest bit. */
struct sequence {
    uint32_t x1, x2;
};

static inline int next_of(struct sequence *c) {
    const int now = (int)((c->x1 ^ c->x2) & 1);
    const uint32_t a = c->x1 ^ c->x1 >> 3, b = c->x2 ^ c->x2 >> 1 ^ c->x2 >> 2 ^ c->x2 >> 3;
    c->x1 = c->x1 >> 1 | (a & 1) << 30;
    c->x2 = c->x2 >> 1 | (b & 1) << 30;
    return now;
}

static inline struct sequence sequence_from(uint32_t init) {
    struct sequence c = {1, init};
    for (int n = 0; n < 1600; n++) next_of(&c);
    return c;
}

/* A coordinate of the point of Q_m bits, of which every second counts for it (7.1.2 to 7.1.4), without the root. */
static inline int coordinate(const int *bits, uint32_t qm) {
    const int sign = 1 - 2 * bits[0];
    if (qm == 2) return sign;
    if (qm == 4) return sign * (2 - (1 - 2 * bits[2]));
    return sign * (4 - (1 - 2 * bits[2]) * (2 - (1 - 2 * bits[4])));
}

/* The soft value of one bit of a received point, over all points of the constellation. */
static inline int soft_of(struct gomzelat_point at, uint32_t qm, int bit, int amp) {
    int64_t nearest[2] = {INT64_MAX, INT64_MAX};
    for (int point = 0; point < 1 << qm; point++) {
        int bits[6] = {0};
        for (uint32_t i = 0; i < qm; i++) bits[i] = point >> i & 1;
        const int64_t x = at.i - (int64_t)amp * coordinate(bits, qm), y = at.q - (int64_t)amp * coordinate(bits + 1, qm);
        if (x * x + y * y < nearest[bits[bit]]) nearest[bits[bit]] = x * x + y * y;
    }
    const int64_t value = (nearest[1] - nearest[0]) / (4 * amp);
    return (int)(value > 127 ? 127 : value < -127 ? -127 : value);
}

#endif
