/* What the tests need of 36.212, written for them from the standard's text. */
#ifndef STANDARD_H
#define STANDARD_H

#include "gomzelat.h"

#include <stdbool.h>

/* Whether K is a size of the turbo coder's interleaver (table 5.1.3-3). */
static inline bool is_block_size(size_t k) {
    return (40 <= k && k <= 512 && k % 8 == 0) || (512 < k && k <= 1024 && k % 16 == 0) ||
           (1024 < k && k <= 2048 && k % 32 == 0) || (2048 < k && k <= 6144 && k % 64 == 0);
}

/* How a payload of `length` bytes, which isn't refused, is cut (5.1.2). */
static inline struct gomzelat_plan plan_of(size_t length) {
    struct gomzelat_plan plan = {0};
    const size_t b = 8 * length + 24;
    plan.c = b <= 6144 ? 1 : (b + 6144 - 24 - 1) / (6144 - 24);
    const size_t with_checks = b <= 6144 ? b : b + 24 * plan.c;
    plan.k_plus = 40;
    while (!is_block_size(plan.k_plus) || plan.c * plan.k_plus < with_checks) plan.k_plus += 8;
    if (plan.c > 1) {
        plan.k_minus = plan.k_plus - 8;
        while (!is_block_size(plan.k_minus)) plan.k_minus -= 8;
        plan.c_minus = (plan.c * plan.k_plus - with_checks) / (plan.k_plus - plan.k_minus);
    }
    plan.c_plus = plan.c - plan.c_minus;
    plan.f = plan.c_plus * plan.k_plus + plan.c_minus * plan.k_minus - with_checks;
    return plan;
}

/* K of code block `r`. */
static inline size_t block_size(const struct gomzelat_plan *plan, size_t r) {
    return r < plan->c_minus ? plan->k_minus : plan->k_plus;
}

/* The rows of the sub-block interleaver for streams of K + 4 bits (5.1.4.1.1). */
static inline size_t rows_of(size_t k) { return (k + 4 + 31) / 32; }

/* The bits of all code blocks. */
static inline size_t all_bits(const struct gomzelat_plan *plan) {
    return plan->c_minus * plan->k_minus + plan->c_plus * plan->k_plus;
}

/* What code block `r` sends in a transmission that isn't refused (5.1.4.1.2). */
static inline struct gomzelat_piece piece_of(const struct gomzelat_plan *plan, size_t r,
                                             struct gomzelat_transmission t, uint32_t n_ir) {
    struct gomzelat_piece piece = {.k = block_size(plan, r), .fill = r == 0 ? plan->f : 0};
    const size_t rows = rows_of(piece.k), of_buffer = n_ir == 0 ? SIZE_MAX : n_ir / plan->c;
    piece.buffer = 96 * rows;
    piece.places = of_buffer < piece.buffer ? of_buffer : piece.buffer;
    const size_t unit = (size_t)t.nl * t.qm, units = t.g / unit, gamma = units % plan->c;
    piece.bits = unit * (units / plan->c + (r >= plan->c - gamma));
    piece.start = rows * (2 * ((piece.places + 8 * rows - 1) / (8 * rows)) * t.rv + 2);
    return piece;
}

/* The 24 check bits of bits, of which any byte but 0 is a 1 (5.1.1). `generator` is its polynomial without D^24. */
static inline uint32_t crc24_of(const uint8_t *bits, size_t count, uint32_t generator) {
    uint32_t rest = 0;
    for (size_t i = 0; i < count; i++) {
        const uint32_t carry = (rest >> 23 ^ (bits[i] != 0)) & 1;
        rest = (rest << 1 & 0xFFFFFF) ^ (carry ? generator : 0);
    }
    return rest;
}

/* ---- What is refused: each test gives its answer, or 0. */

static inline uint32_t length_refused(size_t length) {
    return length == 0 || length > 18722 ? GOMZELAT_BAD_LENGTH : 0;
}

static inline uint32_t qm_refused(uint32_t qm) { return qm != 2 && qm != 4 && qm != 6 ? GOMZELAT_BAD_QM : 0; }

static inline uint32_t transmission_refused(struct gomzelat_transmission t) {
    if (qm_refused(t.qm)) return GOMZELAT_BAD_QM;
    if (t.nl != 1 && t.nl != 2) return GOMZELAT_BAD_NL;
    if (t.g == 0 || t.g > 1000000 || t.g % (t.nl * t.qm) != 0) return GOMZELAT_BAD_G;
    return t.rv > 3 ? GOMZELAT_BAD_VERSION : 0;
}

/* N_IR / C, rounded down, holds a stream of the largest code block. Asked only of lengths that aren't refused. */
static inline uint32_t buffer_refused(size_t length, uint32_t n_ir) {
    const struct gomzelat_plan plan = plan_of(length);
    return n_ir != 0 && n_ir / plan.c < 32 * rows_of(plan.k_plus) ? GOMZELAT_BAD_BUFFER : 0;
}

static inline uint32_t decoder_refused(uint32_t windows, uint32_t limit) {
    if (windows == 0 || windows > 64) return GOMZELAT_BAD_WINDOWS;
    return limit == 0 || limit > 16 ? GOMZELAT_BAD_LIMIT : 0;
}

/* The first of several answers that isn't 0. */
#define FIRST(...) first_of((const uint32_t[]){__VA_ARGS__}, sizeof(uint32_t[]){__VA_ARGS__} / sizeof(uint32_t))
static inline uint32_t first_of(const uint32_t *answers, size_t count) {
    for (size_t i = 0; i < count; i++)
        if (answers[i]) return answers[i];
    return 0;
}

#endif
