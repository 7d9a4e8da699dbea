/* A worked case: a payload, a transmission and its codeword; and transmissions that are refused. */
#ifndef WORKED_H
#define WORKED_H

#include "expect.h"
#include "gomzelat.h"

#include <stdlib.h>

#define MARK 0xA5
#define LENGTH 2
#define BITS 132

/* The payload 00 01, and its codeword of 132 bits with Q_m = 2, N_L = 1, redundancy version 0 and a full buffer. */
static const uint8_t sent[LENGTH] = {0x00, 0x01};
static const uint8_t codeword[17] = {0x34, 0x94, 0x86, 0x1B, 0x12, 0x04, 0x70, 0xC3, 0x79,
                                     0x90, 0x10, 0x15, 0x04, 0x2D, 0x49, 0x88, 0x90};
static const struct gomzelat_transmission good = {.qm = 2, .nl = 1, .g = BITS, .rv = 0};
static const uint8_t many[GOMZELAT_MOST_BYTES + 1];

/* Transmissions with one bad number, and what is answered. */
static const struct {
    struct gomzelat_transmission transmission;
    uint32_t answer;
} bad_transmissions[] = {
    {{0, 1, BITS, 0}, GOMZELAT_BAD_QM},          {{3, 1, BITS, 0}, GOMZELAT_BAD_QM},
    {{256 + 2, 1, BITS, 0}, GOMZELAT_BAD_QM},    {{UINT32_MAX, 9, 0, 9}, GOMZELAT_BAD_QM},
    {{2, 0, BITS, 0}, GOMZELAT_BAD_NL},          {{2, 3, BITS, 0}, GOMZELAT_BAD_NL},
    {{2, 256 + 1, BITS, 0}, GOMZELAT_BAD_NL},    {{2, UINT32_MAX, 0, 9}, GOMZELAT_BAD_NL},
    {{2, 1, 0, 0}, GOMZELAT_BAD_G},              {{2, 1, BITS + 1, 0}, GOMZELAT_BAD_G},
    {{6, 2, BITS + 6, 0}, GOMZELAT_BAD_G},       {{2, 1, GOMZELAT_MOST_BITS + 2, 0}, GOMZELAT_BAD_G},
    {{2, 1, UINT32_MAX - 1, 9}, GOMZELAT_BAD_G}, {{2, 1, BITS, 4}, GOMZELAT_BAD_VERSION},
    {{2, 1, BITS, 256}, GOMZELAT_BAD_VERSION},   {{2, 1, BITS, UINT32_MAX}, GOMZELAT_BAD_VERSION},
};

#define COUNT(table) (sizeof(table) / sizeof *(table))

#endif
