/* The structures of the header lie in memory as those of the library: sizes and offsets by assertions, and by calls in
 * which all fields of a structure differ, so that two that are exchanged give something else. */
#include "expect.h"
#include "standard.h"

#include <stdlib.h>

#define AT(type, field, offset) _Static_assert(offsetof(struct gomzelat_##type, field) == (offset), #type "." #field)
#define SIZE(type, size) _Static_assert(sizeof(struct gomzelat_##type) == (size), #type)

_Static_assert(sizeof(size_t) == 8, "64 bits");

SIZE(transmission, 16);
AT(transmission, qm, 0);
AT(transmission, nl, 4);
AT(transmission, g, 8);
AT(transmission, rv, 12);
SIZE(plan, 48);
AT(plan, c, 0);
AT(plan, k_plus, 8);
AT(plan, k_minus, 16);
AT(plan, c_plus, 24);
AT(plan, c_minus, 32);
AT(plan, f, 40);
SIZE(receiver, 12);
AT(receiver, n_ir, 0);
AT(receiver, windows, 4);
AT(receiver, limit, 8);
SIZE(outcome, 24);
AT(outcome, delivered, 0);
AT(outcome, transmissions, 8);
AT(outcome, iterations, 16);
SIZE(sizes, 24);
AT(sizes, cells, 0);
AT(sizes, blocks, 8);
AT(sizes, bits, 16);
SIZE(result, 16);
AT(result, passed, 0);
AT(result, iterations, 8);
SIZE(piece, 48);
AT(piece, k, 0);
AT(piece, fill, 8);
AT(piece, buffer, 16);
AT(piece, places, 24);
AT(piece, start, 32);
AT(piece, bits, 40);
SIZE(code, 24);
AT(code, k, 0);
AT(code, fill, 8);
AT(code, check, 16);
SIZE(scrambling, 16);
AT(scrambling, rnti, 0);
AT(scrambling, q, 4);
AT(scrambling, slot, 8);
AT(scrambling, cell, 12);
SIZE(point, 8);
AT(point, i, 0);
AT(point, q, 4);
SIZE(channel, 16);
AT(channel, seed, 0);
AT(channel, amp, 8);
AT(channel, noise, 12);

/* Three code blocks of two sizes, and fillers. */
#define LENGTH 1728
#define LIMIT 5
#define N_IR 36000
static const struct gomzelat_transmission first = {.qm = 4, .nl = 2, .g = 20000, .rv = 3};
static const struct gomzelat_receiver receiver = {.n_ir = N_IR, .windows = 7, .limit = LIMIT};

static uint8_t payload[LENGTH], got[LENGTH], packed[2500], bits[20000];
static int8_t values[40000], cells[60000];

static void structures_that_are_written(void) {
    const struct gomzelat_plan due = plan_of(LENGTH);
    struct gomzelat_plan plan;
    expect("plan", gomzelat_plan(LENGTH, &plan), GOMZELAT_DONE);
    expect_bytes("the plan", &plan, &due, sizeof plan);
    struct gomzelat_sizes sizes;
    expect("sizes", gomzelat_sizes(LENGTH, &sizes), GOMZELAT_DONE);
    const struct gomzelat_sizes wanted = {3 * (all_bits(&due) + 4 * due.c), due.c, all_bits(&due)};
    expect_bytes("the sizes", &sizes, &wanted, sizeof sizes);
    struct gomzelat_piece piece;
    const struct gomzelat_piece sent = piece_of(&due, 0, first, N_IR);
    expect("piece", gomzelat_piece(LENGTH, 0, first, N_IR, &piece), GOMZELAT_DONE);
    expect_bytes("the piece", &piece, &sent, sizeof piece);
}

/* The first transmission is received upside down, so that no block passes in all iterations that there may be; the
 * second, much stronger, is right. */
static void make_values(struct gomzelat_transmission ts[2]) {
    for (int t = 0; t < 2; t++) {
        expect("codeword", gomzelat_codeword(payload, LENGTH, ts[t], N_IR, packed, sizeof packed), GOMZELAT_DONE);
        for (size_t i = 0; i < 20000; i++) {
            const int bit = packed[i / 8] >> (7 - i % 8) & 1;
            values[20000 * t + i] = (int8_t)(t == 0 ? (bit ? 3 : -3) : bit ? -100 : 100);
        }
    }
}

static void receptions(void) {
    struct gomzelat_transmission ts[2] = {first, {.qm = 2, .nl = 1, .g = 20000, .rv = 0}};
    make_values(ts);
    struct gomzelat_outcome outcome;
    expect("receive", gomzelat_receive(LENGTH, ts, 2, receiver, values, 40000, got, LENGTH, &outcome), GOMZELAT_DONE);
    expect("delivered", outcome.delivered, 1);
    expect("transmissions", outcome.transmissions, 2);
    expect("iterations, one a code block", outcome.iterations, 3);
    expect_bytes("the payload", got, payload, LENGTH);

    struct gomzelat_result blocks[3] = {{0, 0}, {0, 0}, {0, 0}};
    uint32_t delivered;
    expect("combine", gomzelat_combine(LENGTH, first, N_IR, values, 20000, cells, sizeof cells), GOMZELAT_DONE);
    expect("decode", gomzelat_decode(LENGTH, receiver, cells, sizeof cells, blocks, 3, bits, sizeof bits, got, LENGTH,
                                     &delivered), GOMZELAT_DONE);
    expect("no block passed", blocks[0].passed + blocks[1].passed + blocks[2].passed + delivered, 0);
    for (int r = 0; r < 3; r++) expect("iterations of a block that failed", blocks[r].iterations, LIMIT);
}

/* A number that is refused in one field alone. */
static void structures_that_are_read(void) {
    const struct gomzelat_receiver ones[] = {{1, 7, 5}, {0, 65, 5}, {0, 7, 17}};
    const uint32_t answers[] = {GOMZELAT_BAD_BUFFER, GOMZELAT_BAD_WINDOWS, GOMZELAT_BAD_LIMIT};
    for (int i = 0; i < 3; i++)
        expect("a receiver's number", gomzelat_decode(1, ones[i], NULL, 0, NULL, 0, NULL, 0, NULL, 0, NULL), answers[i]);
    const struct gomzelat_channel channels[] = {{1, 0, 5}, {0, 1, 128}};
    expect("an amplitude", gomzelat_noisy(NULL, 0, 0, channels[0], 0, 0, NULL, 0), GOMZELAT_BAD_AMP);
    expect("noise", gomzelat_noisy(NULL, 0, 0, channels[1], 0, 0, NULL, 0), GOMZELAT_BAD_NOISE);
    const struct gomzelat_transmission ts[] = {{5, 1, 2, 0}, {2, 5, 2, 0}, {2, 1, 5, 0}, {2, 1, 2, 5}};
    for (uint32_t i = 0; i < 4; i++)
        expect("a transmission's number", gomzelat_codeword(payload, 1, ts[i], 0, NULL, 0), GOMZELAT_BAD_QM + i);
}

int main(void) {
    for (size_t i = 0; i < LENGTH; i++) payload[i] = (uint8_t)(i * i + 7 * i);
    structures_that_are_written();
    receptions();
    structures_that_are_read();
    return failures > 0;
}
