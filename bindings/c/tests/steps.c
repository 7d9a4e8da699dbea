/* Receptions call by call come to what gomzelat_receive tells of the same transmissions, transport block after transport
 * block, over noise at which some are delivered and some not. Prints how many, and ends with 1 where something differs. */
#include "gomzelat.h"

#include <stdio.h>
#include <stdlib.h>
#include <string.h>

#define MOST 4
static int8_t cells[GOMZELAT_MOST_CELLS + 3];
static struct gomzelat_result blocks[GOMZELAT_MOST_BLOCKS + 1];
static uint8_t bits[GOMZELAT_MOST_BLOCK_BITS + 3];
static uint8_t payload[GOMZELAT_MOST_BYTES + 3], got[GOMZELAT_MOST_BYTES + 3], whole[GOMZELAT_MOST_BYTES];
static uint8_t sent[GOMZELAT_BYTES(GOMZELAT_MOST_BITS)];
static int8_t values[MOST * (size_t)400000];

static void must(const char *what, uint32_t answer) {
    if (answer != GOMZELAT_DONE) {
        printf("%s: %s\n", what, gomzelat_text(answer));
        exit(1);
    }
}

static int differ(const char *what, size_t a, size_t b) {
    if (a != b) printf("%s: %zu, and not %zu\n", what, a, b);
    return a != b;
}

static unsigned long long state = 1;
static unsigned next(unsigned below) {
    state = state * 6364136223846793005ULL + 1442695040888963407ULL;
    return (unsigned)(state >> 33) % below;
}

int main(int argc, char **argv) {
    const unsigned rounds = argc > 1 ? (unsigned)atoi(argv[1]) : 200;
    unsigned delivered_count = 0, tries = 0, failed_blocks = 0, bit_errors = 0, wrong = 0;
    for (unsigned round = 0; round < rounds; round++) {
        size_t length = next(8) == 0 ? 1 + next(GOMZELAT_MOST_BYTES) : 1 + next(1800);
        struct gomzelat_plan plan;
        struct gomzelat_sizes sizes;
        must("plan", gomzelat_plan(length, &plan));
        must("sizes", gomzelat_sizes(length, &sizes));
        if (differ("blocks", sizes.blocks, plan.c) ||
            differ("bits", sizes.bits, plan.c_minus * plan.k_minus + plan.c_plus * plan.k_plus) ||
            differ("cells", sizes.cells, 3 * (sizes.bits + 4 * plan.c)))
            return 1;
        must("payload", gomzelat_trial_payload(round, 0, payload, length));
        const unsigned count = 1 + next(MOST);
        const uint32_t n_ir = next(2) ? 0 : (uint32_t)(plan.c * 3 * (plan.k_plus + 36) * 3 / 4);
        const uint32_t windows[] = {1, 8, 16, 32, 5, 64};
        const struct gomzelat_receiver receiver = {.n_ir = n_ir, .windows = windows[next(6)], .limit = 1 + next(8)};
        const struct gomzelat_channel channel = {.seed = round, .amp = 20, .noise = 10 + next(30)};
        struct gomzelat_transmission ts[MOST];
        size_t amount = 0;
        for (unsigned i = 0; i < count; i++) {
            uint32_t qm = 2 * (1 + next(3)), nl = 1 + next(2), unit = qm * nl;
            uint32_t g = (uint32_t)(8 * length + 24 + next((unsigned)(8 * length + 100)));
            ts[i] = (struct gomzelat_transmission){.qm = qm, .nl = nl, .g = (g + unit - 1) / unit * unit, .rv = next(4)};
            must("codeword", gomzelat_codeword(payload, length, ts[i], n_ir, sent, sizeof sent));
            must("noisy", gomzelat_noisy(sent, sizeof sent, ts[i].g, channel, 0, i, values + amount, sizeof values - amount));
            amount += ts[i].g;
        }
        struct gomzelat_outcome outcome;
        must("receive", gomzelat_receive(length, ts, count, receiver, values, amount, whole, sizeof whole, &outcome));

        memset(cells, 0, sizeof cells);
        memset(blocks, 0, sizeof blocks);
        memset(bits, 0, sizeof bits);
        cells[sizes.cells] = 77;
        blocks[sizes.blocks].iterations = 77;
        bits[sizes.bits] = 77;
        got[length] = 77;
        uint32_t delivered = 0;
        size_t taken = 0, at = 0, iterations = 0;
        while (taken < count && !delivered) {
            must("combine", gomzelat_combine(length, ts[taken], n_ir, values + at, ts[taken].g, cells, sizeof cells));
            must("decode", gomzelat_decode(length, receiver, cells, sizeof cells, blocks, sizeof blocks / sizeof *blocks,
                                           bits, sizeof bits, got, sizeof got, &delivered));
            at += ts[taken].g;
            taken++;
            tries++;
            iterations = 0;
            for (size_t r = 0; r < plan.c; r++) {
                iterations += blocks[r].iterations;
                failed_blocks += !blocks[r].passed;
            }
        }
        if (!delivered)
            for (size_t i = 0; i < length; i++) bit_errors += (unsigned)__builtin_popcount(got[i] ^ payload[i]);
        wrong += (unsigned)(differ("delivered", delivered, outcome.delivered) | differ("transmissions", taken, outcome.transmissions) |
                            differ("iterations", iterations, outcome.iterations));
        if (delivered && memcmp(got, whole, length) != 0) wrong++, printf("other bytes\n");
        if (cells[sizes.cells] != 77 || blocks[sizes.blocks].iterations != 77 || bits[sizes.bits] != 77 || got[length] != 77)
            wrong++, printf("more was written\n");
        delivered_count += delivered;
    }
    printf("%u of %u delivered in %u tries, %u code blocks failed, %u bit errors in what wasn't delivered, %u differ\n",
           delivered_count, rounds, tries, failed_blocks, bit_errors, wrong);
    return wrong != 0;
}
