/* A text is sent at two redundancy versions through noise, and received. */
#include "gomzelat.h"

#include <stdio.h>
#include <string.h>

#define BITS 528

int main(void) {
    static const char text[] = "One transport block, in two transmissions.";
    const uint8_t *sent = (const uint8_t *)text;
    const size_t length = sizeof text - 1;
    const struct gomzelat_transmission transmissions[2] = {{2, 1, BITS, 0}, {2, 1, BITS, 2}};
    const struct gomzelat_channel channel = {.seed = 1, .amp = 40, .noise = 40};
    const struct gomzelat_receiver receiver = {.n_ir = 0, .windows = 8, .limit = 8};

    int8_t values[2 * BITS];
    for (uint32_t i = 0; i < 2; i++) {
        uint8_t bits[GOMZELAT_BYTES(BITS)];
        uint32_t answer = gomzelat_codeword(sent, length, transmissions[i], 0, bits, sizeof bits);
        if (answer == GOMZELAT_DONE)
            answer = gomzelat_noisy(bits, sizeof bits, BITS, channel, 0, i, values + BITS * i, BITS);
        if (answer != GOMZELAT_DONE) {
            fprintf(stderr, "transmission %u: refused with %u\n", (unsigned)i, (unsigned)answer);
            return 1;
        }
    }

    uint8_t payload[sizeof text - 1];
    struct gomzelat_outcome outcome;
    uint32_t answer = gomzelat_receive(length, transmissions, 2, receiver, values, sizeof values, payload,
                                       sizeof payload, &outcome);
    if (answer != GOMZELAT_DONE) {
        fprintf(stderr, "reception: refused with %u\n", (unsigned)answer);
        return 1;
    }
    printf("%s after %zu transmissions and %zu iterations, as it was sent: %s\n",
           outcome.delivered ? "delivered" : "failed", outcome.transmissions, outcome.iterations,
           outcome.delivered && memcmp(payload, sent, length) == 0 ? "yes" : "no");
    return 0;
}
