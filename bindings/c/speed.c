/* How many codewords, and how many receptions, one thread makes in a second of its processor's time. The blocks are
 * those of docs/MEASURING.md: 9,422 bytes, with G = 90,000 sent, and with G = 82,800 received in so much noise that
 * none is delivered, so that all iterations are made. And what one transmission more costs, call by call and by a
 * reception from the beginning. */
#include "gomzelat.h"

#include <stdio.h>
#include <time.h>

#define LENGTH 9422
#define SENT_BITS 90000
#define RECEIVED_BITS 82800
#define SECONDS 5

static uint8_t payload[LENGTH], got[LENGTH], bits[GOMZELAT_BYTES(SENT_BITS)];
static int8_t values[RECEIVED_BITS];

static double seconds_since(clock_t begin) { return (double)(clock() - begin) / CLOCKS_PER_SEC; }

static uint32_t send(uint32_t g, uint32_t n_ir) {
    const struct gomzelat_transmission transmission = {.qm = 6, .nl = 1, .g = g, .rv = 0};
    return gomzelat_codeword(payload, LENGTH, transmission, n_ir, bits, sizeof bits);
}

static uint32_t receive(uint32_t windows) {
    const struct gomzelat_transmission transmission = {.qm = 6, .nl = 1, .g = RECEIVED_BITS, .rv = 0};
    const struct gomzelat_receiver receiver = {.n_ir = 77328, .windows = windows, .limit = 8};
    struct gomzelat_outcome outcome;
    uint32_t answer =
        gomzelat_receive(LENGTH, &transmission, 1, receiver, values, RECEIVED_BITS, got, LENGTH, &outcome);
    return answer != GOMZELAT_DONE ? answer : outcome.delivered;
}

#define MOST 8
static int8_t all_values[MOST * RECEIVED_BITS], cells[GOMZELAT_MOST_CELLS];
static struct gomzelat_result blocks[GOMZELAT_MOST_BLOCKS];
static uint8_t decided[GOMZELAT_MOST_BLOCK_BITS];
static struct gomzelat_transmission sent[MOST];
static const struct gomzelat_receiver receiver = {.n_ir = 0, .windows = 8, .limit = 8};

/* Milliseconds of a reception of the first `count` transmissions. */
static double at_once(size_t count) {
    struct gomzelat_outcome outcome;
    const clock_t begin = clock();
    gomzelat_receive(LENGTH, sent, count, receiver, all_values, count * RECEIVED_BITS, got, LENGTH, &outcome);
    return 1000 * seconds_since(begin);
}

/* Milliseconds of adding transmission `number` and of a try. */
static double one_more(size_t number, uint32_t *delivered) {
    const clock_t begin = clock();
    gomzelat_combine(LENGTH, sent[number], 0, all_values + number * RECEIVED_BITS, RECEIVED_BITS, cells, sizeof cells);
    gomzelat_decode(LENGTH, receiver, cells, sizeof cells, blocks, GOMZELAT_MOST_BLOCKS, decided, sizeof decided, got,
                    LENGTH, delivered);
    return 1000 * seconds_since(begin);
}

/* Transmissions in so much noise that some come through only together. */
static uint32_t one_after_the_other(void) {
    const struct gomzelat_channel channel = {.seed = 1, .amp = 8, .noise = 14};
    uint32_t answer = GOMZELAT_DONE, delivered = 0;
    for (uint32_t t = 0; t < MOST && answer == GOMZELAT_DONE; t++) {
        sent[t] = (struct gomzelat_transmission){.qm = 6, .nl = 1, .g = RECEIVED_BITS, .rv = (uint32_t[]){0, 2, 3, 1}[t % 4]};
        answer = gomzelat_codeword(payload, LENGTH, sent[t], 0, bits, sizeof bits);
        if (answer == GOMZELAT_DONE)
            answer = gomzelat_noisy(bits, sizeof bits, RECEIVED_BITS, channel, 0, t, all_values + t * RECEIVED_BITS,
                                    RECEIVED_BITS);
    }
    double so_far = 0, again = 0;
    for (size_t t = 0; t < MOST && answer == GOMZELAT_DONE && !delivered; t++) {
        const double more = one_more(t, &delivered), whole = at_once(t + 1);
        so_far += more;
        again += whole;
        printf("transmission %zu: %.1f ms more, %.1f ms from the beginning; all so far %.1f and %.1f\n", t + 1, more,
               whole, so_far, again);
    }
    return answer;
}

int main(void) {
    if (gomzelat_trial_payload(1, 0, payload, LENGTH) != GOMZELAT_DONE)
        return 1;

    size_t codewords = 0;
    clock_t begin = clock();
    for (; seconds_since(begin) < SECONDS; codewords++)
        if (send(SENT_BITS, 0) != GOMZELAT_DONE)
            return 1;
    double rate = (double)codewords / seconds_since(begin);
    printf("%.1f codewords a second, %.1f Mbit/s\n", rate, rate * 8 * LENGTH / 1e6);

    const struct gomzelat_channel channel = {.seed = 1, .amp = 30, .noise = 60};
    if (send(RECEIVED_BITS, 77328) != GOMZELAT_DONE ||
        gomzelat_noisy(bits, sizeof bits, RECEIVED_BITS, channel, 0, 0, values, RECEIVED_BITS) != GOMZELAT_DONE)
        return 1;
    for (uint32_t windows = 7; windows <= 8; windows++) {
        size_t receptions = 0;
        begin = clock();
        for (; seconds_since(begin) < SECONDS; receptions++)
            if (receive(windows) != GOMZELAT_DONE)
                return 1;
        printf("%.2f receptions a second in at most %u windows\n", (double)receptions / seconds_since(begin),
               (unsigned)windows);
    }
    return one_after_the_other() != GOMZELAT_DONE;
}
