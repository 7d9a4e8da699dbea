/* Several threads call at once, with buffers of their own and inputs that they share: each comes to what one thread came
 * to before. For helgrind's or ThreadSanitizer's eyes. */
#include "expect.h"
#include "gomzelat.h"

#include <pthread.h>

#define THREADS 4
#define ROUNDS 3
#define LENGTH 400
#define BITS 6000
static const struct gomzelat_transmission ts[2] = {{2, 1, BITS, 0}, {4, 2, BITS, 2}};
static const struct gomzelat_receiver receiver = {.n_ir = 0, .windows = 8, .limit = 4};
static const struct gomzelat_channel channel = {.seed = 1, .amp = 40, .noise = 60};
static uint8_t payload[LENGTH];
static int8_t shared_values[2 * BITS];

/* What one thread makes of the shared inputs. */
struct made {
    uint8_t codeword[2][BITS / 8], streams[12000], got[LENGTH], again[LENGTH], bits[6144];
    int8_t values[BITS], cells[18444];
    struct gomzelat_plan plan;
    struct gomzelat_outcome outcome;
    struct gomzelat_result block;
    uint32_t answers, delivered;
};

static void make(struct made *made) {
    memset(made, 0, sizeof *made);
    for (uint32_t t = 0; t < 2; t++)
        made->answers += gomzelat_codeword(payload, LENGTH, ts[t], 0, made->codeword[t], BITS / 8);
    made->answers += gomzelat_noisy(made->codeword[1], BITS / 8, BITS, channel, 0, 1, made->values, BITS);
    made->answers += gomzelat_plan(LENGTH, &made->plan);
    made->answers += gomzelat_streams(payload, LENGTH, 0, made->streams, sizeof made->streams);
    made->answers += gomzelat_receive(LENGTH, ts, 2, receiver, shared_values, 2 * BITS, made->got, LENGTH, &made->outcome);
    for (int t = 0; t < 2; t++) {
        made->answers += gomzelat_combine(LENGTH, ts[t], 0, shared_values + t * BITS, BITS, made->cells, sizeof made->cells);
        made->answers += gomzelat_decode(LENGTH, receiver, made->cells, sizeof made->cells, &made->block, 1, made->bits,
                                         sizeof made->bits, made->again, LENGTH, &made->delivered);
    }
}

static struct made alone, of_threads[THREADS];

static void *run(void *made) {
    for (int round = 0; round < ROUNDS; round++) make(made);
    return NULL;
}

int main(void) {
    for (size_t i = 0; i < LENGTH; i++) payload[i] = (uint8_t)(i * i + 7 * i);
    for (uint32_t t = 0; t < 2; t++) {
        uint8_t codeword[BITS / 8];
        expect("codeword", gomzelat_codeword(payload, LENGTH, ts[t], 0, codeword, sizeof codeword), GOMZELAT_DONE);
        expect("noisy", gomzelat_noisy(codeword, sizeof codeword, BITS, channel, 0, t, shared_values + t * BITS, BITS),
               GOMZELAT_DONE);
    }
    make(&alone);
    expect("all is done", alone.answers, GOMZELAT_DONE);
    pthread_t threads[THREADS];
    for (int i = 0; i < THREADS; i++)
        expect("a thread", (size_t)pthread_create(&threads[i], NULL, run, &of_threads[i]), 0);
    for (int i = 0; i < THREADS; i++) {
        pthread_join(threads[i], NULL);
        expect_bytes("a thread's", &of_threads[i], &alone, sizeof alone);
    }
    return failures > 0;
}
