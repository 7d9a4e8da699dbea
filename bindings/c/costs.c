/* How much stack and how much of malloc's memory each call takes at most, for the largest payload, transmissions and
 * numbers of windows: the figures of gomzelat.h. One reception is that of 9,422 bytes and 90,000 bits. Link with -Wl,--wrap=malloc,--wrap=realloc,--wrap=free. */
#include "gomzelat.h"

#include <malloc.h>
#include <pthread.h>
#include <stdio.h>
#include <stdlib.h>
#include <string.h>

#define STACK ((size_t)1 << 20)
#define PAINT 0xA5
#define MOST GOMZELAT_MOST_TRANSMISSIONS
#define LENGTH GOMZELAT_MOST_BYTES
#define BITS 999996

static size_t in_use, most_in_use;
void *__real_malloc(size_t), *__real_realloc(void *, size_t);
void __real_free(void *);
void *__wrap_malloc(size_t), *__wrap_realloc(void *, size_t);
void __wrap_free(void *);

static void *counted(void *made) {
    in_use += malloc_usable_size(made);
    if (in_use > most_in_use) most_in_use = in_use;
    return made;
}
void *__wrap_malloc(size_t size) { return counted(__real_malloc(size)); }
/* Both may be there while the old one is copied. */
void *__wrap_realloc(void *old, size_t size) {
    const size_t had = malloc_usable_size(old);
    if (in_use + size > most_in_use) most_in_use = in_use + size;
    in_use -= had;
    return counted(__real_realloc(old, size));
}
void __wrap_free(void *old) {
    in_use -= malloc_usable_size(old);
    __real_free(old);
}

static uint8_t payload[LENGTH], packed[MOST * GOMZELAT_BYTES(BITS)], got[LENGTH], bytes[1 << 20];
static uint32_t words[65536];
static struct gomzelat_point points[BITS / 6];
static int8_t values[MOST * (size_t)BITS], cells[GOMZELAT_MOST_CELLS];
static struct gomzelat_result blocks[GOMZELAT_MOST_BLOCKS];
static struct gomzelat_transmission ts[MOST];
static struct gomzelat_receiver receiver = {.n_ir = 0, .windows = 8, .limit = 2};

static void codeword(void) { gomzelat_codeword(payload, LENGTH, ts[0], 0, packed, sizeof packed); }
static void codewords(void) { gomzelat_codewords(payload, LENGTH, ts, MOST, 0, packed, sizeof packed); }
static void select_bits(void) { gomzelat_select(payload, LENGTH, 1, ts[0], 0, bytes, sizeof bytes); }
static void crc24a(void) { gomzelat_crc24a(bytes, 149776, got, LENGTH); }
static void decode_block(void) {
    const struct gomzelat_code block = {.k = 6144, .fill = 0, .check = GOMZELAT_CRC24B};
    gomzelat_decode_block(block, receiver.windows, 2, values, 3 * (6144 + 4), bytes, sizeof bytes, blocks);
}
static const struct gomzelat_scrambling scrambling = {.rnti = 1, .q = 0, .slot = 2, .cell = 3};
static void scramble(void) { gomzelat_scramble(packed, sizeof packed, BITS, scrambling); }
static void descramble(void) { gomzelat_descramble(values, BITS, scrambling); }
static void map(void) { gomzelat_map(packed, sizeof packed, BITS, 6, points, BITS / 6); }
static void demap(void) { gomzelat_demap(points, BITS / 6, 6, 40, values, BITS); }
static void code_block(void) { gomzelat_code_block(payload, LENGTH, 1, bytes, sizeof bytes); }
static void streams(void) { gomzelat_streams(payload, LENGTH, 1, bytes, sizeof bytes); }
static void spots(void) { gomzelat_spots(LENGTH, 1, words, 65536); }
static void receive(void) {
    struct gomzelat_outcome outcome;
    gomzelat_receive(LENGTH, ts, MOST, receiver, values, sizeof values, got, LENGTH, &outcome);
}
static void receive_one(void) {
    const struct gomzelat_transmission one = {.qm = 6, .nl = 1, .g = 90000, .rv = 0};
    struct gomzelat_outcome outcome;
    gomzelat_receive(9422, &one, 1, receiver, values, one.g, got, LENGTH, &outcome);
}
static void combine(void) { gomzelat_combine(LENGTH, ts[0], 0, values, BITS, cells, sizeof cells); }
static void decode(void) {
    uint32_t delivered;
    memset(blocks, 0, sizeof blocks);
    gomzelat_decode(LENGTH, receiver, cells, sizeof cells, blocks, GOMZELAT_MOST_BLOCKS, bytes, sizeof bytes, got,
                    LENGTH, &delivered);
}
static void noisy(void) {
    const struct gomzelat_channel channel = {.seed = 1, .amp = 40, .noise = 40};
    gomzelat_noisy(packed, sizeof packed, BITS, channel, 0, 0, values, BITS);
}
static void trial_payload(void) { gomzelat_trial_payload(1, 0, got, LENGTH); }

static const struct {
    const char *name;
    void (*call)(void);
} calls[] = {
    {"codeword", codeword},
    {"codewords", codewords},
    {"code_block", code_block},
    {"streams", streams},
    {"spots", spots},
    {"select", select_bits},
    {"crc24a", crc24a},
    {"receive", receive},
    {"receive one", receive_one},
    {"combine", combine},
    {"decode", decode},
    {"decode_block", decode_block},
    {"noisy", noisy},
    {"trial_payload", trial_payload},
    {"scramble", scramble},
    {"descramble", descramble},
    {"map", map},
    {"demap", demap},
};

static void *nothing(void *unused) { return unused; }
static void *run(void *call) {
    (*(void (**)(void))call)();
    return NULL;
}

/* How deep a thread went into a stack that was painted before. */
static size_t stack_of(void *(*body)(void *), void *argument) {
    static uint8_t *stack;
    pthread_attr_t attributes;
    pthread_t thread;
    if (!stack && posix_memalign((void **)&stack, 4096, STACK) != 0) exit(1);
    memset(stack, PAINT, STACK);
    pthread_attr_init(&attributes);
    pthread_attr_setstack(&attributes, stack, STACK);
    if (pthread_create(&thread, &attributes, body, argument) != 0) exit(1);
    pthread_join(thread, NULL);
    size_t untouched = 0;
    while (untouched < STACK && stack[untouched] == PAINT) untouched++;
    return STACK - untouched;
}

int main(void) {
    for (size_t i = 0; i < LENGTH; i++) payload[i] = (uint8_t)(i * i + 7 * i);
    for (uint32_t t = 0; t < MOST; t++) ts[t] = (struct gomzelat_transmission){.qm = 6, .nl = 2, .g = BITS, .rv = t % 4};
    for (size_t i = 0; i < sizeof values; i++) values[i] = (int8_t)(i % 7 - 3);
    const size_t empty = stack_of(nothing, NULL);
    for (size_t i = 0; i < sizeof calls / sizeof *calls; i++) {
        size_t deepest = 0, most = 0;
        for (size_t n = 0; n < 5; n++) {
            receiver.windows = (const uint32_t[]){7, 8, 16, 32, 64}[n];
            most_in_use = in_use;
            const size_t before = in_use, deep = stack_of(run, (void *)&calls[i].call) - empty;
            if (deep > deepest) deepest = deep;
            if (most_in_use - before > most) most = most_in_use - before;
        }
        printf("%-14s stack %6zu bytes, malloc %9zu bytes\n", calls[i].name, deepest, most);
    }
    return 0;
}
