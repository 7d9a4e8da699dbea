/* Memory runs out at each allocation of each call in turn, and from each on: the call answers GOMZELAT_NO_MEMORY, all of
 * the caller's is as it was, and what was taken is given back. The linker puts these functions in the place of malloc,
 * calloc, realloc and free: -Wl,--wrap=malloc and so on. */
#include "expect.h"
#include "standard.h"

#include <stdlib.h>

#define NEVER SIZE_MAX
static size_t taken, refused_at = NEVER, refused_until = NEVER, in_use;

static bool is_refused(void) {
    const size_t number = taken++;
    return refused_at <= number && number < refused_until;
}

void *__real_malloc(size_t), *__real_calloc(size_t, size_t), *__real_realloc(void *, size_t);
void __real_free(void *);
void *__wrap_malloc(size_t), *__wrap_calloc(size_t, size_t), *__wrap_realloc(void *, size_t);
void __wrap_free(void *);

static void *counted(void *made) {
    in_use += made != NULL;
    return made;
}
void *__wrap_malloc(size_t size) { return is_refused() ? NULL : counted(__real_malloc(size)); }
void *__wrap_calloc(size_t count, size_t size) { return is_refused() ? NULL : counted(__real_calloc(count, size)); }
void *__wrap_realloc(void *old, size_t size) {
    if (is_refused()) return NULL;
    void *made = __real_realloc(old, size);
    in_use += made != NULL && old == NULL;
    return made;
}
void __wrap_free(void *old) {
    in_use -= old != NULL;
    __real_free(old);
}

/* Three code blocks of two sizes, and fillers. */
#define LENGTH 1728
#define BITS 24000
static const struct gomzelat_transmission ts[2] = {{2, 1, BITS, 0}, {4, 2, BITS, 2}};
static const struct gomzelat_receiver receiver = {.n_ir = 36000, .windows = 7, .limit = 2};
static const struct gomzelat_channel channel = {.seed = 1, .amp = 40, .noise = 10};
static const struct gomzelat_code code = {.k = 4672, .fill = 32, .check = GOMZELAT_CRC24B};
static const struct gomzelat_scrambling scrambling = {.rnti = 9, .q = 1, .slot = 3, .cell = 5};
static struct gomzelat_point points[4000];
static uint8_t payload[LENGTH], codeword[2][BITS / 8];
static int8_t values[2 * BITS];

/* All that calls write to. */
static struct {
    uint8_t bytes[200000];
    uint32_t words[20000];
    int8_t cells[60000];
    struct gomzelat_result blocks[3];
    struct gomzelat_point points[4000];
    struct gomzelat_plan plan;
    struct gomzelat_piece piece;
    struct gomzelat_sizes sizes;
    struct gomzelat_outcome outcome;
    uint32_t number;
} at, before;

#define CALL(name, ...) \
    static uint32_t call_##name(void) { return gomzelat_##name(__VA_ARGS__); }
CALL(codeword, payload, LENGTH, ts[1], 36000, at.bytes, sizeof at.bytes)
CALL(codewords, payload, LENGTH, ts, 2, 36000, at.bytes, sizeof at.bytes)
CALL(plan, LENGTH, &at.plan)
CALL(code_block, payload, LENGTH, 1, at.bytes, sizeof at.bytes)
CALL(streams, payload, LENGTH, 1, at.bytes, sizeof at.bytes)
CALL(spots, LENGTH, 1, at.words, 20000)
CALL(piece, LENGTH, 1, ts[1], 36000, &at.piece)
CALL(receive, LENGTH, ts, 2, receiver, values, 2 * BITS, at.bytes, sizeof at.bytes, &at.outcome)
CALL(sizes, LENGTH, &at.sizes)
CALL(combine, LENGTH, ts[0], 36000, values, BITS, at.cells, sizeof at.cells)
CALL(decode, LENGTH, receiver, at.cells, sizeof at.cells, at.blocks, 3, at.bytes, 100000, at.bytes + 100000, LENGTH,
     &at.number)
CALL(noisy, codeword[0], BITS / 8, BITS, channel, 0, 0, at.cells, sizeof at.cells)
CALL(trial_payload, 1, 0, at.bytes, LENGTH)
CALL(select, payload, LENGTH, 1, ts[1], 36000, at.bytes, sizeof at.bytes)
CALL(crc24a, payload, LENGTH, at.bytes, sizeof at.bytes)
CALL(crc24b, payload, LENGTH, at.bytes, sizeof at.bytes)
CALL(decode_block, code, 7, 2, values, 3 * (4672 + 4), at.bytes, sizeof at.bytes, at.blocks)
CALL(init, scrambling, &at.number)
CALL(scramble, at.bytes, 5000, 39999, scrambling)
CALL(descramble, at.cells, sizeof at.cells, scrambling)
CALL(map, codeword[0], BITS / 8, BITS, 6, at.points, 4000)
CALL(demap, points, 4000, 6, 30, at.cells, sizeof at.cells)

static const struct {
    const char *name;
    uint32_t (*call)(void);
} calls[] = {
    {"codeword", call_codeword},
    {"codewords", call_codewords},
    {"plan", call_plan},
    {"code_block", call_code_block},
    {"streams", call_streams},
    {"spots", call_spots},
    {"piece", call_piece},
    {"receive", call_receive},
    {"sizes", call_sizes},
    {"combine", call_combine},
    {"decode", call_decode},
    {"noisy", call_noisy},
    {"trial_payload", call_trial_payload},
    {"select", call_select},
    {"crc24a", call_crc24a},
    {"crc24b", call_crc24b},
    {"decode_block", call_decode_block},
    {"init", call_init},
    {"scramble", call_scramble},
    {"descramble", call_descramble},
    {"map", call_map},
    {"demap", call_demap},
};

static void prepare(void) {
    for (size_t i = 0; i < LENGTH; i++) payload[i] = (uint8_t)(i * i + 7 * i);
    for (int t = 0; t < 2; t++) {
        expect("codeword", gomzelat_codeword(payload, LENGTH, ts[t], 36000, codeword[t], BITS / 8), GOMZELAT_DONE);
        expect("noisy", gomzelat_noisy(codeword[t], BITS / 8, BITS, channel, 0, (uint32_t)t, values + t * BITS, BITS),
               GOMZELAT_DONE);
    }
    memset(&at, 0xA5, sizeof at);
    memset(at.cells, 3, sizeof at.cells);
    memset(at.blocks, 0, sizeof at.blocks);
}

/* Calls with the allocations from `first` on refused, as far as `last`. */
static uint32_t refusing(uint32_t (*call)(void), size_t first, size_t last) {
    taken = 0, refused_at = first, refused_until = last;
    const size_t had = in_use;
    const uint32_t answer = call();
    refused_at = refused_until = NEVER;
    expect("memory that isn't given back", in_use, had);
    return answer;
}

int main(void) {
    prepare();
    before = at;
    size_t tried = 0;
    for (size_t i = 0; i < sizeof calls / sizeof *calls; i++) {
        expect(calls[i].name, refusing(calls[i].call, NEVER, NEVER), GOMZELAT_DONE);
        const size_t count = taken;
        at = before;
        for (size_t number = 0; number < count; number++, tried += 2) {
            expect(calls[i].name, refusing(calls[i].call, number, number + 1), GOMZELAT_NO_MEMORY);
            expect(calls[i].name, refusing(calls[i].call, number, NEVER), GOMZELAT_NO_MEMORY);
            expect_bytes(calls[i].name, &at, &before, sizeof at);
        }
        printf("%s: %zu allocations\n", calls[i].name, count);
    }
    printf("%zu calls in which memory ran out\n", tried);
    return failures > 0;
}
