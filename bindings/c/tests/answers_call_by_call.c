/* Bad input of a reception call by call gets its answer and changes nothing, and good input gives worked values. */
#include "worked.h"

static void sizes(void) {
    struct gomzelat_sizes of = {.cells = MARK, .blocks = MARK, .bits = MARK};
    expect("sizes of nothing", gomzelat_sizes(0, &of), GOMZELAT_BAD_LENGTH);
    expect("sizes of too much", gomzelat_sizes(GOMZELAT_MOST_BYTES + 1, &of), GOMZELAT_BAD_LENGTH);
    expect("kept sizes", of.cells + of.blocks + of.bits, 3 * MARK);
    expect("sizes", gomzelat_sizes(LENGTH, &of), GOMZELAT_DONE);
    expect("cells", of.cells, 132);
    expect("blocks", of.blocks, 1);
    expect("bits", of.bits, 40);
    expect("longest sizes", gomzelat_sizes(GOMZELAT_MOST_BYTES, &of), GOMZELAT_DONE);
    expect("most cells", of.cells, GOMZELAT_MOST_CELLS);
    expect("most blocks", of.blocks, GOMZELAT_MOST_BLOCKS);
    expect("most bits", of.bits, GOMZELAT_MOST_BLOCK_BITS);
}

static int8_t sent_values[BITS];

static void combinations(void) {
    int8_t cells[134], kept[134];
    for (size_t i = 0; i < BITS; i++) sent_values[i] = codeword[i / 8] >> (7 - i % 8) & 1 ? -100 : 100;
    memset(cells, 5, sizeof cells);
    memset(kept, 5, sizeof kept);

    expect("combining nothing", gomzelat_combine(0, good, 0, sent_values, BITS, cells, 134), GOMZELAT_BAD_LENGTH);
    for (size_t i = 0; i < COUNT(bad_transmissions); i++)
        expect("combining a bad transmission",
               gomzelat_combine(LENGTH, bad_transmissions[i].transmission, 1, NULL, 0, NULL, 0),
               bad_transmissions[i].answer);
    expect("combining in a small buffer", gomzelat_combine(LENGTH, good, 63, NULL, 0, NULL, 0), GOMZELAT_BAD_BUFFER);
    expect("combining few values", gomzelat_combine(LENGTH, good, 0, sent_values, BITS - 1, NULL, 0), GOMZELAT_BAD_VALUES);
    expect("combining with few cells", gomzelat_combine(LENGTH, good, 0, sent_values, BITS, cells, 131),
           GOMZELAT_SHORT_CELLS);
    expect_bytes("cells of what is refused", cells, kept, sizeof cells);

    memset(cells, 0, 132);
    cells[0] = -128;
    expect("combining", gomzelat_combine(LENGTH, good, 0, sent_values, BITS, cells, 134), GOMZELAT_DONE);
    int64_t sum = 0, cell_sum = cells[0] + 127; /* the cell at 0 began at -127 */
    for (size_t i = 0; i < BITS; i++) sum += sent_values[i];
    for (size_t i = 1; i < 132; i++) cell_sum += cells[i];
    expect("each value in its cell", (size_t)cell_sum, (size_t)sum);
    expect_bytes("cells past the last", cells + 132, kept, 2);
    expect("combining again", gomzelat_combine(LENGTH, good, 0, sent_values, BITS, cells, 132), GOMZELAT_DONE);
    for (size_t i = 1; i < 132; i++) expect("a cell that is full", (size_t)abs(cells[i]), 127);
}

static void decodings(void) {
    const struct gomzelat_receiver r = {.n_ir = 0, .windows = 8, .limit = 4};
    struct gomzelat_receiver bad = r;
    int8_t cells[132] = {0};
    struct gomzelat_result blocks[2] = {{0, 0}, {MARK, MARK}};
    uint8_t bits[41] = {0}, payload[3] = {MARK, MARK, MARK};
    uint32_t delivered = MARK;
    bits[40] = MARK;
    expect("soft cells", gomzelat_combine(LENGTH, good, 0, sent_values, BITS, cells, 132), GOMZELAT_DONE);

    expect("decoding nothing", gomzelat_decode(0, r, cells, 132, blocks, 1, bits, 40, payload, 2, &delivered),
           GOMZELAT_BAD_LENGTH);
    bad.n_ir = 63;
    expect("decoding from a small buffer",
           gomzelat_decode(LENGTH, bad, NULL, 0, NULL, 0, NULL, 0, NULL, 0, &delivered), GOMZELAT_BAD_BUFFER);
    for (uint32_t i = 0; i < 3; i++) {
        bad = r;
        bad.windows = (uint32_t[]){0, 65, 256 + 8}[i];
        expect("decoding in bad windows",
               gomzelat_decode(LENGTH, bad, NULL, 0, NULL, 0, NULL, 0, NULL, 0, &delivered), GOMZELAT_BAD_WINDOWS);
        bad = r;
        bad.limit = (uint32_t[]){0, 17, 256 + 8}[i];
        expect("decoding with a bad limit",
               gomzelat_decode(LENGTH, bad, NULL, 0, NULL, 0, NULL, 0, NULL, 0, &delivered), GOMZELAT_BAD_LIMIT);
    }
    expect("decoding to a short payload",
           gomzelat_decode(LENGTH, r, NULL, 0, NULL, 0, NULL, 0, payload, 1, &delivered), GOMZELAT_SHORT_OUTPUT);
    expect("decoding from few cells",
           gomzelat_decode(LENGTH, r, cells, 131, NULL, 0, NULL, 0, payload, 2, &delivered), GOMZELAT_SHORT_CELLS);
    expect("decoding with no entry",
           gomzelat_decode(LENGTH, r, cells, 132, NULL, 0, NULL, 0, payload, 2, &delivered), GOMZELAT_SHORT_BLOCKS);
    expect("decoding to few bits",
           gomzelat_decode(LENGTH, r, cells, 132, blocks, 1, bits, 39, payload, 2, &delivered), GOMZELAT_SHORT_BITS);
    expect("what is refused", delivered + blocks[0].passed + bits[0] + payload[0], 2 * MARK);

    expect("decoding", gomzelat_decode(LENGTH, r, cells, 132, blocks, 2, bits, 41, payload, 3, &delivered), GOMZELAT_DONE);
    expect("delivered", delivered, 1);
    expect("passed", blocks[0].passed, 1);
    expect("iterations", blocks[0].iterations, 1);
    expect_bytes("the payload", payload, sent, LENGTH);
    expect("a bit of the payload", bits[15], 1);
    expect("after the last", blocks[1].passed + blocks[1].iterations + bits[40] + payload[2], 4 * MARK);

    /* Nothing but 0 in the cells, from a state that no call leaves: all are decoded, and nothing is decided to be 1. */
    memset(cells, 0, sizeof cells);
    memset(bits, 0xFF, 40);
    blocks[0].passed = MARK;
    blocks[0].iterations = SIZE_MAX;
    expect("decoding what is unknown", gomzelat_decode(LENGTH, r, cells, 132, blocks, 1, bits, 40, payload, 2, &delivered),
           GOMZELAT_DONE);
    expect("delivered zeros", delivered, 1);
    expect("a payload of zeros", payload[0] + payload[1], 0);
    expect("its iterations", blocks[0].iterations, 1);
}

int main(void) {
    sizes();
    combinations();
    decodings();
    return failures > 0;
}
