/* Every kind of bad input gets its answer and changes nothing, and good input gives worked values. Prints what differs,
 * and ends with 1 where something does. */
#include "worked.h"

static void codewords(void) {
    uint8_t out[20], kept[20];
    memset(out, MARK, sizeof out);
    memset(kept, MARK, sizeof kept);

    expect("codeword of nothing", gomzelat_codeword(NULL, 0, good, 0, out, sizeof out), GOMZELAT_BAD_LENGTH);
    expect("codeword of too much", gomzelat_codeword(many, sizeof many, good, 0, out, sizeof out), GOMZELAT_BAD_LENGTH);
    for (size_t i = 0; i < COUNT(bad_transmissions); i++)
        expect("codeword of a bad transmission",
               gomzelat_codeword(sent, LENGTH, bad_transmissions[i].transmission, 1, NULL, 0),
               bad_transmissions[i].answer);
    expect("codeword of a small buffer", gomzelat_codeword(sent, LENGTH, good, 63, NULL, 0), GOMZELAT_BAD_BUFFER);
    expect("codeword without room", gomzelat_codeword(sent, LENGTH, good, 0, NULL, 0), GOMZELAT_SHORT_OUTPUT);
    expect("codeword with little room", gomzelat_codeword(sent, LENGTH, good, 0, out, 16), GOMZELAT_SHORT_OUTPUT);
    expect_bytes("what is refused is kept", out, kept, sizeof out);

    expect("codeword", gomzelat_codeword(sent, LENGTH, good, 0, out, sizeof out), GOMZELAT_DONE);
    expect_bytes("the codeword", out, codeword, sizeof codeword);
    expect_bytes("what is after it", out + sizeof codeword, kept, sizeof out - sizeof codeword);
    expect("codeword with just room", gomzelat_codeword(sent, LENGTH, good, UINT32_MAX, out, 17), GOMZELAT_DONE);
    expect_bytes("the codeword of a large buffer", out, codeword, sizeof codeword);
    expect("codeword of a buffer that just fits", gomzelat_codeword(sent, LENGTH, good, 64, out, 17), GOMZELAT_DONE);
}

static void plans(void) {
    struct gomzelat_plan plan = {.c = MARK, .f = MARK};
    expect("plan of nothing", gomzelat_plan(0, &plan), GOMZELAT_BAD_LENGTH);
    expect("plan of too much", gomzelat_plan(GOMZELAT_MOST_BYTES + 1, &plan), GOMZELAT_BAD_LENGTH);
    expect("plan of far too much", gomzelat_plan(SIZE_MAX, &plan), GOMZELAT_BAD_LENGTH);
    expect("a plan that is kept", plan.c + plan.f, 2 * MARK);

    expect("plan of one byte", gomzelat_plan(1, &plan), GOMZELAT_DONE);
    expect_bytes("one block of 40 bits", &plan, &(struct gomzelat_plan){1, 40, 0, 1, 0, 8}, sizeof plan);
    expect("plan of 9,422 bytes", gomzelat_plan(9422, &plan), GOMZELAT_DONE);
    expect_bytes("13 blocks without fillers", &plan, &(struct gomzelat_plan){13, 5824, 5760, 13, 0, 0}, sizeof plan);
}

/* Strong soft values of the codeword. */
static void strong(int8_t values[BITS]) {
    for (size_t i = 0; i < BITS; i++)
        values[i] = codeword[i / 8] >> (7 - i % 8) & 1 ? -128 : 127;
}

static void receptions(void) {
    const struct gomzelat_receiver receiver = {.n_ir = 0, .windows = 8, .limit = 8};
    struct gomzelat_transmission nine[9];
    for (size_t i = 0; i < 9; i++)
        nine[i] = good;
    int8_t values[9 * BITS];
    memset(values, -1, sizeof values);
    strong(values);
    uint8_t payload[4], kept[4];
    memset(payload, MARK, sizeof payload);
    memset(kept, MARK, sizeof kept);
    struct gomzelat_outcome outcome = {MARK, MARK, MARK};

#define RECEIVE(length, transmissions, count, receiver, values, amount, payload, room) \
    gomzelat_receive(length, transmissions, count, receiver, values, amount, payload, room, &outcome)
#define ONE(receiver) RECEIVE(LENGTH, nine, 1, receiver, values, BITS, payload, sizeof payload)

    expect("reception of nothing", RECEIVE(0, NULL, 0, receiver, NULL, 0, NULL, 0), GOMZELAT_BAD_LENGTH);
    expect("reception of too much", RECEIVE(GOMZELAT_MOST_BYTES + 1, nine, 1, receiver, values, BITS, payload, 4),
           GOMZELAT_BAD_LENGTH);
    expect("reception of no transmission", RECEIVE(LENGTH, NULL, 0, receiver, NULL, 0, payload, 4), GOMZELAT_BAD_COUNT);
    expect("reception of nine", RECEIVE(LENGTH, nine, 9, receiver, values, 9 * BITS, payload, 4), GOMZELAT_BAD_COUNT);
    for (size_t i = 0; i < COUNT(bad_transmissions); i++) {
        const struct gomzelat_transmission two[2] = {good, bad_transmissions[i].transmission};
        expect("reception of a bad transmission",
               RECEIVE(LENGTH, two, 2, ((struct gomzelat_receiver){1, 0, 0}), NULL, 0, NULL, 0),
               bad_transmissions[i].answer);
    }
    expect("reception in a small buffer", ONE(((struct gomzelat_receiver){63, 0, 8})), GOMZELAT_BAD_BUFFER);
    expect("no windows", ONE(((struct gomzelat_receiver){0, 0, 0})), GOMZELAT_BAD_WINDOWS);
    expect("65 windows", ONE(((struct gomzelat_receiver){0, 65, 8})), GOMZELAT_BAD_WINDOWS);
    expect("no iterations", ONE(((struct gomzelat_receiver){0, 8, 0})), GOMZELAT_BAD_LIMIT);
    expect("17 iterations", ONE(((struct gomzelat_receiver){0, 8, 17})), GOMZELAT_BAD_LIMIT);
    expect("no values", RECEIVE(LENGTH, nine, 1, receiver, NULL, 0, NULL, 0), GOMZELAT_BAD_VALUES);
    expect("a value too few", RECEIVE(LENGTH, nine, 1, receiver, values, BITS - 1, payload, 4), GOMZELAT_BAD_VALUES);
    expect("a value too many", RECEIVE(LENGTH, nine, 2, receiver, values, 2 * BITS + 1, payload, 4),
           GOMZELAT_BAD_VALUES);
    expect("no room", RECEIVE(LENGTH, nine, 1, receiver, values, BITS, NULL, 0), GOMZELAT_SHORT_OUTPUT);
    expect("little room", RECEIVE(LENGTH, nine, 1, receiver, values, BITS, payload, 1), GOMZELAT_SHORT_OUTPUT);
    expect_bytes("a payload that is kept", payload, kept, sizeof payload);
    expect("an outcome that is kept", outcome.delivered + outcome.transmissions + outcome.iterations, 3 * MARK);

    expect("reception of ones", RECEIVE(LENGTH, nine, 1, receiver, values + BITS, BITS, payload, 4), GOMZELAT_DONE);
    expect("not delivered", outcome.delivered, 0);
    expect("after one transmission", outcome.transmissions, 1);
    expect_bytes("a payload that isn't written", payload, kept, sizeof payload);

    expect("reception", RECEIVE(LENGTH, nine, 8, receiver, values, 8 * BITS, payload, sizeof payload), GOMZELAT_DONE);
    expect("delivered", outcome.delivered, 1);
    expect("after the first transmission", outcome.transmissions, 1);
    expect_bytes("the payload", payload, sent, LENGTH);
    expect_bytes("what is after the payload", payload + LENGTH, kept, sizeof payload - LENGTH);
}

static void channels(void) {
    /* 18 bits 0 and 18 bits 1 with amplitude 40 and noise 20 from seed 5, and 8 bits of a late transmission. */
    static const int8_t zeros[18] = {16, 62, 52, 20, 50, 53, 27, 67, 16, 37, 42, 30, 17, 75, 58, 43, 34, 54};
    static const int8_t ones[18] = {-64, -18, -28, -60, -30, -27, -53, -13, -64,
                                    -43, -38, -50, -63, -5,  -22, -37, -46, -26};
    static const int8_t late[8] = {-25, -127, 86, 127, -59, -43, 127, -127};
    const struct gomzelat_channel channel = {.seed = 5, .amp = 40, .noise = 20};
    static const uint8_t low[3], high[3] = {0xFF, 0xFF, 0xFF};
    int8_t out[20], kept[20];
    memset(out, MARK, sizeof out);
    memset(kept, MARK, sizeof kept);

#define NOISY(bits, length, count, number, out, room, ...) \
    gomzelat_noisy(bits, length, count, (struct gomzelat_channel){__VA_ARGS__}, 0, number, out, room)

    expect("no bits", NOISY(NULL, 0, 1, 9, NULL, 0, 5, 0, 200), GOMZELAT_BAD_BITS);
    expect("too few bits", NOISY(low, 2, 17, 0, out, 20, 5, 40, 20), GOMZELAT_BAD_BITS);
    expect("far too few bits", NOISY(low, 3, SIZE_MAX, 0, out, 20, 5, 40, 20), GOMZELAT_BAD_BITS);
    expect("no amplitude", NOISY(low, 3, 18, 9, out, 20, 5, 0, 200), GOMZELAT_BAD_AMP);
    expect("a large amplitude", NOISY(low, 3, 18, 0, out, 20, 5, 128, 20), GOMZELAT_BAD_AMP);
    expect("an amplitude above a byte", NOISY(low, 3, 18, 0, out, 20, 5, 256 + 40, 20), GOMZELAT_BAD_AMP);
    expect("large noise", NOISY(low, 3, 18, 9, out, 20, 5, 40, 128), GOMZELAT_BAD_NOISE);
    expect("noise above a byte", NOISY(low, 3, 18, 0, out, 20, 5, 40, 256), GOMZELAT_BAD_NOISE);
    expect("a large number", NOISY(low, 3, 18, 8, out, 0, 5, 40, 20), GOMZELAT_BAD_NUMBER);
    expect("a number above a byte", NOISY(low, 3, 18, 256, out, 20, 5, 40, 20), GOMZELAT_BAD_NUMBER);
    expect("no room for values", NOISY(low, 3, 18, 0, NULL, 0, 5, 40, 20), GOMZELAT_SHORT_OUTPUT);
    expect("little room for values", NOISY(low, 3, 18, 0, out, 17, 5, 40, 20), GOMZELAT_SHORT_OUTPUT);
    expect("no bits at all", NOISY(NULL, 0, 0, 0, NULL, 0, 5, 40, 20), GOMZELAT_DONE);
    expect_bytes("values that are kept", out, kept, sizeof out);

    expect("zeros", gomzelat_noisy(low, 3, 18, channel, 0, 0, out, sizeof out), GOMZELAT_DONE);
    expect_bytes("the values of zeros", out, zeros, 18);
    expect_bytes("what is after the values", out + 18, kept, 2);
    expect("ones", gomzelat_noisy(high, 3, 18, channel, 0, 0, out, sizeof out), GOMZELAT_DONE);
    expect_bytes("the values of ones", out, ones, 18);
    const struct gomzelat_channel noisy = {.seed = 0x0102030405060708, .amp = 1, .noise = 127};
    expect("late", gomzelat_noisy(low, 1, 8, noisy, 258, 7, out, sizeof out), GOMZELAT_DONE);
    expect_bytes("the values of a late transmission", out, late, 8);
}

static void payloads(void) {
    static const uint8_t first[8] = {0xA5, 0x55, 0x5A, 0x93, 0x41, 0x03, 0x79, 0x52};
    static const uint8_t late[8] = {0x58, 0x1C, 0x0A, 0xC0, 0x6F, 0xC5, 0x28, 0x67};
    static uint8_t out[GOMZELAT_MOST_BYTES + 1];
    expect("payload of nothing", gomzelat_trial_payload(1, 0, NULL, 0), GOMZELAT_BAD_LENGTH);
    expect("payload of too much", gomzelat_trial_payload(1, 0, out, sizeof out), GOMZELAT_BAD_LENGTH);
    expect_bytes("a payload that is left", out, many, sizeof out);
    expect("payload", gomzelat_trial_payload(1, 0, out, 8), GOMZELAT_DONE);
    expect_bytes("the first payload of seed 1", out, first, 8);
    expect("late payload", gomzelat_trial_payload(0x0102030405060708, 258, out, 8), GOMZELAT_DONE);
    expect_bytes("a late payload", out, late, 8);
    expect("longest payload", gomzelat_trial_payload(1, 0, out, GOMZELAT_MOST_BYTES), GOMZELAT_DONE);
    expect_bytes("its beginning", out, first, 8);
}

/* The payload of two bytes is one code block of 40 bits, with 132 soft cells. */
static void texts(void) {
    for (uint32_t i = 0; i <= GOMZELAT_SHORT_BITS + 1; i++)
        for (uint32_t j = 0; j < i; j++)
            expect("texts that are the same", strcmp(gomzelat_text(i), gomzelat_text(j)) == 0, 0);
}

int main(void) {
    codewords();
    plans();
    receptions();
    texts();
    channels();
    payloads();
    return failures > 0;
}
