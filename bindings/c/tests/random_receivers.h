/* Random calls of what receives, and of the channel. */

static struct gomzelat_receiver a_receiver(size_t length) {
    return (struct gomzelat_receiver){.n_ir = a_buffer(length), .windows = a_number(1, 64), .limit = a_number(1, 16)};
}

static size_t an_amount(size_t need) {
    return one_in(15) ? need + 1 : one_in(15) && need > 0 ? need - 1 : need;
}

static void receive(void) {
    const size_t length = one_in(50) ? SIZE_MAX : a_length();
    const size_t count = a_count();
    const struct gomzelat_receiver receiver = a_receiver(length);
    struct gomzelat_transmission *ts = buffer(count, sizeof *ts, 0);
    size_t bits = 0;
    uint32_t refused = FIRST(length_refused(length), transmissions_drawn(ts, count, &bits));
    if (!refused) refused = FIRST(buffer_refused(length, receiver.n_ir), decoder_refused(receiver.windows, receiver.limit));
    const size_t amount = an_amount(refused ? 9 : bits), room = a_room(refused ? 9 : length);
    if (!refused && amount != bits) refused = GOMZELAT_BAD_VALUES;
    const int8_t *values = buffer(amount, 1, 0);
    uint8_t *payload = buffer(room, 1, refused ? 0 : length);
    struct gomzelat_outcome *outcome = structure(sizeof *outcome, true);
    ready();
    const uint32_t answer = gomzelat_receive(length, ts, count, receiver, values, amount, payload, room, outcome);
    const struct gomzelat_outcome came = *outcome;
    const bool is_same = memcmp(payload, slots[2].copy, answer || came.delivered ? 0 : length) == 0;
    judge("receive", answer, refused ? refused : short_of(room, length, GOMZELAT_SHORT_OUTPUT));
    if (answer == 0) {
        hold("receive, nothing written", is_same);
        hold("receive, transmissions", 1 <= came.transmissions && came.transmissions <= count);
        hold("receive, iterations", came.iterations <= receiver.limit * plan_of(length).c);
        hold("receive, delivered", came.delivered == 1 || (came.delivered == 0 && came.transmissions == count));
    }
}

static void sizes(void) {
    const size_t length = one_in(20) ? SIZE_MAX : one_in(2) ? a_length() : 1 + below(18722);
    struct gomzelat_sizes *out = structure(sizeof *out, true);
    ready();
    const uint32_t answer = gomzelat_sizes(length, out);
    judge("sizes", answer, length_refused(length));
    if (answer == 0) {
        const struct gomzelat_plan cut = plan_of(length);
        const struct gomzelat_sizes due = {3 * (all_bits(&cut) + 4 * cut.c), cut.c, all_bits(&cut)};
        hold("sizes", memcmp(out, &due, sizeof due) == 0);
    }
}

static size_t cells_of(size_t length) {
    const struct gomzelat_plan cut = plan_of(length);
    return 3 * (all_bits(&cut) + 4 * cut.c);
}

static void combine(void) {
    const size_t length = a_length();
    const struct gomzelat_transmission t = a_transmission();
    const uint32_t n_ir = a_buffer(length);
    uint32_t refused = sending_refused(length, t, n_ir);
    const size_t amount = an_amount(refused ? 9 : t.g), need = refused ? 9 : cells_of(length), room = a_room(need);
    if (!refused && amount != t.g) refused = GOMZELAT_BAD_VALUES;
    const int8_t *values = buffer(amount, 1, 0);
    int8_t *cells = buffer(room, 1, need);
    ready();
    const uint32_t answer = gomzelat_combine(length, t, n_ir, values, amount, cells, room);
    judge("combine", answer, refused ? refused : short_of(room, need, GOMZELAT_SHORT_CELLS));
    for (size_t i = 0; answer == 0 && i < need; i++) hold("combine, a cell", cells[i] != -128);
}

static void decode(void) {
    const size_t length = a_length();
    const struct gomzelat_receiver receiver = a_receiver(length);
    uint32_t refused = length_refused(length);
    if (!refused) refused = FIRST(buffer_refused(length, receiver.n_ir), decoder_refused(receiver.windows, receiver.limit));
    const struct gomzelat_plan cut = refused ? (struct gomzelat_plan){.c = 2} : plan_of(length);
    const size_t needs[] = {refused ? 9 : length, refused ? 9 : cells_of(length), cut.c, refused ? 9 : all_bits(&cut)};
    const size_t room = a_room(needs[0]), amount = a_room(needs[1]), count = a_room(needs[2]), extent = a_room(needs[3]);
    refused = FIRST(refused, short_of(room, needs[0], GOMZELAT_SHORT_OUTPUT),
                    short_of(amount, needs[1], GOMZELAT_SHORT_CELLS), short_of(count, needs[2], GOMZELAT_SHORT_BLOCKS),
                    short_of(extent, needs[3], GOMZELAT_SHORT_BITS));
    const int8_t *cells = buffer(amount, 1, 0);
    struct gomzelat_result *blocks = buffer(count, sizeof *blocks, needs[2] * sizeof *blocks);
    /* Mostly the state before a first try; else whatever stands there. */
    for (size_t i = 0; i < count; i++)
        if (!one_in(4)) blocks[i].passed = 0;
    uint8_t *bits = buffer(extent, 1, needs[3]), *payload = buffer(room, 1, needs[0]);
    uint32_t *delivered = structure(sizeof *delivered, true);
    ready();
    const uint32_t answer =
        gomzelat_decode(length, receiver, cells, amount, blocks, count, bits, extent, payload, room, delivered);
    judge("decode", answer, refused);
    for (size_t i = 0; answer == 0 && i < needs[3]; i++) hold("decode, a bit", bits[i] <= 1);
    for (size_t i = 0; answer == 0 && i < needs[2]; i++) hold("decode, an entry", blocks[i].passed <= 1);
    if (answer == 0) hold("decode, delivered", *delivered <= 1);
}

static void decode_block(void) {
    struct gomzelat_code block = {.k = 40 + 8 * below(20), .check = a_number(0, 1)};
    if (one_in(20)) block.k = (size_t[]){0, 39, 41, 520, 6152, 6145, SIZE_MAX}[below(7)];
    block.fill = one_in(20) ? block.k + below(3) : one_in(2) ? 0 : below(block.k ? block.k : 1);
    const uint32_t windows = a_number(1, 64), limit = a_number(1, 16);
    uint32_t refused = FIRST(is_block_size(block.k) ? 0 : GOMZELAT_BAD_SIZE, block.fill >= block.k ? GOMZELAT_BAD_FILLERS : 0,
                             block.check > 1 ? GOMZELAT_BAD_CHECK : 0, decoder_refused(windows, limit));
    const size_t due = refused ? 9 : 3 * (block.k + 4), amount = an_amount(due), need = refused ? 9 : block.k;
    if (!refused && amount != due) refused = GOMZELAT_BAD_VALUES;
    const size_t room = a_room(need);
    const int8_t *values = buffer(amount, 1, 0);
    uint8_t *bits = buffer(room, 1, need);
    struct gomzelat_result *result = structure(sizeof *result, true);
    ready();
    const uint32_t answer = gomzelat_decode_block(block, windows, limit, values, amount, bits, room, result);
    const struct gomzelat_result came = *result;
    judge("decode_block", answer, refused ? refused : short_of(room, need, GOMZELAT_SHORT_OUTPUT));
    if (answer != 0) return;
    for (size_t i = 0; i < need; i++) hold("decode_block, a bit", bits[i] <= (i >= block.fill));
    hold("decode_block, iterations", 1 <= came.iterations && came.iterations <= limit);
    hold("decode_block, its check", came.passed == (crc24_of(bits, need, block.check ? 0x800063 : 0x864CFB) == 0));
}

static void noisy(void) {
    const size_t length = below(60), most = 8 * length, count = one_in(20) ? most + 1 + below(9) : below(most + 1);
    const struct gomzelat_channel channel = {.seed = drawn(), .amp = a_number(1, 127), .noise = a_number(0, 127)};
    const uint32_t number = a_number(0, 7), amp = channel.amp;
    const size_t room = a_room(count);
    const uint8_t *bits = buffer(length, 1, 0);
    int8_t *out = buffer(room, 1, count);
    ready();
    const uint32_t answer = gomzelat_noisy(bits, length, count, channel, (uint32_t)drawn(), number, out, room);
    judge("noisy", answer,
          FIRST(count > most ? GOMZELAT_BAD_BITS : 0, amp == 0 || amp > 127 ? GOMZELAT_BAD_AMP : 0,
                channel.noise > 127 ? GOMZELAT_BAD_NOISE : 0, number > 7 ? GOMZELAT_BAD_NUMBER : 0,
                short_of(room, count, GOMZELAT_SHORT_OUTPUT)));
    for (size_t i = 0; answer == 0 && i < count; i++) hold("noisy, a value", out[i] != -128);
}

#define RECEIVERS receive, sizes, combine, decode, decode_block, noisy
