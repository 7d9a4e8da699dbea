/* Random calls of what sends. */

static uint32_t block_refused(size_t length, size_t r) {
    return r >= plan_of(length).c ? GOMZELAT_BAD_BLOCK : 0;
}

static uint32_t sending_refused(size_t length, struct gomzelat_transmission t, uint32_t n_ir) {
    const uint32_t found = FIRST(length_refused(length), transmission_refused(t));
    return found ? found : buffer_refused(length, n_ir);
}

static void codeword(void) {
    const size_t length = a_length();
    const struct gomzelat_transmission t = a_transmission();
    const uint32_t n_ir = a_buffer(length), refused = sending_refused(length, t, n_ir);
    const size_t need = refused ? 9 : GOMZELAT_BYTES(t.g), room = a_room(need);
    const uint8_t *payload = buffer(length, 1, 0);
    uint8_t *out = buffer(room, 1, need);
    ready();
    const uint32_t answer = gomzelat_codeword(payload, length, t, n_ir, out, room);
    judge("codeword", answer, refused ? refused : short_of(room, need, GOMZELAT_SHORT_OUTPUT));
    if (answer == 0 && t.g % 8 != 0) hold("codeword, unused bits", (uint8_t)(out[need - 1] << t.g % 8) == 0);
}

static void codewords(void) {
    const size_t length = a_length(), count = a_count();
    struct gomzelat_transmission *ts = buffer(count, sizeof *ts, 0);
    size_t bits = 0, need = 0;
    uint32_t refused = FIRST(length_refused(length), transmissions_drawn(ts, count, &bits));
    const uint32_t n_ir = a_buffer(length);
    if (!refused) refused = buffer_refused(length, n_ir);
    for (size_t i = 0; !refused && i < count; i++) need += GOMZELAT_BYTES(ts[i].g);
    const size_t room = a_room(need);
    const uint8_t *payload = buffer(length, 1, 0);
    uint8_t *out = buffer(room, 1, need);
    ready();
    const uint32_t answer = gomzelat_codewords(payload, length, ts, count, n_ir, out, room);
    judge("codewords", answer, refused ? refused : short_of(room, need, GOMZELAT_SHORT_OUTPUT));
    static uint8_t one[GOMZELAT_BYTES(GOMZELAT_MOST_BITS)];
    for (size_t i = 0, at = 0; answer == 0 && i < count; at += GOMZELAT_BYTES(ts[i++].g)) {
        hold("codewords, one alone", gomzelat_codeword(payload, length, ts[i], n_ir, one, sizeof one) == 0);
        hold("codewords, one of them", memcmp(out + at, one, GOMZELAT_BYTES(ts[i].g)) == 0);
    }
}

static void plan(void) {
    const size_t length = one_in(20) ? SIZE_MAX : one_in(2) ? a_length() : 1 + below(18722);
    struct gomzelat_plan *out = structure(sizeof *out, true);
    ready();
    const uint32_t answer = gomzelat_plan(length, out);
    judge("plan", answer, length_refused(length));
    if (answer == 0) {
        const struct gomzelat_plan due = plan_of(length);
        hold("plan", memcmp(out, &due, sizeof due) == 0);
    }
}

static void code_block(void) {
    const size_t length = a_length(), r = a_block(length);
    const uint32_t bad = length_refused(length), refused = bad ? bad : block_refused(length, r);
    const struct gomzelat_plan cut = refused ? (struct gomzelat_plan){0} : plan_of(length);
    const size_t k = refused ? 40 : block_size(&cut, r), room = a_room(k);
    const uint8_t *payload = buffer(length, 1, 0);
    uint8_t *out = buffer(room, 1, k);
    ready();
    const uint32_t answer = gomzelat_code_block(payload, length, r, out, room);
    judge("code_block", answer, refused ? refused : short_of(room, k, GOMZELAT_SHORT_OUTPUT));
    for (size_t i = 0; answer == 0 && i < k; i++) hold("code_block, a bit", out[i] <= (i >= cut.f || r > 0));
}

static void streams(void) {
    const size_t length = a_length(), r = a_block(length);
    const uint32_t bad = length_refused(length), refused = bad ? bad : block_refused(length, r);
    const struct gomzelat_plan cut = refused ? (struct gomzelat_plan){0} : plan_of(length);
    const size_t need = refused ? 132 : 3 * (block_size(&cut, r) + 4), room = a_room(need);
    const uint8_t *payload = buffer(length, 1, 0);
    uint8_t *out = buffer(room, 1, need);
    ready();
    const uint32_t answer = gomzelat_streams(payload, length, r, out, room);
    judge("streams", answer, refused ? refused : short_of(room, need, GOMZELAT_SHORT_OUTPUT));
    for (size_t i = 0; answer == 0 && i < need; i++) {
        const bool is_null = r == 0 && i % (need / 3) < cut.f && i < need / 3 * 2;
        hold("streams, a cell", is_null ? out[i] == 2 : out[i] <= 1);
    }
}

static void spots(void) {
    const size_t length = a_length(), r = a_block(length);
    const uint32_t bad = length_refused(length), refused = bad ? bad : block_refused(length, r);
    const struct gomzelat_plan cut = refused ? (struct gomzelat_plan){0} : plan_of(length);
    const size_t k = refused ? 40 : block_size(&cut, r), need = 96 * rows_of(k), room = a_room(need);
    uint32_t *out = buffer(room, sizeof *out, need * sizeof *out);
    ready();
    const uint32_t answer = gomzelat_spots(length, r, out, room);
    judge("spots", answer, refused ? refused : short_of(room, need, GOMZELAT_SHORT_OUTPUT));
    size_t bits = 0;
    for (size_t i = 0; answer == 0 && i < need; i++) {
        const bool is_null = out[i] == UINT32_MAX;
        hold("spots, a place", is_null || (out[i] >> 16 < 3 && (out[i] & 0xFFFF) < k + 4));
        bits += !is_null;
    }
    /* Of d0 and d1 the fillers are NULL. */
    if (answer == 0) hold("spots, how many", bits == 3 * (k + 4) - 2 * (r == 0 ? cut.f : 0));
}

static void piece(void) {
    const size_t length = a_length(), r = a_block(length);
    const struct gomzelat_transmission t = a_transmission();
    const uint32_t n_ir = a_buffer(length), bad = sending_refused(length, t, n_ir);
    struct gomzelat_piece *out = structure(sizeof *out, true);
    ready();
    const uint32_t answer = gomzelat_piece(length, r, t, n_ir, out);
    judge("piece", answer, bad ? bad : block_refused(length, r));
    if (answer == 0) {
        const struct gomzelat_plan cut = plan_of(length);
        const struct gomzelat_piece due = piece_of(&cut, r, t, n_ir);
        hold("piece", out->k == due.k && out->fill == due.fill && out->places == due.places &&
                          out->start % due.places == due.start % due.places && out->bits == due.bits);
    }
}

static void select_bits(void) {
    const size_t length = a_length(), r = a_block(length);
    const struct gomzelat_transmission t = a_transmission();
    const uint32_t n_ir = a_buffer(length);
    uint32_t refused = sending_refused(length, t, n_ir);
    if (!refused) refused = block_refused(length, r);
    const struct gomzelat_plan cut = refused ? (struct gomzelat_plan){0} : plan_of(length);
    const size_t need = refused ? 9 : piece_of(&cut, r, t, n_ir).bits, room = a_room(need);
    const uint8_t *payload = buffer(length, 1, 0);
    uint8_t *out = buffer(room, 1, need);
    ready();
    const uint32_t answer = gomzelat_select(payload, length, r, t, n_ir, out, room);
    judge("select", answer, refused ? refused : short_of(room, need, GOMZELAT_SHORT_OUTPUT));
    if (answer != 0) return;
    /* The block's bits stand in the codeword after those of the blocks before. */
    static uint8_t all[GOMZELAT_BYTES(GOMZELAT_MOST_BITS)];
    hold("select, the codeword", gomzelat_codeword(payload, length, t, n_ir, all, sizeof all) == 0);
    size_t at = 0;
    for (size_t before = 0; before < r; before++) at += piece_of(&cut, before, t, n_ir).bits;
    for (size_t i = 0; i < need; i++) hold("select, a bit", out[i] == bit_at(all, at + i));
}

static void crc(void) {
    const bool is_b = one_in(2);
    const size_t count = below(200), room = a_room(24);
    uint8_t *bits = buffer(count, 1, 0);
    for (size_t i = 0; i < count; i++)
        if (one_in(2)) bits[i] = 0;
    uint8_t *out = buffer(room, 1, 24);
    ready();
    const uint32_t answer = (is_b ? gomzelat_crc24b : gomzelat_crc24a)(bits, count, out, room);
    judge(is_b ? "crc24b" : "crc24a", answer, short_of(room, 24, GOMZELAT_SHORT_OUTPUT));
    const uint32_t due = crc24_of(bits, count, is_b ? 0x800063 : 0x864CFB);
    for (int i = 0; answer == 0 && i < 24; i++) hold("crc, a bit", out[i] == (due >> (23 - i) & 1));
}

static void trial_payload(void) {
    const size_t length = a_length();
    uint8_t *out = buffer(length, 1, length);
    ready();
    judge("trial_payload", gomzelat_trial_payload(drawn(), (uint32_t)drawn(), out, length), length_refused(length));
}

#define SENDERS codeword, codewords, plan, code_block, streams, spots, piece, select_bits, crc, trial_payload
