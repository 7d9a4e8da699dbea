/* Random calls of scrambling and of constellation points. */

static struct gomzelat_scrambling a_scrambling(void) {
    return (struct gomzelat_scrambling){.rnti = a_number(0, 65535), .q = a_number(0, 1), .slot = a_number(0, 19),
                                        .cell = a_number(0, 503)};
}

static uint32_t scrambling_refused(struct gomzelat_scrambling s) {
    return s.rnti > 65535 || s.q > 1 || s.slot > 19 || s.cell > 503 ? GOMZELAT_BAD_SCRAMBLING : 0;
}

static void init(void) {
    const struct gomzelat_scrambling s = a_scrambling();
    uint32_t *out = structure(sizeof *out, true);
    ready();
    const uint32_t answer = gomzelat_init(s, out);
    judge("init", answer, scrambling_refused(s));
    if (answer == 0) hold("init", *out == initial(s));
}

static void scramble(void) {
    const size_t length = below(60), count = one_in(20) ? 8 * length + 1 + below(9) : below(8 * length + 1);
    const struct gomzelat_scrambling s = a_scrambling();
    uint8_t *bits = buffer(length, 1, GOMZELAT_BYTES(count));
    ready();
    const uint8_t *before = slots[0].copy;
    const uint32_t answer = gomzelat_scramble(bits, length, count, s);
    judge("scramble", answer, FIRST(count > 8 * length ? GOMZELAT_BAD_BITS : 0, scrambling_refused(s)));
    if (answer != 0) return;
    struct sequence c = sequence_from(initial(s));
    for (size_t i = 0; i < 8 * GOMZELAT_BYTES(count); i++) {
        const int due = i < count ? bit_at(before, i) ^ next_of(&c) : 0;
        hold("scramble, a bit", bit_at(bits, i) == due);
    }
}

static void descramble(void) {
    const size_t amount = below(300);
    const struct gomzelat_scrambling s = a_scrambling();
    int8_t *values = buffer(amount, 1, amount);
    ready();
    const int8_t *before = (const int8_t *)slots[0].copy;
    const uint32_t answer = gomzelat_descramble(values, amount, s);
    judge("descramble", answer, scrambling_refused(s));
    if (answer != 0) return;
    struct sequence c = sequence_from(initial(s));
    for (size_t i = 0; i < amount; i++) {
        const int value = before[i] == -128 ? -127 : before[i];
        hold("descramble, a value", values[i] == (next_of(&c) ? -value : value));
    }
}

static uint32_t a_modulation(void) { return one_in(15) ? (uint32_t[]){0, 3, 8, 258}[below(4)] : 2 * (1 + (uint32_t)below(3)); }

static void map(void) {
    const uint32_t qm = a_modulation();
    const size_t length = below(60), some = qm_refused(qm) ? 5 : below(8 * length / qm + 1) * qm;
    const size_t count = one_in(15) ? 8 * length + 1 + below(9) : some + one_in(10), need = count / (qm ? qm : 1);
    const size_t room = a_room(need);
    const uint8_t *bits = buffer(length, 1, 0);
    struct gomzelat_point *points = buffer(room, sizeof *points, need * sizeof *points);
    ready();
    const uint32_t answer = gomzelat_map(bits, length, count, qm, points, room);
    uint32_t due = FIRST(qm_refused(qm), count > 8 * length ? GOMZELAT_BAD_BITS : 0);
    if (!due) due = FIRST(count % qm != 0 ? GOMZELAT_BAD_POINTS : 0, short_of(room, need, GOMZELAT_SHORT_OUTPUT));
    judge("map", answer, due);
    for (size_t n = 0; answer == 0 && n < need; n++) {
        int told[6] = {0};
        for (uint32_t i = 0; i < qm; i++) told[i] = bit_at(bits, n * qm + i);
        hold("map, a point", points[n].i == coordinate(told, qm) && points[n].q == coordinate(told + 1, qm));
    }
}

static void demap(void) {
    const uint32_t qm = a_modulation(), amp = a_number(1, 127);
    const size_t count = below(12), need = count * (qm_refused(qm) ? 1 : qm), room = a_room(need);
    struct gomzelat_point *points = buffer(count, sizeof *points, 0);
    bool is_far = false;
    for (size_t n = 0; n < count; n++) {
        const int32_t reach = one_in(3) ? 4000 : 8 * 127;
        points[n].i = (int32_t)below(2 * (size_t)reach + 1) - reach;
        points[n].q = (int32_t)below(2 * (size_t)reach + 1) - reach;
        if (one_in(100)) (&points[n].i)[below(2)] = (int32_t[]){4001, -4001, INT32_MIN, INT32_MAX}[below(4)];
        is_far = is_far || labs(points[n].i) > 4000 || labs(points[n].q) > 4000;
    }
    int8_t *out = buffer(room, 1, need);
    ready();
    const uint32_t answer = gomzelat_demap(points, count, qm, amp, out, room);
    judge("demap", answer,
          FIRST(qm_refused(qm), amp == 0 || amp > 127 ? GOMZELAT_BAD_AMP : 0, is_far ? GOMZELAT_BAD_POINTS : 0,
                short_of(room, need, GOMZELAT_SHORT_OUTPUT)));
    for (size_t i = 0; answer == 0 && i < need; i++)
        hold("demap, a value", out[i] == soft_of(points[i / qm], qm, (int)(i % qm), (int)amp));
}

static void version(void) { hold("version", gomzelat_version() == GOMZELAT_VERSION); }

#define SIGNALS init, scramble, descramble, map, demap, version
