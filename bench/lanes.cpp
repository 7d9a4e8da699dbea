// A code block of 6,144 bits decoded by the rules of docs/RECEIVER.md in C++ with intrinsics, one thread, 8 windows as
// the lanes of one vector of SSE: a yardstick for the proved decoder, which is built for the same processor level.
#include <smmintrin.h>

#include <cstdint>
#include <cstdio>
#include <cstdlib>
#include <cstring>
#include <ctime>

typedef __m128i Vector;  // a number of 16 bits for each window
static const int SIZE = 6144, WINDOWS = 8, WIDTH = SIZE / WINDOWS, ITERATIONS = 8, SECONDS = 3;

static int8_t streams[3][SIZE + 4];                    // soft values, as 36.212 5.1.3.2 has the bits
static int place[SIZE];                                // the interleaver
static Vector systematic[2][WIDTH], parity[2][WIDTH];  // of even and odd halves, a row a step
static Vector cells[WIDTH], sums[WIDTH];               // in banks: row r has in lane b the cell of place b W + r
static Vector to_windows[WIDTH], to_banks[WIDTH];      // how the lanes of a row change places
static int row_of[WIDTH];
static Vector kept[WIDTH][8];
static Vector forward_left[2][8], backward_left[2][8];  // of the last half of this parity
static int tail_border[2][8];
static uint8_t bits[SIZE];
static uint32_t remainders[256];

static Vector add(Vector a, Vector b) { return _mm_add_epi16(a, b); }
static Vector sub(Vector a, Vector b) { return _mm_sub_epi16(a, b); }
static Vector larger(Vector a, Vector b) { return _mm_max_epi16(a, b); }

static void forward(Vector m[8], Vector x, Vector p) {
    const Vector both = add(x, p), base = larger(add(m[0], both), m[1]);
    const Vector after[8] = {base, larger(add(m[2], p), add(m[3], x)), larger(add(m[4], x), add(m[5], p)),
                             larger(m[6], add(m[7], both)), larger(m[0], add(m[1], both)),
                             larger(add(m[2], x), add(m[3], p)), larger(add(m[4], p), add(m[5], x)),
                             larger(add(m[6], both), m[7])};
    for (int s = 0; s < 8; s++) m[s] = sub(after[s], base);
}

static void backward(Vector m[8], Vector x, Vector p) {
    const Vector both = add(x, p), base = larger(add(m[0], both), m[4]);
    const Vector before[8] = {base, larger(add(m[4], both), m[0]), larger(add(m[5], x), add(m[1], p)),
                              larger(add(m[1], x), add(m[5], p)), larger(add(m[2], x), add(m[6], p)),
                              larger(add(m[6], x), add(m[2], p)), larger(add(m[7], both), m[3]),
                              larger(add(m[3], both), m[7])};
    for (int s = 0; s < 8; s++) m[s] = sub(before[s], base);
}

static Vector four(const Vector *a, const Vector *b, const int *pairs) {
    Vector best = add(a[pairs[0]], b[pairs[1]]);
    for (int i = 2; i < 8; i += 2) best = larger(best, add(a[pairs[i]], b[pairs[i + 1]]));
    return best;
}

static Vector extrinsic(const Vector *a, const Vector *b, Vector p) {
    static const int paths[4][8] = {{0, 0, 1, 4, 6, 7, 7, 3}, {2, 5, 3, 1, 4, 2, 5, 6},   // bit 0, parity 0 and 1
                                    {2, 1, 3, 5, 4, 6, 5, 2}, {0, 4, 1, 0, 6, 3, 7, 7}};  // bit 1
    const Vector zero = larger(add(four(a, b, paths[0]), p), four(a, b, paths[1]));
    const Vector one = larger(add(four(a, b, paths[2]), p), four(a, b, paths[3]));
    return sub(zero, one);
}

static Vector three_quarters(Vector e) {
    e = larger(_mm_min_epi16(e, _mm_set1_epi16(682)), _mm_set1_epi16(-682));
    e = _mm_mullo_epi16(e, _mm_set1_epi16(3));
    return _mm_srai_epi16(add(e, _mm_and_si128(_mm_srai_epi16(e, 15), _mm_set1_epi16(3))), 2);
}

template <bool CROSSED> static void half() {
    Vector m[8], ahead[8], back[8];
    for (int s = 0; s < 8; s++) {
        ahead[s] = _mm_insert_epi16(_mm_slli_si128(forward_left[CROSSED][s], 2), s == 0 ? 0 : -4096, 0);
        back[s] = _mm_insert_epi16(_mm_srli_si128(backward_left[CROSSED][s], 2), tail_border[CROSSED][s], 7);
        m[s] = ahead[s];
    }
    for (int j = 0; j < WIDTH; j++) {
        Vector cell = cells[CROSSED ? row_of[j] : j];
        if (CROSSED) cell = _mm_shuffle_epi8(cell, to_windows[j]);
        for (int s = 0; s < 8; s++) kept[j][s] = m[s];
        forward(m, add(systematic[CROSSED][j], cell), parity[CROSSED][j]);
    }
    memcpy(forward_left[CROSSED], m, sizeof m);
    memcpy(m, back, sizeof m);
    for (int j = WIDTH - 1; j >= 0; j--) {
        const int row = CROSSED ? row_of[j] : j;
        Vector cell = cells[row];
        if (CROSSED) cell = _mm_shuffle_epi8(cell, to_windows[j]);
        const Vector x = add(systematic[CROSSED][j], cell), p = parity[CROSSED][j];
        const Vector e = extrinsic(kept[j], m, p);
        Vector value = three_quarters(e), sum = add(e, x);
        if (CROSSED) value = _mm_shuffle_epi8(value, to_banks[j]), sum = _mm_shuffle_epi8(sum, to_banks[j]);
        cells[row] = value;
        if (CROSSED) sums[row] = sum;
        backward(m, x, p);
    }
    memcpy(backward_left[CROSSED], m, sizeof m);
}

// What the last three steps earn from each state, relative to state 0.
static void tail(int half) {
    const int8_t *d[3] = {streams[0] + SIZE, streams[1] + SIZE, streams[2] + SIZE};
    const int x[2][3] = {{d[0][0], d[2][0], d[1][1]}, {d[0][2], d[2][2], d[1][3]}};
    const int z[2][3] = {{d[1][0], d[0][1], d[2][1]}, {d[1][2], d[0][3], d[2][3]}};
    for (int s = 7; s >= 0; s--) {
        int a1 = s >> 2, a2 = s >> 1 & 1, a3 = s & 1, earned = 0;
        for (int i = 0; i < 3; i++) {
            if ((a2 ^ a3) == 0) earned += x[half][i];
            if ((a1 ^ a3) == 0) earned += z[half][i];
            a3 = a2, a2 = a1, a1 = 0;
        }
        tail_border[half][s] = earned;
    }
    for (int s = 7; s >= 0; s--) tail_border[half][s] -= tail_border[half][0];
}

static void lay_out() {
    for (int j = 0; j < WIDTH; j++) {
        int16_t rows[4][8];
        uint8_t there[16], back[16];
        for (int t = 0; t < WINDOWS; t++) {
            const int i = t * WIDTH + j, bank = place[i] / WIDTH;
            rows[0][t] = streams[0][i], rows[1][t] = streams[1][i];
            rows[2][t] = streams[0][place[i]], rows[3][t] = streams[2][i];
            for (int half = 0; half < 2; half++)
                there[2 * t + half] = 2 * bank + half, back[2 * bank + half] = 2 * t + half;
        }
        memcpy(&systematic[0][j], rows[0], 16), memcpy(&parity[0][j], rows[1], 16);
        memcpy(&systematic[1][j], rows[2], 16), memcpy(&parity[1][j], rows[3], 16);
        memcpy(&to_windows[j], there, 16), memcpy(&to_banks[j], back, 16);
        row_of[j] = place[j] % WIDTH;
    }
}

// Whether CRC24B holds over the decided bits.
static bool decide() {
    for (int r = 0; r < WIDTH; r++) {
        int16_t row[8];
        memcpy(row, &sums[r], 16);
        for (int b = 0; b < WINDOWS; b++) bits[b * WIDTH + r] = row[b] < 0;
    }
    uint32_t remainder = 0;
    for (int i = 0; i < SIZE; i += 8) {
        uint32_t byte = 0;
        for (int j = 0; j < 8; j++) byte = byte << 1 | bits[i + j];
        remainder = (remainder << 8 & 0xFFFFFF | byte) ^ remainders[remainder >> 16];
    }
    return remainder == 0;
}

static int decode() {
    memset(cells, 0, sizeof cells);
    memset(forward_left, 0, sizeof forward_left), memset(backward_left, 0, sizeof backward_left);
    lay_out(), tail(0), tail(1);
    for (int n = 1; n <= ITERATIONS; n++) {
        half<false>(), half<true>();
        if (decide()) return n;
    }
    return 0;
}

int main() {
    for (long i = 0; i < SIZE; i++) place[i] = (263 * i + 480 * i * i) % SIZE;
    for (uint32_t i = 0; i < 256; i++) {
        uint32_t r = i << 16;
        for (int j = 0; j < 8; j++) r = r & 0x800000 ? (r << 1 ^ 0x800063) & 0xFFFFFF : r << 1;
        remainders[i] = r;
    }
    srand(1);
    for (auto &stream : streams)
        for (auto &value : stream) value = rand() % 61 - 30;
    long blocks = 0, passed = 0;
    const std::clock_t begin = std::clock();
    double seconds;
    do {
        passed += decode() != 0;
        blocks++;
        seconds = double(std::clock() - begin) / CLOCKS_PER_SEC;
    } while (seconds < SECONDS);
    std::printf("%ld blocks, %ld passed, %.3f ms a block, %.2f Mbit/s\n", blocks, passed, seconds / blocks * 1e3,
                blocks * SIZE / seconds / 1e6);
}
