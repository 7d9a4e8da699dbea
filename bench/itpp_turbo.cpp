// How fast the turbo codec of IT++ (Debian's libitpp-dev) encodes and decodes a code block of 6,144 bits on one thread:
// the constituent code of 36.212 5.1.3.2.1, the interleaver of K = 6144, 8 iterations of max-log with its values times 3/4.
#include <itpp/itcomm.h>

#include <cstdio>
#include <ctime>

using namespace itpp;

static const int SIZE = 6144, ITERATIONS = 8, SECONDS = 3;

// Pi(i) = (263 i + 480 i^2) mod 6144
static ivec interleaver() {
    ivec places(SIZE);
    for (long i = 0; i < SIZE; i++) places[i] = (263 * i + 480 * i * i) % SIZE;
    return places;
}

// Calls `work` for some seconds of this processor's time, and prints how many bits of blocks it did a second.
template <typename Work> static void time_of(const char *name, Work work) {
    long blocks = 0;
    const std::clock_t begin = std::clock();
    double seconds;
    do {
        work();
        blocks++;
        seconds = double(std::clock() - begin) / CLOCKS_PER_SEC;
    } while (seconds < SECONDS);
    std::printf("%s: %ld blocks, %.2f Mbit/s\n", name, blocks, double(blocks) * SIZE / seconds / 1e6);
}

int main() {
    Turbo_Codec codec;
    codec.set_parameters("13 15", "13 15", 4, interleaver(), ITERATIONS, "LOGMAX", 0.75, false);
    RNG_reset(1);
    const bvec bits = randb(SIZE);
    bvec coded, decoded;
    time_of("encode", [&] { codec.encode(bits, coded); });

    // So much noise that no block is right, as docs/MEASURING.md has it for this program.
    BPSK bpsk;
    const vec received = bpsk.modulate_bits(coded) + std::sqrt(1.5) * randn(coded.size());
    time_of("decode", [&] { codec.decode(received, decoded); });
}
