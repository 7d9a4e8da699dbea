/* The coding chain of LTE transport blocks, 3GPP TS 36.212 5.1.1 to 5.1.5, with a receiver and a channel: the calls of
 * libgomzelat. The crate behind these declarations is proved; the declarations are tested. docs/LIBRARY_C.md says how
 * to build, install and link.
 *
 * Every call but gomzelat_version returns GOMZELAT_DONE or an error code. All arguments are checked, in the order of
 * the codes and transmission by transmission, and the first error is returned. On error, and if memory runs out, no
 * buffer or structure of the caller is changed.
 *
 * Bits are packed into bytes, highest bit first. A soft value (LLR) is a number from -127 to 127, positive where 0 is
 * likelier and negative where 1 is; 0 is an erasure, and -128 is taken as -127.
 *
 * A caller must ensure:
 *
 * - A pointer with a length points to that many items, and may be null where the length is 0. Other pointers are not
 *   null. An output doesn't overlap any other argument.
 * - Arguments don't change during a call. Calls are thread-safe, and threads may share inputs. No state is kept between
 *   calls, and no call starts a thread.
 * - malloc, realloc and free are those of one allocator, and may be called: a call frees what it allocates before it
 *   returns. So don't call from a signal handler, nor in the forked child of a multi-threaded process. The caller owns
 *   all buffers.
 * - There are 16 kB of stack for a call; as measured, none uses more than 9 kB. On the heap, as measured,
 *   gomzelat_receive takes 0.7 MB at most for one transmission of 9,422 bytes in 90,000 bits, and 9 MB for the longest
 *   block in eight transmissions of a million bits; for a million bits gomzelat_demap takes 4 MB, gomzelat_combine 3
 *   MB, gomzelat_map 2.5 MB and gomzelat_noisy 2 MB; each other call takes less than 1.5 MB (bindings/c/costs.c).
 * - The system is Linux on x86-64, and the processor supports the level that the library was compiled for: x86-64-v2
 *   (SSE4.2, SSSE3, POPCNT), or x86-64-v3 (AVX2 as well), which bindings/build takes on a machine that has it. No call
 *   checks the processor.
 *
 * Later editions may extend structures, at their end only, and add error codes, after these: a program that is
 * recompiled stays correct, and one compiled before doesn't load a library of another edition. */
#ifndef GOMZELAT_H
#define GOMZELAT_H

#if !defined(__x86_64__) || !defined(__linux__) || defined(__ILP32__)
#error "libgomzelat is for Linux on x86-64, with pointers of 64 bits"
#endif

#include <stddef.h>
#include <stdint.h>

#ifdef __cplusplus
extern "C" {
#endif

/* What a call returns. Errors are numbered in the order in which they are checked; later versions may append more. */
enum gomzelat_answer {
    GOMZELAT_DONE = 0,
    GOMZELAT_NO_MEMORY = 1, /* memory ran out; only where no argument is in error */
    GOMZELAT_BAD_LENGTH = 2, /* a payload has no bytes, or more than GOMZELAT_MOST_BYTES */
    GOMZELAT_BAD_COUNT = 3, /* there are no transmissions, or more than GOMZELAT_MOST_TRANSMISSIONS */
    GOMZELAT_BAD_QM = 4, /* Q_m isn't 2, 4 or 6 */
    GOMZELAT_BAD_NL = 5, /* N_L isn't 1 or 2 */
    GOMZELAT_BAD_G = 6, /* G is 0, above GOMZELAT_MOST_BITS, or no multiple of N_L * Q_m */
    GOMZELAT_BAD_VERSION = 7, /* a redundancy version is above 3 */
    GOMZELAT_BAD_BUFFER = 8, /* N_IR is too small for the payload */
    GOMZELAT_BAD_BLOCK = 9, /* there is no code block of that number */
    GOMZELAT_BAD_WINDOWS = 10, /* the greatest number of windows is 0, or above 64 */
    GOMZELAT_BAD_LIMIT = 11, /* the greatest number of iterations is 0, or above 16 */
    GOMZELAT_BAD_SIZE = 12, /* K isn't one of the 188 sizes of a code block */
    GOMZELAT_BAD_FILLERS = 13, /* there are as many fillers as bits, or more */
    GOMZELAT_BAD_CHECK = 14, /* a check is neither GOMZELAT_CRC24A nor GOMZELAT_CRC24B */
    GOMZELAT_BAD_VALUES = 15, /* the number of soft values is wrong */
    GOMZELAT_BAD_BITS = 16, /* there are fewer bytes than the bits need */
    GOMZELAT_BAD_AMP = 17, /* the amplitude is 0, or above 127 */
    GOMZELAT_BAD_NOISE = 18, /* the noise is above 127 */
    GOMZELAT_BAD_NUMBER = 19, /* a transmission's number is above 7 */
    GOMZELAT_BAD_SCRAMBLING = 20, /* n_RNTI is above 65,535, q above 1, n_s above 19, or the cell above 503 */
    GOMZELAT_BAD_POINTS = 21, /* the bits are no multiple of Q_m, or a coordinate isn't from -4000 to 4000 */
    GOMZELAT_SHORT_OUTPUT = 22, /* the output buffer is too short */
    GOMZELAT_SHORT_CELLS = 23, /* there are fewer soft cells than gomzelat_sizes says */
    GOMZELAT_SHORT_BLOCKS = 24, /* there are fewer entries than code blocks */
    GOMZELAT_SHORT_BITS = 25 /* there are fewer bytes than the code blocks have bits */
};

/* Returns the text of a return code. */
static inline const char *gomzelat_text(uint32_t answer) {
    switch (answer) {
    case GOMZELAT_DONE: return "done";
    case GOMZELAT_NO_MEMORY: return "memory ran out";
    case GOMZELAT_BAD_LENGTH: return "a payload has 1 to 18722 bytes";
    case GOMZELAT_BAD_COUNT: return "there are 1 to 8 transmissions";
    case GOMZELAT_BAD_QM: return "Q_m is 2, 4 or 6";
    case GOMZELAT_BAD_NL: return "N_L is 1 or 2";
    case GOMZELAT_BAD_G: return "G is 1 to 1000000 and a multiple of N_L * Q_m";
    case GOMZELAT_BAD_VERSION: return "a redundancy version is 0 to 3";
    case GOMZELAT_BAD_BUFFER: return "N_IR is too small for the payload";
    case GOMZELAT_BAD_BLOCK: return "there is no code block of that number";
    case GOMZELAT_BAD_WINDOWS: return "the greatest number of windows is 1 to 64";
    case GOMZELAT_BAD_LIMIT: return "the greatest number of iterations is 1 to 16";
    case GOMZELAT_BAD_SIZE: return "K is one of the 188 sizes of a code block";
    case GOMZELAT_BAD_FILLERS: return "there are fewer fillers than bits";
    case GOMZELAT_BAD_CHECK: return "a check is CRC24A or CRC24B";
    case GOMZELAT_BAD_VALUES: return "there are as many soft values as bits";
    case GOMZELAT_BAD_BITS: return "there are fewer bytes than the bits need";
    case GOMZELAT_BAD_AMP: return "an amplitude is 1 to 127";
    case GOMZELAT_BAD_NOISE: return "noise is 0 to 127";
    case GOMZELAT_BAD_NUMBER: return "the number of a transmission is 0 to 7";
    case GOMZELAT_BAD_SCRAMBLING: return "a number of the scrambling is out of range";
    case GOMZELAT_BAD_POINTS: return "bits are a multiple of Q_m, coordinates from -4000 to 4000";
    case GOMZELAT_SHORT_OUTPUT: return "a buffer is too short for what is written";
    case GOMZELAT_SHORT_CELLS: return "there are fewer soft cells than the code blocks have";
    case GOMZELAT_SHORT_BLOCKS: return "there are fewer entries than code blocks";
    case GOMZELAT_SHORT_BITS: return "there are fewer bytes than the code blocks have bits";
    default: return "no answer of this version";
    }
}

#define GOMZELAT_MOST_BYTES 18722
#define GOMZELAT_MOST_BITS 1000000
#define GOMZELAT_MOST_TRANSMISSIONS 8

/* The greatest numbers of gomzelat_sizes, for buffers of a fixed size. */
#define GOMZELAT_MOST_CELLS 451500
#define GOMZELAT_MOST_BLOCKS 25
#define GOMZELAT_MOST_BLOCK_BITS 150400

/* The bytes that so many bits take. */
#define GOMZELAT_BYTES(bits) (((size_t)(bits) + 7) / 8)

/* One transmission of a transport block (5.1.4.1.2). */
struct gomzelat_transmission {
    uint32_t qm; /* Q_m, the bits of a modulation symbol: 2, 4 or 6 */
    uint32_t nl; /* N_L, the layers: 1 or 2 */
    uint32_t g;  /* G, its bits: 1 to GOMZELAT_MOST_BITS, a multiple of nl * qm */
    uint32_t rv; /* its redundancy version: 0 to 3 */
};

/* Writes the codeword of a transmission: to `out`, of `room` bytes, its G bits in GOMZELAT_BYTES(G) bytes, with unused
 * low bits 0; the bytes after them are unchanged.
 *
 * `payload`, `length`: the transport block, 1 to GOMZELAT_MOST_BYTES bytes.
 * `n_ir`: N_IR, the soft values of the receiver's buffer for the transport block, or 0 for a full buffer. A code
 * block's share, N_IR / C rounded down, must hold the first stream of the largest block: 32 times the rows of its
 * sub-block interleaver.
 *
 * Refused: BAD_LENGTH, BAD_QM, BAD_NL, BAD_G, BAD_VERSION, BAD_BUFFER, SHORT_OUTPUT. */
uint32_t gomzelat_codeword(const uint8_t *payload, size_t length, struct gomzelat_transmission transmission,
                           uint32_t n_ir, uint8_t *out, size_t room);

/* Writes the codewords of `count` transmissions, 1 to GOMZELAT_MOST_TRANSMISSIONS, with one soft buffer, encoding the
 * transport block once: to `out`, of `room` bytes, one after the other, each in its own GOMZELAT_BYTES(G) bytes as
 * gomzelat_codeword writes it; the bytes after them are unchanged.
 *
 * Refused: BAD_LENGTH, BAD_COUNT, BAD_QM, BAD_NL, BAD_G, BAD_VERSION, BAD_BUFFER, SHORT_OUTPUT. */
uint32_t gomzelat_codewords(const uint8_t *payload, size_t length, const struct gomzelat_transmission *transmissions,
                            size_t count, uint32_t n_ir, uint8_t *out, size_t room);

/* How a transport block is cut into code blocks (5.1.2): the first `c_minus` have `k_minus` bits, the others, `c_plus`
 * of them, `k_plus`, and the first one begins with `f` fillers. */
struct gomzelat_plan {
    size_t c;
    size_t k_plus;
    size_t k_minus;
    size_t c_plus;
    size_t c_minus;
    size_t f;
};

/* Writes the plan of a payload of `length` bytes to `plan`. Refused: BAD_LENGTH. */
uint32_t gomzelat_plan(size_t length, struct gomzelat_plan *plan);

/* Writes the K bits of code block `r`, counted from 0, to `out`: each 0 or 1 in a byte, fillers 0, with all check bits.
 * Refused: BAD_LENGTH, BAD_BLOCK, SHORT_OUTPUT. */
uint32_t gomzelat_code_block(const uint8_t *payload, size_t length, size_t r, uint8_t *out, size_t room);

/* Writes the coded streams d0, d1 and d2 of code block `r` (5.1.3.2) to `out`, one after the other, each of K + 4 cells:
 * 0, 1, or 2 at a NULL. Refused: BAD_LENGTH, BAD_BLOCK, SHORT_OUTPUT. */
uint32_t gomzelat_streams(const uint8_t *payload, size_t length, size_t r, uint8_t *out, size_t room);

/* Writes to `out`, for each of the K_w places of the circular buffer of code block `r` (5.1.4.1), its bit: 65,536 times
 * its stream, plus its index; or 2^32 - 1 at a NULL. K_w is 96 * ceil((K + 4) / 32).
 * Refused: BAD_LENGTH, BAD_BLOCK, SHORT_OUTPUT. */
uint32_t gomzelat_spots(size_t length, size_t r, uint32_t *out, size_t room);

/* The part of its circular buffer that a code block sends (5.1.4.1.2). */
struct gomzelat_piece {
    size_t k;      /* its bits */
    size_t fill;   /* those that are fillers */
    size_t buffer; /* K_w, the places of its circular buffer */
    size_t places; /* N_cb, those of them from which it sends */
    size_t start;  /* k0, which is below N_cb or is taken modulo N_cb */
    size_t bits;   /* E, the bits that are sent */
};

/* Writes to `piece` what code block `r` of a payload of `length` bytes sends in a transmission.
 * Refused: BAD_LENGTH, BAD_QM, BAD_NL, BAD_G, BAD_VERSION, BAD_BUFFER, BAD_BLOCK. */
uint32_t gomzelat_piece(size_t length, size_t r, struct gomzelat_transmission transmission, uint32_t n_ir,
                        struct gomzelat_piece *piece);

/* Writes the E bits that code block `r` sends in a transmission to `out`, each 0 or 1 in a byte; the bytes after them
 * are unchanged. Block after block, these are the bits of the codeword.
 * Refused: BAD_LENGTH, BAD_QM, BAD_NL, BAD_G, BAD_VERSION, BAD_BUFFER, BAD_BLOCK, SHORT_OUTPUT. */
uint32_t gomzelat_select(const uint8_t *payload, size_t length, size_t r, struct gomzelat_transmission transmission,
                         uint32_t n_ir, uint8_t *out, size_t room);

/* The check bits of a transport block, and of a code block where there are several (5.1.1, 5.1.2). */
#define GOMZELAT_CRC24A 0
#define GOMZELAT_CRC24B 1

/* Writes the 24 check bits of bits to `out`, each 0 or 1 in a byte, the first one first: by CRC24A, and by CRC24B.
 *
 * `bits`, `count`: a byte for each bit, in their order, where any byte but 0 is a 1; there may be any number of them,
 * also none.
 *
 * Refused: SHORT_OUTPUT, where `room` is below 24. */
uint32_t gomzelat_crc24a(const uint8_t *bits, size_t count, uint8_t *out, size_t room);
uint32_t gomzelat_crc24b(const uint8_t *bits, size_t count, uint8_t *out, size_t room);

/* How a receiver decodes. A code block of K bits has the greatest number of windows up to `windows` that divides K,
 * with at least 8 bits in each. 8, 16 and 32 windows run in lock step, which is fastest: 8 for every K from 64 on, 16
 * from 512 on, 32 from 1,024 on. More windows decode a little worse: each knows less of the bits beyond its borders. */
struct gomzelat_receiver {
    uint32_t n_ir;    /* N_IR, as for gomzelat_codeword; 0 is a full buffer */
    uint32_t windows; /* the most windows of a code block: 1 to 64 */
    uint32_t limit;   /* the most iterations of a code block: 1 to 16 */
};

/* The outcome of a transport block after its transmissions. */
struct gomzelat_outcome {
    uint32_t delivered;   /* 1 where all checks held, else 0 */
    size_t transmissions; /* up to the first after which all checks held, else all */
    size_t iterations;    /* the sum over the code blocks, of each one's last decoding */
};

/* Receives a transport block of `length` bytes from `count` transmissions, 1 to GOMZELAT_MOST_TRANSMISSIONS, which
 * share one soft buffer. After each, in order, the code blocks that haven't passed are decoded; it ends with the first
 * after which all checks hold. Writes to `outcome`, and, if the block was delivered, its bytes to `payload`, of
 * `room` bytes, at least `length`.
 *
 * `values`, `amount`: the soft values of all transmissions, one transmission after the other, as many as they have
 * bits.
 *
 * THE ZERO BLOCK. If little but parity bits was received (redundancy version 2 or 3 comes first, and the payload has
 * more bits than were sent), the decoder tends to all zeros, whose checks hold: an all-zero block may be delivered that
 * wasn't sent, far more often than 24-bit checks hold by chance. Don't trust an all-zero payload there: wait for a
 * transmission that has the systematic bits (redundancy version 0).
 *
 * Refused: BAD_LENGTH, BAD_COUNT, BAD_QM, BAD_NL, BAD_G, BAD_VERSION, BAD_BUFFER, BAD_WINDOWS, BAD_LIMIT, BAD_VALUES,
 * SHORT_OUTPUT. */
uint32_t gomzelat_receive(size_t length, const struct gomzelat_transmission *transmissions, size_t count,
                          struct gomzelat_receiver receiver, const int8_t *values, size_t amount,
                          uint8_t *payload, size_t room, struct gomzelat_outcome *outcome);

/* ---- HARQ combining, one transmission at a time: the caller keeps the state between calls, in three arrays that it
 * owns. All are 0 before the first transmission, and there is nothing to free. After each transmission gomzelat_combine
 * adds its soft values to the cells, and gomzelat_decode decodes the code blocks that haven't passed. A caller that
 * continues until a transport block is delivered gets the outcome of gomzelat_receive for the same transmissions. Any
 * content of the arrays is valid: they may be saved, copied and edited. */

/* The array sizes for a transport block: soft cells, entries of code blocks, bits. */
struct gomzelat_sizes {
    size_t cells;  /* for each bit of the three coded streams of each code block: 3 * (K + 4) of each */
    size_t blocks; /* C */
    size_t bits;   /* K of each code block */
};

/* Writes the array sizes for a transport block of `length` bytes to `sizes`. Refused: BAD_LENGTH. */
uint32_t gomzelat_sizes(size_t length, struct gomzelat_sizes *sizes);

/* Adds the soft values of one transmission to the soft cells of a transport block of `length` bytes: each to the cell
 * of the bit that was sent at its place. Each addition saturates at -127 and 127.
 *
 * `n_ir`: as for gomzelat_codeword.
 * `values`, `amount`: a soft value for each of the transmission's bits.
 * `cells`, `room`: the cells, as many as gomzelat_sizes says or more; any further ones are unchanged. For each block:
 * d0, then d1, then d2. -128 is taken as -127.
 *
 * Refused: BAD_LENGTH, BAD_QM, BAD_NL, BAD_G, BAD_VERSION, BAD_BUFFER, BAD_VALUES, SHORT_CELLS. */
uint32_t gomzelat_combine(size_t length, struct gomzelat_transmission transmission, uint32_t n_ir,
                          const int8_t *values, size_t amount, int8_t *cells, size_t room);

/* The outcome of a code block. */
struct gomzelat_result {
    uint32_t passed;   /* 1 where its check holds, else 0; whatever isn't 0 is taken as 1 */
    size_t iterations; /* that its last decoding took */
};

/* Decodes the code blocks of a transport block of `length` bytes from its soft cells, except those whose entry is
 * marked as passed; if all entries are, all are decoded again (the transport block's check had failed, or the block
 * was delivered before).
 *
 * `cells`, `amount`: as gomzelat_combine wrote them.
 * `blocks`, `count`: an entry for each code block: its outcome in the call before, and after this call its outcome now.
 * `bits`, `extent`: a byte 0 or 1 for each bit of the code blocks, one block after the other, fillers and check bits
 * included: in, those of the previous call; out, the decided ones, also of blocks that failed. Any byte but 0 is read
 * as 1.
 * `payload`, `room`: the bytes that these bits carry are written here, whether or not the checks hold.
 * `delivered`: 1 where the checks of all code blocks and of the transport block hold, else 0. Don't trust an all-zero
 * payload from little but parity bits: see THE ZERO BLOCK at gomzelat_receive.
 *
 * Refused: BAD_LENGTH, BAD_BUFFER, BAD_WINDOWS, BAD_LIMIT, SHORT_OUTPUT, SHORT_CELLS, SHORT_BLOCKS, SHORT_BITS. */
uint32_t gomzelat_decode(size_t length, struct gomzelat_receiver receiver, const int8_t *cells, size_t amount,
                         struct gomzelat_result *blocks, size_t count, uint8_t *bits, size_t extent,
                         uint8_t *payload, size_t room, uint32_t *delivered);

/* A code block by itself. */
struct gomzelat_code {
    size_t k;       /* K, its bits: one of the 188 sizes */
    size_t fill;    /* those of them that are fillers, which come first: fewer than K */
    uint32_t check; /* the check that it ends with: GOMZELAT_CRC24A or GOMZELAT_CRC24B */
};

/* Decodes one code block from the soft values of its coded streams, as gomzelat_decode decodes each.
 *
 * `windows`, `limit`: the most windows and the most iterations, as in gomzelat_receiver.
 * `values`, `amount`: 3 * (K + 4) soft values: those of d0, of d1 and of d2 (5.1.3.2). Those at the fillers of d0
 * and d1 aren't used.
 * `bits`, `room`: a byte 0 or 1 for each of the K bits is written here, fillers 0, whether or not the check holds; the
 * bytes after them are unchanged.
 * `result`: whether the check holds, and the iterations that it took.
 *
 * Refused: BAD_SIZE, BAD_FILLERS, BAD_CHECK, BAD_WINDOWS, BAD_LIMIT, BAD_VALUES, SHORT_OUTPUT. */
uint32_t gomzelat_decode_block(struct gomzelat_code block, uint32_t windows, uint32_t limit,
                               const int8_t *values, size_t amount, uint8_t *bits, size_t room,
                               struct gomzelat_result *result);

/* A channel. */
struct gomzelat_channel {
    uint64_t seed;  /* the seed of the noise */
    uint32_t amp;   /* the soft value of a bit 0, 1 to 127; that of a bit 1 is its negative */
    uint32_t noise; /* the noise's standard deviation, nearly: 0 to 127 */
};

/* Writes to `out`, of `room` values, a soft value for each of the first `count` bits of `bits`, which has `length`
 * bytes: its amplitude and a term of noise, clamped. The term of a bit comes from the seed, from `block` and `number`,
 * those of the block and of its transmission, from 0, and from its place. The program's `channel` and `trial` do the
 * same.
 *
 * Refused: BAD_BITS, BAD_AMP, BAD_NOISE, BAD_NUMBER, SHORT_OUTPUT. */
uint32_t gomzelat_noisy(const uint8_t *bits, size_t length, size_t count, struct gomzelat_channel channel,
                        uint32_t block, uint32_t number, int8_t *out, size_t room);

/* Fills `out`, of `length` bytes, with the payload of a block, counted from 0, from a seed, as the program's `trial`
 * does. Refused: BAD_LENGTH. */
uint32_t gomzelat_trial_payload(uint64_t seed, uint32_t block, uint8_t *out, size_t length);

/* ---- Between the bits of a codeword and what is sent (36.211): scrambling and modulation. The calls are independent:
 * a caller with another channel uses those that it needs. */

/* The numbers of a scrambling sequence. */
struct gomzelat_scrambling {
    uint32_t rnti; /* n_RNTI, the terminal's identity: 0 to 65,535 */
    uint32_t q;    /* q, the number of the codeword: 0 or 1; 0 in the uplink */
    uint32_t slot; /* n_s, the slot within the radio frame: 0 to 19 */
    uint32_t cell; /* the identity of the cell: 0 to 503 */
};

/* Writes to `init` c_init, which initialises the scrambling sequence c of a transmission (36.211 6.3.1; with q = 0 also
 * 5.3.1; the sequence itself 7.2). Refused: BAD_SCRAMBLING. */
uint32_t gomzelat_init(struct gomzelat_scrambling scrambling, uint32_t *init);

/* Scrambles the first `count` bits of `bits`, which has `length` bytes, in place: adds c(i) to bit i, modulo 2
 * (36.211 5.3.1, 6.3.1). Unused low bits of their last byte become 0; the bytes after them are unchanged. Scrambling
 * twice gives the original bits.
 *
 * Refused: BAD_BITS, BAD_SCRAMBLING. */
uint32_t gomzelat_scramble(uint8_t *bits, size_t length, size_t count, struct gomzelat_scrambling scrambling);

/* Descrambles `amount` soft values in place: negates value i where c(i) is 1. -128 is taken as -127.
 * Refused: BAD_SCRAMBLING. */
uint32_t gomzelat_descramble(int8_t *values, size_t amount, struct gomzelat_scrambling scrambling);

/* A point of a constellation, or one that was received. */
struct gomzelat_point {
    int32_t i;
    int32_t q;
};

/* Maps the first `count` bits of `bits`, which has `length` bytes, to count / Q_m points, Q_m bits each: to `points`,
 * of `room` points. Their coordinates are odd numbers from -1 to 1, -3 to 3 or -7 to 7: those of 36.211 7.1.2 to 7.1.4,
 * times the square root of 2, 10 or 42.
 *
 * `qm`: Q_m, 2 (QPSK), 4 (16QAM) or 6 (64QAM).
 * `count`: a multiple of Q_m.
 *
 * Refused: BAD_QM, BAD_BITS, BAD_POINTS, SHORT_OUTPUT. */
uint32_t gomzelat_map(const uint8_t *bits, size_t length, size_t count, uint32_t qm, struct gomzelat_point *points,
                      size_t room);

/* Writes to `out`, of `room` values, the Q_m soft values of each of `count` received points. A bit's value is the
 * squared distance to the nearest point whose bit is 1, less that to the nearest whose bit is 0, divided by four times
 * the amplitude, rounded toward 0, and clamped to -127 to 127.
 *
 * `points`: coordinates from -4000 to 4000, those of gomzelat_map times the amplitude where there is no noise.
 * `qm`: Q_m, 2, 4 or 6.
 * `amp`: the amplitude, 1 to 127.
 *
 * Refused: BAD_QM, BAD_AMP, BAD_POINTS, SHORT_OUTPUT. */
uint32_t gomzelat_demap(const struct gomzelat_point *points, size_t count, uint32_t qm, uint32_t amp, int8_t *out,
                        size_t room);

/* The edition of these declarations. */
#define GOMZELAT_VERSION 2

/* Returns the library's edition, to be compared with the header's before any other call. It isn't an error code. */
uint32_t gomzelat_version(void);

#ifdef __cplusplus
}
#endif

#endif
