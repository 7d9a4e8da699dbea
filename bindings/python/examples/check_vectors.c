/* Compares a coder with a suite of vectors: here the library's own call stands where yours would.
 *
 *     cc -Ibindings/c bindings/python/examples/check_vectors.c bindings/out/libgomzelat.a -o check
 *     ./check vectors/size_*
 */
#include "gomzelat.h"

#include <stdio.h>

/* Reads the numbers of a file, and returns how many there are. */
static size_t read_hex(const char *folder, const char *name, uint8_t *out) {
    char path[4096];
    unsigned number;
    size_t count = 0;
    snprintf(path, sizeof path, "%s/%s", folder, name);
    FILE *file = fopen(path, "r");
    while (file && fscanf(file, "%x", &number) == 1) out[count++] = (uint8_t)number;
    if (file) fclose(file);
    return count;
}

int main(int count, char **folders) {
    static uint8_t payload[GOMZELAT_MOST_BYTES], wanted[GOMZELAT_BYTES(GOMZELAT_MOST_BITS)], made[sizeof wanted];
    int differing = 0;
    for (int i = 1; i < count; i++) {
        size_t length = read_hex(folders[i], "payload.hex", payload), bytes = read_hex(folders[i], "codeword_0.hex", wanted);
        /* The cases of the sizes are QPSK, version 0, with twice as many bits as their code block has. */
        struct gomzelat_transmission sent = {.qm = 2, .nl = 1, .g = (uint32_t)(2 * (8 * length + 24)), .rv = 0};
        uint32_t answer = gomzelat_codeword(payload, length, sent, 0, made, sizeof made);
        int same = answer == GOMZELAT_DONE && bytes == GOMZELAT_BYTES(sent.g);
        for (size_t at = 0; same && at < bytes; at++) same = made[at] == wanted[at];
        if (!same) printf("%s differs\n", folders[i]);
        differing += !same;
    }
    printf("%d of %d are the same\n", count - 1 - differing, count - 1);
    return differing != 0 || count < 2;
}
