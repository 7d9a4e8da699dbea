/* Comparing, and telling what differs. */
#ifndef EXPECT_H
#define EXPECT_H

#include <stddef.h>
#include <stdio.h>
#include <string.h>

static int failures;

static inline void expect(const char *what, size_t got, size_t want) {
    if (got != want) {
        printf("%s: %zu, and not %zu\n", what, got, want);
        failures++;
    }
}

static inline void expect_bytes(const char *what, const void *got, const void *want, size_t length) {
    if (memcmp(got, want, length) != 0) {
        printf("%s: other bytes\n", what);
        failures++;
    }
}

#endif
