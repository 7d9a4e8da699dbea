/* The product of 128 bits as the compiler's own, in a million random cases. */
#define __multi3 product
#include "../product.c"
#include <stdio.h>

static u64 state = 1;
static u64 drawn(void) {
    state = state * 6364136223846793005u + 1442695040888963407u;
    return state ^ state >> 29;
}

int main(void) {
    int wrong = 0;
    for (int i = 0; i < 1000000; i++) {
        u128 a = (u128)drawn() << 64 | drawn(), b = (u128)drawn() << 64 | drawn();
        /* Short factors, too: the upper parts of some are 0. */
        a >>= drawn() % 128, b >>= drawn() % 128;
        wrong += product(a, b) != a * b;
    }
    printf("%d products differ\n", wrong);
    return wrong != 0;
}
