/* The product of two numbers of 128 bits, modulo 2^128, which compiled code calls by this name. WebAssembly has
 * products of 64 bits alone, and the toolchain has this function for x86-64 alone. Nothing proves this file. */
typedef unsigned long u64;
typedef unsigned __int128 u128;

static u64 low(u64 n) { return n & 0xffffffff; }
static u64 high(u64 n) { return n >> 32; }

u128 __multi3(u128 a, u128 b) {
    u64 a0 = (u64)a, a1 = (u64)(a >> 64), b0 = (u64)b, b1 = (u64)(b >> 64);
    u64 first = low(a0) * low(b0), left = high(a0) * low(b0), right = low(a0) * high(b0);
    u64 middle = high(first) + low(left) + low(right);
    u64 upper = high(a0) * high(b0) + high(left) + high(right) + high(middle) + a0 * b1 + a1 * b0;
    return (u128)upper << 64 | (middle << 32 | low(first));
}
