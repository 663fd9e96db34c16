/* The exported root (crate root_export) of every pattern of 32 bits beside C's sqrtf, and how far Newton's steps lead; with a number, that many roots and
   nothing else, for counting. Built and run by tools/root_all. */
#include <inttypes.h>
#include <math.h>
#include <stdint.h>
#include <stdio.h>
#include <stdlib.h>
#include <string.h>

/* the root's bits, or 2^32 times the refusal's number */
extern uint64_t square_root(float x);

static float of_bits(uint32_t b) { float x; memcpy(&x, &b, 4); return x; }
static uint32_t to_bits(float x) { uint32_t b; memcpy(&b, &x, 4); return b; }

/* what 01 says of a pattern: non-negative finite ones and both zeros have a root, any other gets number 3 */
static uint64_t expected(uint32_t b) {
    if (b == 0x80000000u || b < 0x7f800000u) return to_bits(sqrtf(of_bits(b)));
    return (uint64_t)3 << 32;
}

static int answers(void) {
    uint64_t roots[2] = {0, 0}, refused[2] = {0, 0}, differ = 0;
    for (uint64_t k = 0; k < (uint64_t)1 << 32; k++) {
        uint32_t b = (uint32_t)k;
        uint64_t due = expected(b), said = square_root(of_bits(b));
        if (due >> 32) refused[b >> 31]++; else roots[b >> 31]++;
        if (said == due) continue;
        if (differ++ < 10) printf("%08" PRIx32 ": %" PRIx64 ", due is %" PRIx64 "\n", b, said, due);
    }
    printf("without a sign: %" PRIu64 " roots, %" PRIu64 " refusals\n", roots[0], refused[0]);
    printf("with a sign: %" PRIu64 " roots, %" PRIu64 " refusals\n", roots[1], refused[1]);
    printf("answers that differ: %" PRIu64 "\n", differ);
    return differ != 0;
}

/* the largest s with s * s <= n, for n below 2^52 */
static uint64_t whole(uint64_t n) {
    uint64_t s = (uint64_t)sqrt((double)n);
    while (s * s > n) s--;
    while ((s + 1) * (s + 1) <= n) s++;
    return s;
}

/* the steps of `narrowed` of the crate binary32, over m 2^23 and m 2^24 for every m of 24 digits */
static void steps(void) {
    uint64_t asked = 0, outside = 0, above = 0, once_most = 0, twice_most = 0;
    for (uint64_t m = (uint64_t)1 << 23; m < (uint64_t)1 << 24; m++) {
        for (int shift = 23; shift <= 24; shift++) {
            uint64_t n = m << shift, t = whole(1024 * (n >> 38)), root = whole(n);
            uint64_t low = t << 14, high = t < 1023 ? (t + 2) << 14 : (uint64_t)1 << 24;
            uint64_t middle = (low + high) / 2, once = (middle + n / middle) / 2, twice = (once + n / once) / 2;
            asked++;
            if (n < low * low || high * high <= n) outside++;
            if (once - root > once_most) once_most = once - root;
            if (twice - root > twice_most) twice_most = twice - root;
            if (twice != root) above++;
        }
    }
    printf("whole numbers asked: %" PRIu64 ", outside of the table's guess: %" PRIu64 "\n", asked, outside);
    printf("one step leads to at most %" PRIu64 " above the whole root, two to at most %" PRIu64 ", and above it for %" PRIu64 " of them\n",
           once_most, twice_most, above);
}

/* that many roots of pseudo-random floats from 0.5 to 32,768 */
static void take(long count) {
    uint32_t p = 0x20261117u, sum = 0;
    for (long i = 0; i < count; i++) {
        p = p * 1664525u + 1013904223u;
        sum = sum * 31 + (uint32_t)square_root(of_bits(0x3f000000u + p % 0x08000000u));
    }
    printf("%08" PRIx32 "\n", sum);
}

int main(int argc, char **argv) {
    if (argc == 2) { take(atol(argv[1])); return 0; }
    int status = answers();
    steps();
    return status;
}
