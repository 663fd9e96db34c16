/* Writes the inputs and the expected outputs of the programs root_vectors and root_sweep, by C's sqrtf, which IEEE 754 requires to be
   rounded to nearest even. Built and run by tools/root_expected. It shares no code with the crates. */
#include <math.h>
#include <stdint.h>
#include <stdio.h>
#include <string.h>

static FILE *in, *out;

static float of_bits(uint32_t b) { float x; memcpy(&x, &b, 4); return x; }
static uint32_t to_bits(float x) { uint32_t b; memcpy(&b, &x, 4); return b; }

/* 1 if sqrtf is to be asked: a finite float that is not negative, or either zero */
static int taken(uint32_t b) { return b == 0x80000000u || b < 0x7f800000u; }

static void vector(uint32_t b) {
    fprintf(in, "%08x\n", b);
    if (taken(b)) fprintf(out, "%08x\n", to_bits(sqrtf(of_bits(b))));
    else fprintf(out, "(refused 3)\n");
}

static void around(uint32_t b) { for (int d = -2; d <= 2; d++) vector(b + (uint32_t)d); }

/* lines that are no eight lowercase digits */
static void bad(const char *line) { fprintf(in, "%s\n", line); fprintf(out, "(refused 1)\n"); }

static uint32_t next(uint32_t p) { return p * 1664525u + 1013904223u; }

static int vectors(void) {
    /* zeros, ones, ends of the subnormals, of the exponents and of the finite, infinities and NaNs, both signs */
    for (uint32_t sign = 0; sign < 2; sign++) {
        uint32_t s = sign << 31;
        vector(s); vector(s + 1); vector(s + 2); vector(s + 3);
        around(s + 0x00400000u); around(s + 0x00800000u); around(s + 0x3f800000u);
        around(s + 0x7f7ffffdu); vector(s + 0x7f800000u); vector(s + 0x7f800001u); vector(s + 0x7fc00000u); vector(s + 0x7fffffffu);
    }
    for (uint32_t e = 1; e < 255; e++) around(e << 23);               /* both ends of every exponent */
    for (int k = 0; k < 23; k++) around(1u << k);                     /* subnormal powers of two */
    for (uint32_t n = 1; n <= 300; n++) around(to_bits((float)(n * n))); /* squares and their neighbours */
    for (uint32_t p = 0x800000u, i = 0; i < 64; i++, p += 0x1ffffu) {  /* squares of 24-digit numbers, rounded, and their neighbours */
        float f = (float)p; around(to_bits(f * f));
    }
    bad(""); bad("4"); bad("4080000"); bad("408000000"); bad("4080000A"); bad("ABCDEF00"); bad("0x408000"); bad("-0800000");
    bad(" 4080000"); bad("4080000 "); bad("+0800000"); bad("4080000\r"); bad("zzzzzzzz"); bad("4080\t000");
    for (int k = 0; k < 200; k++) fputc('0', in);                     /* a long line */
    bad("");
    fputs("4080000", in); fputs("(refused 1)\n", out);                /* a last line without its end */
    return 0;
}

static int sweep(void) {
    uint32_t p = 0x20261115u;
    for (int block = 0; block < 100; block++) {
        uint32_t sum = 0;
        for (int i = 0; i < 1024; i++) {
            uint32_t b = (p & 0x7fffffffu) > 0x7f800000u ? 0x7f800000u : p;
            sum = sum * 31u + (taken(b) ? to_bits(sqrtf(of_bits(b))) : 3u);
            p = next(p);
        }
        fprintf(out, "(block %02x %08x)\n", block, sum);
    }
    return 0;
}

int main(int argc, char **argv) {
    if (argc == 4 && strcmp(argv[1], "vectors") == 0) {
        in = fopen(argv[2], "wb"); out = fopen(argv[3], "wb");
        return in && out ? vectors() : 1;
    }
    if (argc == 3 && strcmp(argv[1], "sweep") == 0) {
        out = fopen(argv[2], "wb");
        return out ? sweep() : 1;
    }
    fprintf(stderr, "root_expected vectors STDIN STDOUT | root_expected sweep STDOUT\n");
    return 2;
}
