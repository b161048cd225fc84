/* Compares the unit's square root with the C library's, which IEEE 754 wants correctly rounded too, pattern by pattern: every
 * significand over both parities of the exponent, every subnormal number, the ends of every exponent, and what has no root.
 * `roots all`: every f32 from 0 up. Prints how many agreed; answers 1 at the first that does not. */
#include <math.h>
#include <stdint.h>
#include <stdio.h>
#include <stdlib.h>
#include <string.h>

float swathecold_root(float x);

enum { EXPONENT = 1 << 23, ONE = 127 * EXPONENT, INFINITE = 255 * EXPONENT, ENDS = 256 };

static unsigned long compared;

static float number(uint32_t pattern) {
    float x;
    memcpy(&x, &pattern, sizeof x);
    return x;
}

static uint32_t pattern(float x) {
    uint32_t b;
    memcpy(&b, &x, sizeof b);
    return b;
}

static void expect(uint32_t of, uint32_t root) {
    uint32_t found = pattern(swathecold_root(number(of)));
    if (found != root) {
        printf("roots: not so: the root of pattern %08X is %08X, found %08X\n", of, root, found);
        exit(1);
    }
    compared++;
}

static void from_to(uint32_t from, uint32_t to) {
    for (uint32_t of = from; of < to; of++) expect(of, pattern(sqrtf(number(of))));
}

int main(int words, char **word) {
    const uint32_t below_zero = 0x80000000u, not_a_number = INFINITE + EXPONENT / 2;
    if (words > 1 && strcmp(word[1], "all") == 0) {
        from_to(0, INFINITE);
    } else {
        from_to(ONE, ONE + 2 * EXPONENT);
        from_to(0, EXPONENT);
        for (uint32_t at = EXPONENT; at < INFINITE; at += EXPONENT) from_to(at, at + ENDS), from_to(at + EXPONENT - ENDS, at + EXPONENT);
    }
    expect(below_zero, 0);
    expect(INFINITE, INFINITE);
    expect(not_a_number, not_a_number);
    for (uint32_t at = 1; at < INFINITE; at += EXPONENT - 1) expect(below_zero + at, below_zero + at);
    printf("roots: %lu patterns, no difference\n", compared);
    return 0;
}
