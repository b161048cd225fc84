/* instructions CALL CODE COUNT: makes so many calls of a lookup with a wrap code, each with drawn arguments of its own that the unit takes.
 * They are the same on every run. tools/instructions counts what the calls execute.
 * instructions generate_mipmaps KIND COUNT WIDTH HEIGHT MODE: so many chains of drawn texels. check_chain in its place: the chain is made
 * beforehand, and so many times checked. CALL may be nothing: arguments are drawn, with sides the chain is made as for a check, and no call
 * is made. */
#include <stdint.h>
#include <stdio.h>
#include <stdlib.h>
#include <string.h>

#include "swathecold.h"

/* The bench's pictures, both in one buffer: Linear 512 square, and a cubemap 256 square, whose chain is the longer one. */
enum { TEXELS = 6 * (4 * 256 * 256 - 1) / 3, TOP = 8 };
#define FLAT 4, 512, 512, texels, TEXELS
#define CUBE 3, 256, 256, texels, TEXELS
static uint32_t texels[TEXELS];

/* The picture that chains are made of, and the mode. */
struct chain {
    uint32_t width, height, mode;
};

struct arguments {
    float u[4], v[4], steps[4], x[4], y[4], z[4], fractions[4];
    uint32_t level, levels[4];
};

/* SplitMix64. */
static uint64_t next(void) {
    static uint64_t state = 1;
    uint64_t z = state += 0x9E3779B97F4A7C15u;
    z = (z ^ z >> 30) * 0xBF58476D1CE4E5B9u;
    z = (z ^ z >> 27) * 0x94D049BB133111EBu;
    return z ^ z >> 31;
}

static uint32_t below(uint32_t n) { return (uint32_t)(next() % n); }

static double between(double least, double most) { return least + (most - least) * (double)(next() >> 11) / 0x1p53; }

/* Four neighbouring pixels: values that lie at most a step apart. */
static void near(float lanes[4], double at, double step) {
    for (int i = 0; i < 4; i++) lanes[i] = (float)(at + step * between(0, 1));
}

/* Coordinates in and around the picture, steps of about 1 to 32 texels, directions to all faces, every level. */
static struct arguments drawn(void) {
    struct arguments a = {.level = below(TOP + 1)};
    double step = between(1, 2) * (1u << below(5)) / 512;
    near(a.u, between(-2, 3), step);
    near(a.v, between(-2, 3), step);
    near(a.x, between(-1, 1), step);
    near(a.y, between(-1, 1), step);
    near(a.z, between(-1, 1), step);
    for (int i = 0; i < 4; i++) {
        a.steps[i] = (float)(step * between(0.5, 1));
        a.levels[i] = below(TOP + 1);
        a.fractions[i] = (float)between(0, TOP);
    }
    return a;
}

enum { NOTHING, MIP_LEVEL, SAMPLE4_RGB, SAMPLE4_ALPHA, BILINEAR_RGB, BILINEAR_ALPHA, CUBE_UV, CUBE_RGB, TRILINEAR_RGB, CHAIN, CHECK, CALLS };
static const char *const names[CALLS] = {
    [NOTHING] = "nothing",
    [MIP_LEVEL] = "compute_mip_level",
    [SAMPLE4_RGB] = "sample4_rgb",
    [SAMPLE4_ALPHA] = "sample4_alpha",
    [BILINEAR_RGB] = "sample_bilinear_rgb",
    [BILINEAR_ALPHA] = "sample_bilinear_alpha",
    [CUBE_UV] = "cubemap_uv_from_normal",
    [CUBE_RGB] = "sample_cubemap_rgb",
    [TRILINEAR_RGB] = "sample_cubemap_trilinear_rgb",
    [CHAIN] = "generate_mipmaps",
    [CHECK] = "check_chain",
};

/* Which call has the name; CALLS where none has. */
static int which(const char *name) {
    int at = 0;
    while (at < CALLS && strcmp(name, names[at])) at++;
    return at;
}

/* Whether so many words go with the call: a chain has its sides and its mode. */
static int has_words(int at, int count) {
    if (at == NOTHING) return count == 4 || count == 7;
    return at != CALLS && count == (at < CHAIN ? 4 : 7);
}

static uint32_t made(uint32_t kind, struct chain of) {
    uint64_t written;
    return swathecold_generate_mipmaps(kind, of.width, of.height, of.mode, texels, TEXELS, &written);
}

/* A check that stops before the chain's end is not the one that is counted. */
static uint32_t checked(uint32_t kind, struct chain of) {
    uint64_t verdict[2];
    uint32_t refused = swathecold_check_chain(kind, of.width, of.height, of.mode, texels, TEXELS, verdict);
    if (!refused && verdict[0] != 1) abort();
    return refused;
}

/* The call's refusal number, or 0. */
static uint32_t call(int at, uint32_t code, struct chain of, const struct arguments *a) {
    static const uint32_t no_faces[4];
    static uint32_t numbers[4];
    static float lanes[12];
    switch (at) {
    case NOTHING: return 0;
    case MIP_LEVEL: return swathecold_compute_mip_level(512, 512, a->steps, numbers);
    case SAMPLE4_RGB: return swathecold_sample4_rgb(FLAT, code, code, a->u, a->v, a->steps, lanes);
    case SAMPLE4_ALPHA: return swathecold_sample4_alpha(FLAT, code, code, a->u, a->v, a->steps, lanes);
    case BILINEAR_RGB: return swathecold_sample_bilinear_rgb(FLAT, code, code, a->u, a->v, a->level, no_faces, lanes);
    case BILINEAR_ALPHA: return swathecold_sample_bilinear_alpha(FLAT, code, code, a->u, a->v, a->level, lanes);
    case CUBE_UV: return swathecold_cubemap_uv_from_normal(a->x, a->y, a->z, lanes, numbers);
    case CUBE_RGB: return swathecold_sample_cubemap_rgb(CUBE, a->x, a->y, a->z, a->levels, lanes);
    case TRILINEAR_RGB: return swathecold_sample_cubemap_trilinear_rgb(CUBE, a->x, a->y, a->z, a->fractions, lanes);
    case CHAIN: return made(code, of);
    default: return checked(code, of);
    }
}

int main(int count, char **words) {
    int at = count > 3 ? which(words[1]) : CALLS;
    if (!has_words(at, count)) {
        fputs("instructions: give CALL CODE COUNT, or generate_mipmaps or check_chain KIND COUNT WIDTH HEIGHT MODE\n", stderr);
        return 1;
    }
    uint32_t code = (uint32_t)atol(words[2]);
    struct chain of = {0, 0, 0};
    if (count == 7) of = (struct chain){(uint32_t)atol(words[4]), (uint32_t)atol(words[5]), (uint32_t)atol(words[6])};
    for (int i = 0; i < TEXELS; i++) texels[i] = (uint32_t)next();
    uint32_t refused = count == 7 && at != CHAIN ? made(code, of) : 0;
    for (long left = atol(words[3]); left > 0 && !refused; left--) {
        struct arguments a = drawn();
        refused = call(at, code, of, &a);
    }
    if (refused) fprintf(stderr, "instructions: %s: refused %u\n", words[1], refused);
    return refused != 0;
}
