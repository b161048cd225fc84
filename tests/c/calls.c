/* Links the archive by its header and calls every name in it: document 01's reference items, the edges of levels, document 02's
 * packing, ranges, light and chains of other tools, a refusal of each call, and that a refusal writes nothing. Prints how many checks held;
 * answers 1 at the first that does not. */
#include <math.h>
#include <stdint.h>
#include <stdio.h>
#include <stdlib.h>
#include <string.h>

#include "swathecold.h"

enum { SRGB, NORMAL, METALLIC_ROUGHNESS, CUBEMAP, LINEAR };
enum { TRUNCATING, NEAREST };
enum { NOT_GIVEN = 0, REPEAT = 10497, CLAMP = 33071, MIRRORED = 33648 };
#define CANARY 0xC0FFEE11u
#define LEN(a) (sizeof(a) / sizeof *(a))

static int checks;

static void expect(int holds, const char *what) {
    if (!holds) {
        printf("C boundary: not so: %s\n", what);
        exit(1);
    }
    checks++;
}

static void sizes_and_chain(void) {
    uint64_t s[4] = {7, 7, 7, 7}, written = 7;
    expect(swathecold_level_sizes(LINEAR, 5, 3, 1, s) == 0 && s[0] == 15 && s[1] == 2 && s[2] == 1 && s[3] == 18, "5 by 3: level 1 is 2x1 at 15 of 18");
    expect(swathecold_level_sizes(LINEAR, 4097, 1, 0, s) == 2 && s[0] == 15, "4097: refusal 2, nothing written");
    expect(swathecold_level_sizes(CUBEMAP, 2, 2, 1, s) == 0 && s[0] == 24 && s[3] == 30, "a cubemap 2 by 2: level 1 at 24 of 30");
    uint32_t linear[] = {0x00FF00FF, 0xFF0000FF, CANARY, CANARY};
    expect(swathecold_generate_mipmaps(LINEAR, 2, 1, TRUNCATING, linear, LEN(linear), &written) == 0 && written == 3 && linear[2] == 0x7F7F00FF && linear[3] == CANARY, "Linear 00FF00FF, FF0000FF: 7F7F00FF");
    uint32_t rough[] = {0x11FF0022, 0x3300FF44, CANARY};
    expect(swathecold_generate_mipmaps(METALLIC_ROUGHNESS, 2, 1, TRUNCATING, rough, 3, &written) == 0 && rough[2] == 0x11B47F22, "MetallicRoughness: 11B47F22");
    uint32_t srgb[] = {0xFF0000FF, 0x000000FF, CANARY};
    expect(swathecold_generate_mipmaps(SRGB, 2, 1, TRUNCATING, srgb, 3, &written) == 0 && srgb[2] == 0xBB0000FF, "SRGB: BB0000FF");
    uint32_t normal[] = {0x01FF80FF, 0x01FF80FF, CANARY};
    written = 7;
    expect(swathecold_generate_mipmaps(NORMAL, 2, 1, TRUNCATING, normal, 2, &written) == 3 && written == 7 && normal[2] == CANARY, "one short: refusal 3, nothing written");
    expect(swathecold_generate_mipmaps(NORMAL, 2, 1, TRUNCATING, normal, 3, &written) == 0 && normal[2] == 0x00FF80FF, "Normal 01FF80FF twice: 00FF80FF");
}

/* Level 1 of a square of four texels; CANARY where the call refuses, counts otherwise or writes anywhere else. */
static uint32_t reduced(uint32_t kind, uint32_t mode, uint32_t p00, uint32_t p10, uint32_t p01, uint32_t p11) {
    uint32_t texels[] = {p00, p10, p01, p11, 0, CANARY};
    uint64_t written = 7;
    int made = swathecold_generate_mipmaps(kind, 2, 2, mode, texels, LEN(texels), &written) == 0 && written == 5;
    int kept = texels[0] == p00 && texels[1] == p10 && texels[2] == p01 && texels[3] == p11 && texels[5] == CANARY;
    return made && kept ? texels[4] : CANARY;
}

static void packing(void) {
    const uint32_t ones = 0x01010101;
    uint32_t linear[] = {0x00FF00FF, 0xFF0000FF, CANARY, CANARY}, rough[] = {0x11FF0022, 0x3300FF44, CANARY};
    uint32_t normal[] = {0x01FF80FF, 0x01FF80FF, CANARY}, row[] = {0, 0x01000001, 0x01000001, 0x02000002, CANARY, CANARY, CANARY, CANARY};
    uint64_t written = 7;
    expect(swathecold_generate_mipmaps(LINEAR, 2, 1, NEAREST, linear, LEN(linear), &written) == 0 && written == 3 && linear[2] == 0x808000FF && linear[3] == CANARY, "nearest: Linear 00FF00FF, FF0000FF: 808000FF");
    expect(swathecold_generate_mipmaps(NORMAL, 2, 1, NEAREST, normal, 3, &written) == 0 && normal[2] == 0x01FF80FF, "nearest: Normal 01FF80FF twice: 01FF80FF");
    expect(swathecold_generate_mipmaps(METALLIC_ROUGHNESS, 2, 1, NEAREST, rough, 3, &written) == 0 && rough[2] == 0x11B48022, "nearest: MetallicRoughness: 11B48022");
    expect(swathecold_generate_mipmaps(LINEAR, 4, 1, NEAREST, row, LEN(row), &written) == 0 && written == 7 && row[4] == 0x01000001 && row[5] == 0x02000002 && row[6] == 0x02000002 && row[7] == CANARY, "nearest at every level: 0, 1, 1, 2 give 1, 2 and then 2");
    expect(reduced(SRGB, TRUNCATING, 0xFF000000, 0x00FF0001, 0xFF000001, 0x00FF0000) == 0xBBBB0000, "SRGB, truncating: alpha 1/2 is 0");
    expect(reduced(SRGB, NEAREST, 0xFF000000, 0x00FF0001, 0xFF000001, 0x00FF0000) == 0xBBBB0001, "SRGB, nearest: only alpha 1/2 is 1");
    expect(reduced(METALLIC_ROUGHNESS, NEAREST, 0x07000009, 0x08010108, 0x08000108, 0x08000008) == 0x07010109, "nearest: red and alpha of the first texel; the root of 1/4 and the mean 1/2 are 1");
    expect(reduced(NORMAL, NEAREST, 0x02000001, 0x00020001, 0x00000200, 0x00000000) == 0, "nearest: Normal 0, 0, 0, 2: a product just below a half");
    for (uint32_t k = 0; k < 255; k++) {
        uint32_t below = k * ones, above = below + ones;
        expect(reduced(LINEAR, NEAREST, below, above, above, below) == above && reduced(LINEAR, NEAREST, below, below, above, below) == below, "nearest: k + 1/2 is k + 1, k + 1/4 is k");
    }
}

static void packing_refused(void) {
    const uint32_t unknown[] = {2, 3, 255, 256, 0x80000000u, UINT32_MAX}, old[4] = {0x00FF00FF, 0xFF0000FF, CANARY, CANARY};
    uint32_t texels[4];
    uint64_t written = 7;
    memcpy(texels, old, sizeof old);
    for (size_t i = 0; i < LEN(unknown); i++) {
        expect(swathecold_generate_mipmaps(LINEAR, 2, 1, unknown[i], texels, 3, &written) == 15, "an unknown mode: refusal 15");
        expect(swathecold_generate_mipmaps(LINEAR, 2, 1, unknown[i], texels, 2, &written) == 3, "one short: 3 before 15");
        expect(swathecold_generate_mipmaps(LINEAR, 2, 4097, unknown[i], texels, 3, &written) == 2, "side 4097: 2 before 15");
        expect(swathecold_generate_mipmaps(5, 2, 1, unknown[i], texels, 3, &written) == 1, "kind 5: 1 before 15");
    }
    expect(swathecold_generate_mipmaps(LINEAR, 2, 1, NEAREST, texels, 2, &written) == 3, "nearest, one short: refusal 3");
    expect(written == 7 && !memcmp(texels, old, sizeof old), "none of them wrote anything");
}

/* Whether the verdict on a chain is this one, with a canary behind it. */
static int found(uint32_t kind, uint32_t w, uint32_t h, uint32_t mode, const uint32_t *texels, size_t len, uint64_t follows, uint64_t place) {
    uint64_t verdict[3] = {7, 7, CANARY};
    return swathecold_check_chain(kind, w, h, mode, texels, len, verdict) == 0 && verdict[0] == follows && verdict[1] == place && verdict[2] == CANARY;
}

/* The same of one level. */
static int found_in(uint32_t kind, uint32_t w, uint32_t h, uint32_t mode, const uint32_t *texels, size_t len, uint32_t level, uint64_t follows, uint64_t place) {
    uint64_t verdict[3] = {7, 7, CANARY};
    return swathecold_check_level(kind, w, h, mode, texels, len, level, verdict) == 0 && verdict[0] == follows && verdict[1] == place && verdict[2] == CANARY;
}

/* Two texels and what another tool made of them. */
static void pairs_checked(void) {
    const struct { uint32_t kind, left, right, made[2]; } items[] = {
        {LINEAR, 0x00FF00FF, 0xFF0000FF, {0x7F7F00FF, 0x808000FF}}, {NORMAL, 0x01FF80FF, 0x01FF80FF, {0x00FF80FF, 0x01FF80FF}},
        {METALLIC_ROUGHNESS, 0x11FF0022, 0x3300FF44, {0x11B47F22, 0x11B48022}}, {SRGB, 0xFF0000FF, 0x000000FF, {0xBB0000FF, 0xBB0000FF}}};
    for (size_t i = 0; i < LEN(items); i++)
        for (uint32_t mode = TRUNCATING; mode <= NEAREST; mode++) {
            const uint32_t made = items[i].made[mode], other = items[i].made[!mode], kind = items[i].kind;
            uint32_t texels[] = {items[i].left, items[i].right, made, CANARY};
            expect(found(kind, 2, 1, mode, texels, 4, 1, 0) && found(kind, 2, 1, mode, texels, 3, 1, 0), "the paper's item follows");
            expect(found_in(kind, 2, 1, mode, texels, 3, 0, 1, 0) && found_in(kind, 2, 1, mode, texels, 3, 1, 1, 0), "and so does each of its levels");
            expect(found(kind, 2, 1, !mode, texels, 3, made == other, made == other ? 0 : 2), "by the other mode only where both make the same");
            for (int bit = 0; bit < 32; bit++) {
                texels[2] = made ^ 1u << bit;
                expect(found(kind, 2, 1, mode, texels, 3, 0, 2) && found_in(kind, 2, 1, mode, texels, 3, 1, 0, 2) && found_in(kind, 2, 1, mode, texels, 3, 0, 1, 0), "one bit is wrong: the texel at 2");
            }
        }
    const uint32_t six[] = {1, 2, 3, 4, 5, CANARY};
    for (uint32_t kind = SRGB; kind <= LINEAR; kind++)
        expect(found(kind, 1, 1, NEAREST, six, LEN(six), 1, 0) && found_in(kind, 1, 1, NEAREST, six, LEN(six), 0, 1, 0), "one texel, or six faces of one, follow");
}

/* 16 by 8: levels of 128, 32, 8, 2 and 1 texels, of a cubemap six times as many. One entry more is a canary. */
enum { TOP = 4, CHAIN = 171 };

static size_t made_chain(uint32_t kind, uint32_t mode, uint32_t texels[6 * CHAIN + 1]) {
    uint64_t written = 0;
    for (uint32_t i = 0; i <= 6 * CHAIN; i++) texels[i] = i * 2654435761u;
    int filled = swathecold_generate_mipmaps(kind, 16, 8, mode, texels, 6 * CHAIN, &written) == 0;
    expect(filled && written == (kind == CUBEMAP ? 6 : 1) * CHAIN, "a chain of 16 by 8");
    texels[written] = CANARY;
    return (size_t)written;
}

/* Whether all levels follow but for two, and of these the texels at two places are wrong. A level without one is TOP + 1. */
static int all_but(uint32_t kind, uint32_t mode, const uint32_t *texels, size_t total, uint32_t first, uint64_t place, uint32_t second, uint64_t made_of_it) {
    for (uint32_t level = 0; level <= TOP; level++) {
        int wrong = level == first || level == second;
        if (!found_in(kind, 16, 8, mode, texels, total, level, !wrong, wrong ? (level == first ? place : made_of_it) : 0)) return 0;
    }
    return found(kind, 16, 8, mode, texels, total, first > TOP, first > TOP ? 0 : place);
}

static void chains_checked(void) {
    enum { NONE = TOP + 1 };
    uint32_t texels[6 * CHAIN + 1], old[6 * CHAIN + 1];
    for (uint32_t kind = SRGB; kind <= LINEAR; kind++)
        for (uint32_t mode = TRUNCATING; mode <= NEAREST; mode++) {
            const size_t faces = kind == CUBEMAP ? 6 : 1, total = made_chain(kind, mode, texels), last = total - 1;
            memcpy(old, texels, sizeof old);
            expect(all_but(kind, mode, texels, total, NONE, 0, NONE, 0) && all_but(kind, mode, texels, total + 1, NONE, 0, NONE, 0), "what the chain call wrote follows, at every level");
            texels[last] ^= 1;
            expect(all_but(kind, mode, texels, total, TOP, last, NONE, 0), "the chain's last texel is wrong");
            texels[165 * faces] ^= 0x01000000;
            expect(found(kind, 16, 8, mode, texels, total, 0, 165 * faces), "two are wrong: the smaller place");
            texels[163 * faces] ^= 0x00010000;
            expect(found(kind, 16, 8, mode, texels, total, 0, 163 * faces) && found_in(kind, 16, 8, mode, texels, total, 2, 0, 163 * faces), "two of one level: the smaller place");
            texels[last] = old[last], texels[165 * faces] = old[165 * faces], texels[163 * faces] = old[163 * faces];
            /* (5, 2) of level 1, in the last face; level 2 has (2, 1) of it */
            const size_t place = 160 * faces - 32 + 21, of_it = 168 * faces - 8 + 6;
            texels[place] = ~old[place];
            expect(all_but(kind, mode, texels, total, 1, place, 2, of_it), "one of level 1 is wrong: in level 2 the one that is made of it, and no further one");
            texels[place] = old[place], texels[of_it] = ~old[of_it];
            expect(all_but(kind, mode, texels, total, 2, of_it, 3, 170 * faces - 2 + 1), "one of level 2 is wrong: the same a level on");
            texels[of_it] = old[of_it], texels[128 * faces - 1] = ~old[128 * faces - 1];
            expect(all_but(kind, mode, texels, total, 1, 160 * faces - 1, NONE, 0), "level 0 has another last texel: level 1's last is not made of it");
            texels[128 * faces - 1] = old[128 * faces - 1];
            expect(!memcmp(texels, old, sizeof old), "nothing was written");
        }
    const uint32_t third[] = {0x10203040, 0x30405060, 0xFFFFFFFF, 0x20304050};
    expect(found(LINEAR, 3, 1, TRUNCATING, third, 4, 1, 0), "the third column takes no part");
}

static void checks_refused(void) {
    const uint32_t texels[4] = {0x00FF00FF, 0xFF0000FF, 0x7F7F00FF, CANARY};
    const uint32_t unknown[] = {2, 3, 255, 256, 0x80000000u, UINT32_MAX}, above[] = {2, 3, 31, 32, 0x80000000u, UINT32_MAX};
    uint64_t verdict[2] = {7, 7};
    for (size_t i = 0; i < LEN(unknown); i++) {
        const uint32_t mode = unknown[i], level = above[i];
        expect(swathecold_check_chain(5, 0, 1, mode, texels, 0, verdict) == 1 && swathecold_check_level(5, 0, 1, mode, texels, 0, level, verdict) == 1, "kind 5: 1 before 2, 3, 15 and 6");
        expect(swathecold_check_chain(LINEAR, 2, 4097, mode, texels, 0, verdict) == 2 && swathecold_check_level(LINEAR, 0, 1, mode, texels, 0, level, verdict) == 2, "sides 4097 and 0: 2 before 3, 15 and 6");
        expect(swathecold_check_chain(LINEAR, 2, 1, mode, texels, 2, verdict) == 3 && swathecold_check_level(LINEAR, 2, 1, mode, texels, 2, level, verdict) == 3, "one short: 3 before 15 and 6");
        expect(swathecold_check_chain(LINEAR, 2, 1, mode, texels, 3, verdict) == 15 && swathecold_check_level(LINEAR, 2, 1, mode, texels, 3, level, verdict) == 15, "an unknown mode: 15 before 6");
        expect(swathecold_check_level(LINEAR, 2, 1, mode, texels, 3, 0, verdict) == 15, "an unknown mode: refusal 15 at level 0 too");
        expect(swathecold_check_level(LINEAR, 2, 1, TRUNCATING, texels, 3, level, verdict) == 6, "a level above the top: refusal 6");
    }
    expect(swathecold_check_level(LINEAR, 1, 1, NEAREST, texels, 1, 1, verdict) == 6, "level 1 of one texel: refusal 6");
    expect(swathecold_check_chain(CUBEMAP, 1, 1, NEAREST, texels, 4, verdict) == 3, "four of six faces: refusal 3");
    expect(verdict[0] == 7 && verdict[1] == 7, "none of them wrote anything");
}

static void parts(void) {
    uint64_t part[2] = {7, 7}, written = 7;
    uint32_t texels[18], target[3] = {CANARY, CANARY, CANARY};
    for (uint32_t i = 0; i < 18; i++) texels[i] = i;
    expect(swathecold_level_view(LINEAR, 5, 3, texels, 18, 1, 0, part) == 0 && part[0] == 15 && part[1] == 2, "level 1 stands at 15, 2 texels");
    expect(swathecold_level_view(LINEAR, 5, 3, texels, 18, 3, 0, part) == 6 && part[0] == 15, "level 3: refusal 6");
    expect(swathecold_cut(LINEAR, 5, 3, texels, 18, 1, 2, 0, 2, 2, target, 3, &written) == 3 && target[0] == CANARY && written == 7, "a target one short: refusal 3");
    expect(swathecold_cut(LINEAR, 5, 3, texels, 18, 0, 3, 1, 2, 1, target, 3, &written) == 0 && written == 2 && target[0] == 8 && target[1] == 9 && target[2] == CANARY, "the cut at (3, 1)");
    expect(swathecold_cut(LINEAR, 5, 3, texels, 18, 1, 3, 0, 2, 2, target, 3, &written) == 11, "a corner that is no multiple of 2: refusal 11");
    uint8_t cross[4 * 3 * 4];
    uint32_t faces[7] = {0, 0, 0, 0, 0, 0, CANARY};
    for (size_t i = 0; i < LEN(cross); i++) cross[i] = (uint8_t)(i / 4);
    expect(swathecold_cut_cross(4, 3, cross, LEN(cross), faces, 7, &written) == 0 && written == 6 && faces[0] == 0x06060606 && faces[1] == 0x04040404 && faces[2] == 0x01010101 && faces[3] == 0x09090909 && faces[4] == 0x05050505 && faces[5] == 0x07070707 && faces[6] == CANARY, "the cross's six faces");
    expect(swathecold_cut_cross(3, 3, cross, LEN(cross), faces, 7, &written) == 10, "a cross 3 wide: refusal 10");
}

static void flat_lookups(void) {
    const float sixteenth[4] = {1 / 16.0f, 0, 0, 1 / 16.0f}, still[4] = {0, 0, 0, 0}, lost[4] = {0, NAN, 0, 0};
    const float u[4] = {-0.125f, 0.125f, 0.375f, 1.125f}, v[4] = {0, 0, 0, 0}, far[4] = {0, 0, 0, 2049.0f};
    const uint32_t faces[4] = {0, 0, 0, 0}, wrong[4] = {0, 0, 1, 0};
    uint32_t level = 7, texels[] = {0x00000000, 0x33000011, 0x66000022, 0xFF0000FF, CANARY, CANARY, CANARY};
    float rgb[12], alpha[4];
    uint64_t written;
    expect(swathecold_compute_mip_level(64, 64, sixteenth, &level) == 0 && level == 2, "64 by 64, steps of 1/16: level 2");
    expect(swathecold_compute_mip_level(64, 64, lost, &level) == 5 && level == 2, "a step that is no number: refusal 5");
    expect(swathecold_generate_mipmaps(LINEAR, 4, 1, TRUNCATING, texels, 7, &written) == 0 && written == 7, "a chain of 7");
    expect(swathecold_sample4_rgb(LINEAR, 4, 1, texels, 7, REPEAT, CLAMP, u, v, still, rgb) == 0 && rgb[0] == 1.0f && rgb[1] == 0.0f && rgb[2] == 0.2f && rgb[3] == 0.0f, "Repeat: texels 3, 0, 1, 0");
    expect(swathecold_sample4_alpha(LINEAR, 4, 1, texels, 7, CLAMP, NOT_GIVEN, u, v, still, alpha) == 0 && alpha[0] == 0.0f && alpha[3] == 1.0f, "Clamp: texels 0 and 3 at the ends");
    memset(rgb, 0, sizeof rgb);
    expect(swathecold_sample4_rgb(LINEAR, 4, 1, texels, 7, 1, CLAMP, u, v, still, rgb) == 4 && rgb[0] == 0.0f, "code 1: refusal 4");
    expect(swathecold_sample4_rgb(LINEAR, 4, 1, texels, 7, NOT_GIVEN, NOT_GIVEN, u, v, still, rgb) == 0 && rgb[0] == 1.0f && rgb[1] == 0.0f && rgb[2] == 0.2f && rgb[3] == 0.0f, "not given: Repeat's texels 3, 0, 1, 0");
    expect(swathecold_sample4_rgb(LINEAR, 4, 1, texels, 7, MIRRORED, CLAMP, u, far, still, rgb) == 5, "2049: refusal 5");
    expect(swathecold_sample_bilinear_rgb(LINEAR, 4, 1, texels, 7, CLAMP, CLAMP, u, v, 0, faces, rgb) == 0 && rgb[1] == 0.0f, "bilinear at a texel's middle");
    expect(swathecold_sample_bilinear_rgb(LINEAR, 4, 1, texels, 7, NOT_GIVEN, CLAMP, v, v, 0, faces, rgb) == 0 && rgb[0] == 0.5f, "not given, on the edge: texels 3 and 0 by halves");
    expect(swathecold_sample_bilinear_rgb(LINEAR, 4, 1, texels, 7, CLAMP, CLAMP, u, v, 0, wrong, rgb) == 8, "a face of a picture that has none: refusal 8");
    expect(swathecold_sample_bilinear_alpha(LINEAR, 4, 1, texels, 7, CLAMP, CLAMP, u, v, 3, alpha) == 6, "level 3 of a picture 4 wide: refusal 6");
    expect(swathecold_sample_bilinear_alpha(LINEAR, 4, 1, texels, 7, CLAMP, CLAMP, u, v, 0, alpha) == 0 && alpha[3] == 1.0f, "bilinear alpha at the last texel");
}

/* A level one texel wide or high, of so many texels: texel 0 is red, texel 1 green, the last one blue and opaque; one alone is red. */
static void mark(uint32_t *level, size_t side) {
    if (side > 1) level[1] = 0x00FF0000, level[side - 1] = 0x0000FFFF;
    level[0] = 0xFF000000;
}

/* Whether lane i is half of the colour at[2 * i] and half of the colour at[2 * i + 1], of R, G and B. */
static int halves(const float rgb[12], const char *at) {
    for (int i = 0; i < 12; i++) {
        const char *lane = at + i % 4 * 2, colour = "RGB"[i / 4];
        if (rgb[i] != ((lane[0] == colour) + (lane[1] == colour)) / 2.0f) return 0;
    }
    return 1;
}

/* On and beside the edges of a level and at both ends of what is taken, along both axes at once; a chain as long as it must be stands
 * between two canaries. */
static void edges(void) {
    const float ends[4] = {1, -0.0f, 2048, -2048}, beside[4] = {0x1.fffffep-1f, -0x1p-149f, -1, 2048 - 0x1p-13f};
    const float still[4] = {0, 0, 0, 0}, far[4] = {1, 1, 1, 1};
    const struct { uint32_t wrap; const char *ends, *beside, *blended; } modes[] = {
        {REPEAT, "RRRRRRRR", "BBBBRRBB", "BRBRBRRR"}, {CLAMP, "BBRRBBRR", "BBRRRRBB", "BBRRBBRR"}, {MIRRORED, "BBRRRRRR", "BBGGBBGG", "BBGRGRRR"}};
    const uint32_t sides[][2] = {{4096, 1}, {1, 4096}, {1, 1}}, faces[4] = {0, 0, 0, 0};
    const char *one = "RRRRRRRR";
    static uint32_t lent[1 + 8191 + 1];
    float rgb[12], alpha[4];
    char at[64];
    for (size_t i = 0; i < LEN(sides); i++) {
        uint32_t w = sides[i][0], h = sides[i][1], side = w * h, top = side > 1 ? 12 : 0, *texels = lent + 1;
        size_t total = 2 * side - 1;
        memset(lent, 0, sizeof lent);
        lent[0] = texels[total] = CANARY;
        mark(texels, side);
        mark(texels + total - 1, 1);
        for (size_t m = 0; m < LEN(modes); m++) {
            uint32_t wrap = modes[m].wrap;
            snprintf(at, sizeof at, "the edges of %u by %u, wrap code %u", w, h, wrap);
            expect(swathecold_sample4_rgb(LINEAR, w, h, texels, total, wrap, wrap, ends, ends, still, rgb) == 0 && halves(rgb, top ? modes[m].ends : one), at);
            expect(swathecold_sample4_alpha(LINEAR, w, h, texels, total, wrap, wrap, ends, ends, still, alpha) == 0 && !memcmp(alpha, rgb + 8, sizeof alpha), at);
            expect(swathecold_sample4_rgb(LINEAR, w, h, texels, total, wrap, wrap, beside, beside, still, rgb) == 0 && halves(rgb, top ? modes[m].beside : one), at);
            expect(swathecold_sample4_rgb(LINEAR, w, h, texels, total, wrap, wrap, ends, ends, far, rgb) == 0 && halves(rgb, one), at);
            expect(swathecold_sample_bilinear_rgb(LINEAR, w, h, texels, total, wrap, wrap, ends, ends, 0, faces, rgb) == 0 && halves(rgb, top ? modes[m].blended : one), at);
            expect(swathecold_sample_bilinear_alpha(LINEAR, w, h, texels, total, wrap, wrap, ends, ends, 0, alpha) == 0 && !memcmp(alpha, rgb + 8, sizeof alpha), at);
            expect(swathecold_sample_bilinear_rgb(LINEAR, w, h, texels, total, wrap, wrap, ends, ends, top, faces, rgb) == 0 && halves(rgb, one), at);
        }
    }
}

static void cubemaps(void) {
    const float x[4] = {1, 0, -0.0f, 1}, y[4] = {1, 2, 0, 1}, z[4] = {1, 1, -1, 1}, none[4] = {1, 0, 0, 0};
    const uint32_t tops[4] = {0, 9, 0, 0};
    const float levels[4] = {0, 0.5f, -3, 9}, endless[4] = {0, INFINITY, 0, 0};
    uint32_t faces[4] = {7, 7, 7, 7}, texels[30];
    float uv[8], rgb[12];
    uint64_t written;
    for (uint32_t i = 0; i < 30; i++) texels[i] = (i / 4 * 51) << 24;
    expect(swathecold_cubemap_uv_from_normal(x, y, z, uv, faces) == 0 && faces[0] == 0 && uv[0] == 0.0f && uv[4] == 0.0f, "(1,1,1): face 0, (0, 0)");
    expect(faces[1] == 2 && uv[1] == 0.5f && uv[5] == 0.75f && faces[2] == 5 && uv[2] == 0.5f && uv[6] == 0.5f, "(0,2,1): face 2; (-0,0,-1): face 5");
    expect(swathecold_cubemap_uv_from_normal(none, none + 0, none, uv, faces) == 7 && faces[0] == 0, "(0,0,0): refusal 7");
    expect(swathecold_generate_mipmaps(CUBEMAP, 2, 2, TRUNCATING, texels, 30, &written) == 0 && written == 30, "a cubemap's chain of 30");
    expect(swathecold_sample_cubemap_rgb(CUBEMAP, 2, 2, texels, 30, x, y, z, tops, rgb) == 0 && rgb[0] == 0.0f && rgb[1] == 0.4f && rgb[2] == 1.0f, "each face has its own colour");
    expect(swathecold_sample_cubemap_rgb(LINEAR, 2, 2, texels, 30, x, y, z, tops, rgb) == 8, "a picture that is no cubemap: refusal 8");
    expect(swathecold_sample_cubemap_trilinear_rgb(CUBEMAP, 2, 2, texels, 30, x, y, z, levels, rgb) == 0 && rgb[2] == 1.0f && rgb[1] == 0.4f, "between two levels of one colour");
    expect(swathecold_sample_cubemap_trilinear_rgb(CUBEMAP, 2, 2, texels, 30, x, y, z, endless, rgb) == 5, "an endless level: refusal 5");
}

/* Whether the lanes' reds are those of the given texels, where texel i has the red 8 * i. */
static int reds(const float rgb[12], int a, int b, int c, int d) {
    return rgb[0] == (float)(8 * a) / 255.0f && rgb[1] == (float)(8 * b) / 255.0f && rgb[2] == (float)(8 * c) / 255.0f && rgb[3] == (float)(8 * d) / 255.0f;
}

/* The corners of a cubemap's faces, the last texel of the last face among them, at level 0 and at the last. */
static void corners(void) {
    const float inside = 0x1.fffffep-1f, x[4] = {1, 1, -1, -inside}, y[4] = {1, -1, -1, -inside}, z[4] = {1, -1, 1, -1};
    const uint32_t zeros[4] = {0, 0, 0, 0}, tops[4] = {1, 2, 9, UINT32_MAX}, faces[4] = {0, 1, 4, 5};
    const float first[4] = {0, -0.0f, -1, -9}, last[4] = {1, 2, 9, 0x1p127f}, u[4] = {0.75f, 0.75f, 0.75f, 0.75f};
    uint32_t lent[1 + 30 + 1], *texels = lent + 1;
    float rgb[12];
    for (uint32_t i = 0; i < 30; i++) texels[i] = (8 * i) << 24;
    lent[0] = texels[30] = CANARY;
    expect(swathecold_sample_cubemap_rgb(CUBEMAP, 2, 2, texels, 30, x, y, z, zeros, rgb) == 0 && reds(rgb, 0, 3, 7, 23), "corners of faces 0, 0, 1, 5");
    expect(swathecold_sample_cubemap_rgb(CUBEMAP, 2, 2, texels, 30, x, y, z, tops, rgb) == 0 && reds(rgb, 24, 24, 25, 29), "the same faces at the last level");
    expect(swathecold_sample_cubemap_trilinear_rgb(CUBEMAP, 2, 2, texels, 30, x, y, z, first, rgb) == 0 && reds(rgb, 0, 3, 7, 23), "trilinear: corners at level 0");
    expect(swathecold_sample_cubemap_trilinear_rgb(CUBEMAP, 2, 2, texels, 30, x, y, z, last, rgb) == 0 && reds(rgb, 24, 24, 25, 29), "trilinear: corners at the last level");
    expect(swathecold_sample_bilinear_rgb(CUBEMAP, 2, 2, texels, 30, REPEAT, MIRRORED, u, u, 0, faces, rgb) == 0 && reds(rgb, 3, 7, 19, 23), "bilinear: each face's last texel, and nothing of those past it");
}

/* 17 by 18: tiles one wide at the right, two high below. One entry more is a canary in each buffer. */
enum { W = 17, H = 18, LEVEL0 = W * H, BYTES = 4 * 8 };

static void a_sheet(uint32_t texels[LEVEL0 + 1], uint8_t bytes[BYTES + 1]) {
    for (size_t i = 0; i < LEVEL0; i++) texels[i] = 0x10203040;
    texels[15 * W + 16] = 0x10204080;
    texels[16 * W] = 0x10207000;
    texels[17 * W + 15] = 0x60403080;
    texels[LEVEL0] = CANARY;
    memset(bytes, 0xA5, BYTES + 1);
}

static void ranges_refused(void) {
    uint32_t texels[LEVEL0 + 1], old[LEVEL0 + 1], faces[6 * LEVEL0] = {0};
    uint8_t bytes[BYTES + 1], stale[BYTES + 1];
    uint64_t written = 7;
    a_sheet(texels, bytes);
    a_sheet(old, stale);
    expect(swathecold_build_ranges(LINEAR, W, H, texels, LEVEL0, bytes, BYTES - 1, &written) == 3, "ranges one short: refusal 3");
    expect(swathecold_build_ranges(LINEAR, W, H, texels, LEVEL0 - 1, bytes, BYTES, &written) == 3, "level 0 one short: refusal 3");
    expect(swathecold_build_ranges(CUBEMAP, W, H, faces, 6 * LEVEL0 - 1, bytes, BYTES, &written) == 3, "six faces one short: refusal 3");
    expect(swathecold_build_ranges(CUBEMAP, W, H, faces, 6 * LEVEL0, bytes, BYTES, &written) == 8, "ranges of a cubemap: refusal 8");
    expect(swathecold_replace_texel(LINEAR, W, H, texels, LEVEL0, bytes, BYTES - 1, W, 0, 0) == 3, "ranges one short: 3 before 14");
    expect(swathecold_replace_texel(LINEAR, W, H, texels, LEVEL0 - 1, bytes, BYTES, W, 0, 0) == 3, "level 0 one short: 3 before 14");
    expect(swathecold_replace_texel(CUBEMAP, W, H, faces, 6 * LEVEL0, bytes, BYTES, W, 0, 0) == 8, "a cubemap: 8 before 14");
    expect(swathecold_replace_texel(CUBEMAP, W, H, faces, 6 * LEVEL0, bytes, BYTES, 0, 0, 1) == 8 && faces[0] == 0, "a texel of a cubemap: refusal 8");
    expect(swathecold_replace_texel(LINEAR, W, H, texels, LEVEL0, bytes, BYTES, W, 0, 0) == 14, "one to the right: refusal 14");
    expect(swathecold_replace_texel(LINEAR, W, H, texels, LEVEL0, bytes, BYTES, 0, H, 0) == 14, "one below: refusal 14");
    expect(written == 7 && !memcmp(texels, old, sizeof old) && !memcmp(bytes, stale, sizeof stale), "none of them wrote anything");
}

static void ranges_built(void) {
    const uint8_t built[] = {0x10, 0x10, 0x20, 0x20, 0x30, 0x30, 0x40, 0x40, 0x10, 0x10, 0x20, 0x20, 0x30, 0x40, 0x40, 0x80,
                             0x10, 0x60, 0x20, 0x40, 0x30, 0x70, 0x00, 0x80, 0x10, 0x10, 0x20, 0x20, 0x30, 0x30, 0x40, 0x40, 0xA5};
    uint32_t texels[LEVEL0 + 1];
    uint8_t bytes[BYTES + 1];
    uint64_t written = 7;
    a_sheet(texels, bytes);
    expect(swathecold_build_ranges(LINEAR, W, H, texels, LEVEL0 + 1, bytes, BYTES + 1, &written) == 0 && written == BYTES, "17 by 18: 32 bytes");
    expect(!memcmp(bytes, built, sizeof built), "four tiles row by row, and the byte behind them stays");
}

static void texels_replaced(void) {
    const uint8_t first[8] = {0x10, 0x50, 0x20, 0x40, 0x30, 0x70, 0x00, 0x80}, second[8] = {0x10, 0x50, 0x20, 0x40, 0x30, 0x30, 0x40, 0x80};
    uint32_t texels[LEVEL0 + 1], expected[LEVEL0 + 1];
    uint8_t bytes[BYTES + 1], beside[BYTES + 1];
    a_sheet(texels, bytes);
    a_sheet(expected, beside);
    expected[17 * W + 15] = 0x50403080;
    memcpy(beside + 16, first, 8);
    expect(swathecold_replace_texel(LINEAR, W, H, texels, LEVEL0, bytes, BYTES, 15, 17, 0x50403080) == 0, "the texel at (15, 17)");
    expect(!memcmp(texels, expected, sizeof expected), "no other texel moves");
    expect(!memcmp(bytes, beside, sizeof beside), "over ranges never built: the tile's own eight bytes, and no other byte moves");
    expected[16 * W] = 0x10203040;
    memcpy(beside + 16, second, 8);
    expect(swathecold_replace_texel(LINEAR, W, H, texels, LEVEL0, bytes, BYTES, 0, 16, 0x10203040) == 0, "the texel at (0, 16)");
    expect(!memcmp(texels, expected, sizeof expected) && !memcmp(bytes, beside, sizeof beside), "blue and alpha lose an end, and their ranges shrink");
}

/* The light of a 1 by 1 cubemap in one colour, decoded face by face. Each texel's middle is its face's: u and v are 0, so d and its
 * root are 1, the weight is (2 / 1) * (2 / 1) / (1 * 1) = 4, and the direction is the face's axis. */
static void light_of_six(const float lit[6], float sh[4]) {
    const float pi = 0x1.921fb6p1f, others = 2.0f * pi / 3.0f, constant = 0.282095f * 4, axis = 0.488603f * 4;
    const int of_face[6] = {3, 3, 1, 1, 2, 2};
    float sums[4] = {0, 0, 0, 0};
    for (int f = 0; f < 6; f++) {
        sums[0] += lit[f] * constant;
        sums[of_face[f]] += lit[f] * (f % 2 ? -axis : axis);
    }
    sh[0] = sums[0] * pi * 0.282095f;
    for (int i = 1; i < 4; i++) sh[i] = sums[i] * others * 0.488603f;
}

/* Whether the call gives the light of six such texels, whose decoded colours stand beside them, and leaves a 13th number alone. */
static int lights(const uint32_t texels[6], const float red[6], const float green[6], const float blue[6]) {
    const float *colours[3] = {red, green, blue};
    float sh[13], expected[13], of_one[4];
    for (int i = 0; i < 13; i++) sh[i] = expected[i] = 7;
    for (int c = 0; c < 3; c++) {
        light_of_six(colours[c], of_one);
        for (int i = 0; i < 4; i++) expected[3 * i + c] = of_one[i];
    }
    return swathecold_irradiance_sh4(CUBEMAP, 1, 1, texels, 6, sh) == 0 && !memcmp(sh, expected, sizeof sh);
}

static void light(void) {
    const float none[6] = {0, 0, 0, 0, 0, 0}, full[6] = {1, 1, 1, 1, 1, 1}, zeros[12] = {0};
    const uint32_t black[6] = {0x00000000, 0x000000FF, 0x00000080, 0x00000001, 0x0000007F, 0x00000000};
    const uint32_t white[6] = {0xFFFFFFFF, 0xFFFFFF00, 0xFFFFFFFF, 0xFFFFFF80, 0xFFFFFF01, 0xFFFFFFFF};
    const uint32_t mixed[6] = {0xFF0A0000, 0x0AFF00FF, 0x00FF0A00, 0x0A000AFF, 0x000A0000, 0x0A0AFFFF};
    const float ten = (float)(1000.0 / 329460.0); /* what the curve makes of 10 */
    const float reds[6] = {1, ten, 0, ten, 0, ten}, greens[6] = {ten, 1, 1, 0, ten, ten}, blues[6] = {0, 0, ten, ten, 0, 1};
    char at[64];
    float sh[12];
    expect(lights(black, none, none, none), "a black cube: no light, whatever its alpha");
    expect(swathecold_irradiance_sh4(CUBEMAP, 1, 1, black, 6, sh) == 0 && !memcmp(sh, zeros, sizeof sh), "a black cube: +0 twelve times");
    expect(lights(white, full, full, full), "a white cube");
    expect(lights(mixed, reds, greens, blues), "0, 10 and 255 in each colour");
    for (int f = 0; f < 6; f++) {
        uint32_t texels[6] = {0, 0, 0, 0, 0, 0};
        float lit[6] = {0, 0, 0, 0, 0, 0};
        texels[f] = 0x00FF0000, lit[f] = 1;
        snprintf(at, sizeof at, "green light from face %d alone", f);
        expect(lights(texels, none, lit, none), at);
    }
    uint32_t room[6 * 16 * 16];
    memset(room, 0xFF, sizeof room);
    expect(swathecold_irradiance_sh4(CUBEMAP, 16, 16, room, LEN(room), sh) == 0 && fabsf(sh[0] - 3.1416f) < 0.01f && fabsf(sh[3]) + fabsf(sh[6]) + fabsf(sh[9]) < 1e-5f, "a white cube 16 square: near pi, from everywhere");
}

static void light_refused(void) {
    const uint32_t texels[12] = {0xFFFFFFFF};
    float sh[12], old[12];
    for (int i = 0; i < 12; i++) sh[i] = old[i] = 7;
    expect(swathecold_irradiance_sh4(5, 0, 1, texels, 0, sh) == 1, "kind 5: 1 before 2 and 3");
    expect(swathecold_irradiance_sh4(LINEAR, 0, 1, texels, 0, sh) == 2 && swathecold_irradiance_sh4(CUBEMAP, 1, 4097, texels, 12, sh) == 2, "sides 0 and 4097: 2 before 3 and 8");
    expect(swathecold_irradiance_sh4(LINEAR, 2, 1, texels, 1, sh) == 3, "a face one short: 3 before 8");
    expect(swathecold_irradiance_sh4(CUBEMAP, 2, 1, texels, 11, sh) == 3, "six faces one short: refusal 3");
    expect(swathecold_irradiance_sh4(LINEAR, 2, 1, texels, 2, sh) == 8 && swathecold_irradiance_sh4(SRGB, 2, 1, texels, 12, sh) == 8, "a picture that is no cubemap: refusal 8");
    expect(!memcmp(sh, old, sizeof sh), "none of them wrote anything");
    expect(swathecold_irradiance_sh4(CUBEMAP, 2, 1, texels, 12, sh) == 0, "six faces are enough");
}

int main(void) {
    sizes_and_chain();
    packing();
    packing_refused();
    pairs_checked();
    chains_checked();
    checks_refused();
    parts();
    flat_lookups();
    edges();
    cubemaps();
    corners();
    ranges_refused();
    ranges_built();
    texels_replaced();
    light();
    light_refused();
    printf("C boundary: %d checks hold\n", checks);
    return 0;
}
