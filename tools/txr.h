/* A TXR picture on standard input, for the programs in this folder. Each of them ends with 1 and a word on standard error where the
 * picture is not one, or the unit refuses it. A program defines PROGRAM, its name, first. */
#include <errno.h>
#include <stdint.h>
#include <stdio.h>
#include <stdlib.h>

#include "swathecold.h"

/* Level 0 stands in texels, which has room for the whole chain: total texels. */
struct picture {
    uint32_t kind, width, height, *texels;
    size_t total;
};

static _Noreturn void fail(const char *why, unsigned number) {
    fprintf(stderr, PROGRAM ": %s %u\n", why, number);
    exit(1);
}

static void taken(uint32_t refused) {
    if (refused) fail("refused", refused);
}

static unsigned le16(const unsigned char *p) { return p[0] | (unsigned)p[1] << 8; }

static struct picture read_picture(void) {
    unsigned char head[10], pixel[4];
    if (fread(head, 1, 10, stdin) != 10 || head[0] != 'T' || head[1] != 'X' || head[2] != 'R' || le16(head + 3) != 1)
        fail("no TXR picture, refused", 12);
    struct picture p = {.kind = head[5], .width = le16(head + 6), .height = le16(head + 8)};
    uint64_t sizes[4];
    taken(swathecold_level_sizes(p.kind, p.width, p.height, 0, sizes));
    p.total = (size_t)sizes[3];
    p.texels = calloc(p.total, sizeof *p.texels);
    if (!p.texels) fail("no memory for texels:", (unsigned)p.total);
    size_t first = (p.kind == 3 ? 6u : 1u) * (size_t)p.width * p.height;
    for (size_t i = 0; i < first; i++) {
        if (fread(pixel, 1, 4, stdin) != 4) fail("the picture ends early, refused", 12);
        p.texels[i] = (uint32_t)pixel[0] << 24 | (uint32_t)pixel[1] << 16 | (uint32_t)pixel[2] << 8 | pixel[3];
    }
    return p;
}

/* What main answers once everything is written. */
static int finished(void) {
    if (fflush(stdout) || ferror(stdout)) fail("standard output fails, error", (unsigned)errno);
    return 0;
}
