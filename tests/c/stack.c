/* How deep the stack of a chain call and of a check of its chain goes, by kind and mode. The call runs on a stack of its own that was painted
 * beforehand: what is no longer painted was used. The pictures have 13 levels, the most there are, one far wider than high, one far higher
 * than wide. Prints each depth in bytes; answers 1 where one goes past its kind's limit. */
#define _XOPEN_SOURCE 700
#include <stdint.h>
#include <stdio.h>
#include <stdlib.h>
#include <string.h>
#include <ucontext.h>

#include "swathecold.h"

enum { LONG = 4096, SHORT = 4, PAINT = 0xA5, ROOM = 1 << 16, TEXELS = 6 * 2 * LONG * SHORT };
enum { WITHOUT_TABLE = 2048, SRGB = 5880 };

static const struct {
    const char *name;
    size_t limit;
} kinds[] = {{"SRGB", SRGB}, {"Normal", WITHOUT_TABLE}, {"MetallicRoughness", WITHOUT_TABLE}, {"Cubemap", WITHOUT_TABLE}, {"Linear", WITHOUT_TABLE}};

static const char *const modes[] = {"truncating", "nearest"};

static ucontext_t here, there;
static unsigned char stack[ROOM];
static uint32_t texels[TEXELS], kind, mode, width, height, refused;

static void nothing(void) {}

static void chain(void) {
    uint64_t written;
    refused = swathecold_generate_mipmaps(kind, width, height, mode, texels, TEXELS, &written);
}

static void check(void) {
    uint64_t verdict[2] = {0, 0};
    refused = swathecold_check_chain(kind, width, height, mode, texels, TEXELS, verdict);
    if (verdict[0] != 1) abort();
}

/* A check holds what it makes besides: a part of a row, or a block of narrow rows. */
static const struct {
    const char *name;
    void (*work)(void);
    size_t besides;
} calls[] = {{"chain call", chain, 0}, {"check", check, 2048}};

static size_t used(void (*work)(void)) {
    memset(stack, PAINT, ROOM);
    if (getcontext(&there) != 0) abort();
    there.uc_stack.ss_sp = stack;
    there.uc_stack.ss_size = ROOM;
    there.uc_link = &here;
    makecontext(&there, work, 0);
    if (swapcontext(&here, &there) != 0) abort();
    size_t painted = 0;
    while (painted < ROOM && stack[painted] == PAINT) painted++;
    return ROOM - painted;
}

/* The chain is made before its check. The first call is not measured: the loader may look names up in it. */
static size_t depth(void (*work)(void), uint32_t w, uint32_t h) {
    width = w, height = h;
    for (size_t i = 0; i < TEXELS; i++) texels[i] = (uint32_t)(i * 2654435761u);
    chain();
    used(work);
    size_t of_the_call = used(work) - used(nothing);
    if (refused != 0) abort();
    return of_the_call;
}

int main(void) {
    int past = 0;
    for (size_t call = 0; call < sizeof calls / sizeof *calls; call++)
        for (mode = 0; mode < sizeof modes / sizeof *modes; mode++)
            for (kind = 0; kind < sizeof kinds / sizeof *kinds; kind++) {
                size_t wide = depth(calls[call].work, LONG, SHORT), high = depth(calls[call].work, SHORT, LONG), deepest = wide > high ? wide : high;
                size_t limit = kinds[kind].limit + calls[call].besides;
                printf("stack of a %s, %s, %s: %zu bytes, limit %zu\n", calls[call].name, kinds[kind].name, modes[mode], deepest, limit);
                past |= deepest > limit;
            }
    return past;
}
