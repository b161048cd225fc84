/* Reads a TXR picture on standard input, has the unit make its chain, truncating, and writes its texels, 4 bytes each, red first. */
#define PROGRAM "chain"
#include "txr.h"

enum { TRUNCATING = 0 };

int main(void) {
    struct picture p = read_picture();
    uint64_t written;
    taken(swathecold_generate_mipmaps(p.kind, p.width, p.height, TRUNCATING, p.texels, p.total, &written));
    for (size_t i = 0; i < written; i++)
        for (int shift = 24; shift >= 0; shift -= 8) putchar(p.texels[i] >> shift & 255);
    free(p.texels);
    return finished();
}
