/* Reads a TXR picture on standard input, has the unit build its ranges, and writes them, 8 bytes a tile. */
#define PROGRAM "ranges"
#include "txr.h"

int main(void) {
    struct picture p = read_picture();
    size_t room = 8 * (size_t)((p.width + 15) / 16) * ((p.height + 15) / 16);
    uint8_t *ranges = malloc(room);
    if (!ranges) fail("no memory for bytes:", (unsigned)room);
    uint64_t written;
    taken(swathecold_build_ranges(p.kind, p.width, p.height, p.texels, p.total, ranges, room, &written));
    fwrite(ranges, 1, (size_t)written, stdout);
    free(ranges);
    free(p.texels);
    return finished();
}
