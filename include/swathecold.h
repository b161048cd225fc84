/* Swathecold's C boundary: the calls of the texture unit, as libstation.a has them.
 *
 * Each call answers 0 where it did what was asked, and else the number of the refusal. A call that refuses has written
 * nothing, neither to a lent buffer nor to an out parameter.
 *
 * A lent slice is a pointer and its length in entries; float x[4] is a pointer to four of them. Every number is taken:
 * unknown kinds, modes, codes, levels, faces, NaNs and infinities are refused, not undefined. What must hold on the C side is what C
 * cannot say: a pointer points to as many entries as its length or its array says, and no two of the lent things overlap.
 *
 * kind:    0 SRGB, 1 Normal, 2 MetallicRoughness, 3 Cubemap, 4 Linear
 * texel:   32 bits, red in the top byte, then green, blue, alpha
 * mode:    how a reduced channel becomes a byte again: 0 truncating, 1 nearest, a half upward
 * wrap:    10497 Repeat, 33071 ClampToEdge, 33648 MirroredRepeat, 0 not given: Repeat, glTF 2.0's default
 * refused: 1 kind, 2 side, 3 buffer too short, 4 wrap code, 5 coordinate, step or fractional level, 6 level, 7 direction,
 *          8 kind or face that the call does not take, 10 cross, 11 cut, 14 place outside the picture, 15 mode;
 *          9 is retired: no call gives it, and the number is never used again
 */
#ifndef SWATHECOLD_H
#define SWATHECOLD_H

#include <stddef.h>
#include <stdint.h>

#ifdef __cplusplus
extern "C" {
#endif

/* Where a level starts, its width, its height, and how many texels the whole chain has, into sizes[0..3]. */
uint32_t swathecold_level_sizes(uint32_t kind, uint32_t width, uint32_t height, uint32_t level, uint64_t sizes[4]);

/* Level 0 stands in texels; fills the levels behind it. *written: how many texels the whole chain has. Of SRGB only alpha follows the
 * mode, of MetallicRoughness green and blue, of the other kinds every channel. A level is reduced further by the mode that it was made
 * in: nothing in its texels says which one that was. */
uint32_t swathecold_generate_mipmaps(uint32_t kind, uint32_t width, uint32_t height, uint32_t mode,
                                     uint32_t *texels, size_t texels_len, uint64_t *written);

/* Whether every level follows from the one before, whoever made the chain: each texel is what four texels of the level before it, as
 * they stand there, reduce to by the mode. verdict[0]: 1 where all follow, else 0; verdict[1]: the first wrong texel's index in texels,
 * and 0 where none is wrong. What swathecold_generate_mipmaps filled by the same mode follows. Entries past the chain are not looked at. */
uint32_t swathecold_check_chain(uint32_t kind, uint32_t width, uint32_t height, uint32_t mode,
                                const uint32_t *texels, size_t texels_len, uint64_t verdict[2]);

/* The same of one level; level 0 always follows. One wrong texel shows in its own level, and in the next one at most in the texel that
 * is made of it: all other levels follow as before. */
uint32_t swathecold_check_level(uint32_t kind, uint32_t width, uint32_t height, uint32_t mode,
                                const uint32_t *texels, size_t texels_len, uint32_t level, uint64_t verdict[2]);

/* The six faces of a cross of width * height RGBA pixels, one behind the other. *written: how many texels that is. */
uint32_t swathecold_cut_cross(uint32_t width, uint32_t height, const uint8_t *bytes, size_t bytes_len,
                              uint32_t *faces, size_t faces_len, uint64_t *written);

/* The part of source's level 0 with the given corner and sides, all multiples of 2^order. *written: how many texels. */
uint32_t swathecold_cut(uint32_t kind, uint32_t width, uint32_t height, const uint32_t *source, size_t source_len,
                        uint32_t order, uint32_t corner_x, uint32_t corner_y, uint32_t cut_width, uint32_t cut_height,
                        uint32_t *target, size_t target_len, uint64_t *written);

/* Where a level, of a cubemap one face of it, stands in texels: part[0] its first entry, part[1] how many. */
uint32_t swathecold_level_view(uint32_t kind, uint32_t width, uint32_t height,
                               const uint32_t *texels, size_t texels_len,
                               uint32_t level, uint32_t face, uint64_t part[2]);

/* The level that four steps ask for; width and height are level 0's. */
uint32_t swathecold_compute_mip_level(uint32_t width, uint32_t height, const float steps[4], uint32_t *level);

/* The nearest texel's colour in four lanes, at the level that the steps ask for: four reds, four greens, four blues. */
uint32_t swathecold_sample4_rgb(uint32_t kind, uint32_t width, uint32_t height, const uint32_t *texels, size_t texels_len,
                                uint32_t wrap_s, uint32_t wrap_t,
                                const float u[4], const float v[4], const float steps[4], float rgb[12]);

/* The same for alpha. */
uint32_t swathecold_sample4_alpha(uint32_t kind, uint32_t width, uint32_t height, const uint32_t *texels, size_t texels_len,
                                  uint32_t wrap_s, uint32_t wrap_t,
                                  const float u[4], const float v[4], const float steps[4], float alpha[4]);

/* Four colours blended from four texels each, of one level; faces are 0 but for a cubemap. A cubemap's face is wrapped by itself:
 * with 0 or 10497 it repeats across its own edge, with 33071 its edge is held. */
uint32_t swathecold_sample_bilinear_rgb(uint32_t kind, uint32_t width, uint32_t height,
                                        const uint32_t *texels, size_t texels_len, uint32_t wrap_s, uint32_t wrap_t,
                                        const float u[4], const float v[4], uint32_t level, const uint32_t faces[4],
                                        float rgb[12]);

/* The same for alpha, which blends in its own order; no cubemap. */
uint32_t swathecold_sample_bilinear_alpha(uint32_t kind, uint32_t width, uint32_t height,
                                          const uint32_t *texels, size_t texels_len, uint32_t wrap_s, uint32_t wrap_t,
                                          const float u[4], const float v[4], uint32_t level, float alpha[4]);

/* Four directions to their faces and the places on them: four u, then four v. */
uint32_t swathecold_cubemap_uv_from_normal(const float x[4], const float y[4], const float z[4],
                                           float uv[8], uint32_t faces[4]);

/* The nearest texel of a cubemap in four directions; a level above the top is lowered to it. */
uint32_t swathecold_sample_cubemap_rgb(uint32_t kind, uint32_t width, uint32_t height,
                                       const uint32_t *texels, size_t texels_len,
                                       const float x[4], const float y[4], const float z[4],
                                       const uint32_t levels[4], float rgb[12]);

/* The same between two levels; a fractional level outside 0..top is held to it. */
uint32_t swathecold_sample_cubemap_trilinear_rgb(uint32_t kind, uint32_t width, uint32_t height,
                                                 const uint32_t *texels, size_t texels_len,
                                                 const float x[4], const float y[4], const float z[4],
                                                 const float levels[4], float rgb[12]);

/* The ranges of a picture that is no cubemap, of its level 0 alone: for every tile of 16 by 16 texels, edge tiles smaller, eight
 * bytes: red's smallest, red's largest, green's smallest, and so on to alpha's largest. Tiles go row by row, ceil(width / 16) a
 * row. *written: the bytes of all tiles; entries past them stay. */
uint32_t swathecold_build_ranges(uint32_t kind, uint32_t width, uint32_t height, const uint32_t *texels, size_t texels_len,
                                 uint8_t *ranges, size_t ranges_len, uint64_t *written);

/* Replaces the texel of level 0 at (x, y) and works out the eight bytes of its tile, whatever the ranges held before. Nothing else
 * changes: the other levels stay as they were made of the old level 0, until swathecold_generate_mipmaps makes them again. */
uint32_t swathecold_replace_texel(uint32_t kind, uint32_t width, uint32_t height, uint32_t *texels, size_t texels_len,
                                  uint8_t *ranges, size_t ranges_len, uint32_t x, uint32_t y, uint32_t texel);

/* The light of a cubemap's level 0, decoded by the sRGB curve, as four irradiance coefficients: constant, y, z, x, and of each its
 * red, green, blue. On a surface with unit normal n falls sh[c] + sh[3 + c] * n.y + sh[6 + c] * n.z + sh[9 + c] * n.x, c being 0, 1,
 * 2 for red, green, blue. The sums are f32, which rounds off the light of large faces: lend a level with sides up to 256. */
uint32_t swathecold_irradiance_sh4(uint32_t kind, uint32_t width, uint32_t height, const uint32_t *texels, size_t texels_len,
                                   float sh[12]);

#ifdef __cplusplus
}
#endif
#endif
