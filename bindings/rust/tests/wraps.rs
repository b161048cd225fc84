//! A wrap that the file does not give is Repeat, along each axis, in every call that wraps.

use swathecold::*;

const HELD: Sampler = Sampler { wrap_s: 33071, wrap_t: 33071 };

#[test]
fn not_given_is_repeat_along_each_axis() {
    let grain: Vec<u32> = (0..5 * 3u32).map(|i| i.wrapping_mul(2654435761)).collect();
    let picture = Picture::new(TextureType::Linear, 5, 3, &grain).unwrap();
    let (u, v, still, flat) = ([-1.9, -0.1, 1.1, 7.5], [2.1, 1.05, -0.05, -3.4], [0.0; 4], [0; 4]);
    let looked_up = |sampler| {
        (
            picture.sample4_rgb(sampler, u, v, still).unwrap(),
            picture.sample4_alpha(sampler, u, v, still).unwrap(),
            picture.sample_bilinear_rgb(sampler, u, v, 0, flat).unwrap(),
            picture.sample_bilinear_alpha(sampler, u, v, 0).unwrap(),
        )
    };
    for (given, left_out) in [
        (Sampler { wrap_s: 10497, ..HELD }, Sampler { wrap_s: 0, ..HELD }),
        (Sampler { wrap_t: 10497, ..HELD }, Sampler { wrap_t: 0, ..HELD }),
        (Sampler::new(WrapMode::Repeat, WrapMode::Repeat), Sampler::default()),
    ] {
        let found = looked_up(left_out);
        assert_eq!(found, looked_up(given));
        let held = looked_up(HELD);
        assert!(found.0 != held.0 && found.1 != held.1 && found.2 != held.2 && found.3 != held.3, "all lie beyond an edge");
    }
}

#[test]
fn a_cubemap_face_repeats_across_its_own_edge() {
    // each face is black beside a red of its own
    let faces: Vec<u32> = (1..=6u32).flat_map(|red| [0x000000FF, (red * 34) << 24 | 0xFF]).collect();
    let cubemap = Picture::new(TextureType::Cubemap, 2, 1, &faces).unwrap();
    let edge = |sampler, face| cubemap.sample_bilinear_rgb(sampler, [0.0; 4], [0.5; 4], 0, [face; 4]).unwrap().x[0];
    for face in 0..6 {
        let red = ((face + 1) * 34) as f32 / 255.0;
        assert_eq!(edge(Sampler::default(), face), red / 2.0, "half of the face's own far column");
        assert_eq!(edge(HELD, face), 0.0, "the edge is held");
    }
}
