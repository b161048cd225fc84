//! Every lookup: the unit through its boundary, the source as the station calls it. A thing is a call of four lanes.

use super::arguments::{Arguments, Chain};
use super::{time, Row, Timed};
use crate::unit::Unit;
use std::hint::black_box;

/// A round has at least so many calls: few arguments are used over and over, many of them once.
const CALLS: usize = 81_920;

/// How often every argument is used in a round.
fn repeats(arguments: &[Arguments]) -> usize {
    CALLS.div_ceil(arguments.len())
}

/// The rows of all lookups, over a plain picture and a cubemap.
pub fn rows<'a>(unit: &'a dyn Unit, plain: &'a Chain, cube: &'a Chain, arguments: &'a [Arguments]) -> Vec<Row<'a>> {
    let mut rows = vec![
        level_sizes(unit, plain, arguments),
        compute_mip_level(unit, plain, arguments),
    ];
    for (name, code) in [("Repeat", 10497), ("ClampToEdge", 33071), ("MirroredRepeat", 33648)] {
        rows.push(sample4_rgb(unit, plain, arguments, name, [code; 2]));
    }
    rows.push(sample4_alpha(unit, plain, arguments, [10497; 2]));
    for (name, code) in [("Repeat", 10497), ("ClampToEdge", 33071), ("MirroredRepeat", 33648)] {
        rows.push(bilinear_rgb(unit, plain, arguments, name, [code; 2]));
    }
    rows.push(bilinear_alpha(unit, plain, arguments, [10497; 2]));
    rows.push(cubemap_uv(unit, arguments));
    rows.push(cubemap_rgb(unit, cube, arguments));
    rows.push(trilinear(unit, cube, arguments));
    rows
}

/// A row of one call made with every argument.
fn row<'a>(
    name: &str,
    arguments: &'a [Arguments],
    unit: impl Fn(&Arguments) -> u32 + 'a,
    source: Option<Timed<'a>>,
) -> Row<'a> {
    Row {
        name: name.to_string(),
        count: (arguments.len() * repeats(arguments)) as u64,
        unit: Some(over_and_over(arguments, unit)),
        source,
        floor: None,
    }
}

/// Makes one call with every argument, over and over until a round is full.
fn over_and_over<'a, T: 'a>(arguments: &'a [Arguments], call: impl Fn(&Arguments) -> T + 'a) -> Timed<'a> {
    Box::new(move || {
        time(|| {
            for _ in 0..repeats(arguments) {
                for a in arguments {
                    black_box(call(black_box(a)));
                }
            }
        })
    })
}

/// The source over the same picture, where it is given.
#[cfg(source)]
fn source<'a, T: 'a>(
    picture: crate::unit::Picture<'a>,
    codes: [u32; 2],
    arguments: &'a [Arguments],
    call: impl Fn(&swraster::texture::TextureAndSampler, &Arguments) -> T + 'a,
) -> Option<Timed<'a>> {
    let texture = crate::source::over_chain(&picture.lent);
    let sampled = crate::source::with_codes(std::sync::Arc::new(texture), codes);
    Some(over_and_over(arguments, move |a| call(&sampled, a)))
}

/// The source's call in a row, or nothing where the source is not given.
macro_rules! by_source {
    ($picture:expr, $codes:expr, $arguments:expr, |$t:ident, $a:ident| $call:expr) => {{
        #[cfg(source)]
        let timed = {
            #[allow(unused_imports)]
            use crate::source::{uvec4, vec3x4, vec4};
            source($picture, $codes, $arguments, |$t, $a| $call)
        };
        #[cfg(not(source))]
        let timed = None;
        timed
    }};
}

fn level_sizes<'a>(unit: &'a dyn Unit, chain: &'a Chain, arguments: &'a [Arguments]) -> Row<'a> {
    let p = chain.lend().lent;
    row(
        "level_sizes",
        arguments,
        move |a| unit.level_sizes(p.kind, p.width, p.height, a.level, black_box(&mut [0; 4])),
        None,
    )
}

fn compute_mip_level<'a>(unit: &'a dyn Unit, chain: &'a Chain, arguments: &'a [Arguments]) -> Row<'a> {
    let p = chain.lend().lent;
    row(
        "compute_mip_level",
        arguments,
        move |a| unit.compute_mip_level(p.width, p.height, &a.steps, black_box(&mut 0)),
        by_source!(chain.lend(), [0; 2], arguments, |t, a| t
            .compute_mip_level(vec4(&a.steps))),
    )
}

fn sample4_rgb<'a>(
    unit: &'a dyn Unit,
    chain: &'a Chain,
    arguments: &'a [Arguments],
    name: &str,
    codes: [u32; 2],
) -> Row<'a> {
    let picture = chain.lend();
    row(
        &format!("sample4_rgb, {name}"),
        arguments,
        move |a| unit.sample4_rgb(&picture, codes, &a.u, &a.v, &a.steps, black_box(&mut [0.0; 12])),
        by_source!(picture, codes, arguments, |t, a| t.sample4_rgb(
            vec4(&a.u),
            vec4(&a.v),
            vec4(&a.steps)
        )),
    )
}

fn sample4_alpha<'a>(unit: &'a dyn Unit, chain: &'a Chain, arguments: &'a [Arguments], codes: [u32; 2]) -> Row<'a> {
    let picture = chain.lend();
    row(
        "sample4_alpha, Repeat",
        arguments,
        move |a| unit.sample4_alpha(&picture, codes, &a.u, &a.v, &a.steps, black_box(&mut [0.0; 4])),
        by_source!(picture, codes, arguments, |t, a| t.sample4_alpha(
            vec4(&a.u),
            vec4(&a.v),
            vec4(&a.steps)
        )),
    )
}

fn bilinear_rgb<'a>(
    unit: &'a dyn Unit,
    chain: &'a Chain,
    arguments: &'a [Arguments],
    name: &str,
    codes: [u32; 2],
) -> Row<'a> {
    let picture = chain.lend();
    row(
        &format!("sample_bilinear_rgb, {name}"),
        arguments,
        move |a| unit.sample_bilinear_rgb(&picture, codes, &a.u, &a.v, a.level, &[0; 4], black_box(&mut [0.0; 12])),
        by_source!(picture, codes, arguments, |t, a| t.sample_bilinear_rgb(
            vec4(&a.u),
            vec4(&a.v),
            a.level,
            uvec4(&[0; 4])
        )),
    )
}

fn bilinear_alpha<'a>(unit: &'a dyn Unit, chain: &'a Chain, arguments: &'a [Arguments], codes: [u32; 2]) -> Row<'a> {
    let picture = chain.lend();
    row(
        "sample_bilinear_alpha, Repeat",
        arguments,
        move |a| unit.sample_bilinear_alpha(&picture, codes, &a.u, &a.v, a.level, black_box(&mut [0.0; 4])),
        by_source!(picture, codes, arguments, |t, a| t.sample_bilinear_alpha(
            vec4(&a.u),
            vec4(&a.v),
            a.level
        )),
    )
}

fn cubemap_uv<'a>(unit: &'a dyn Unit, arguments: &'a [Arguments]) -> Row<'a> {
    #[cfg(source)]
    let by_source: Option<Timed> = Some(over_and_over(arguments, |a| {
        swraster::texture::TextureAndSampler::cubemap_uv_from_normal(crate::source::vec3x4(&a.directions))
    }));
    #[cfg(not(source))]
    let by_source = None;
    row(
        "cubemap_uv_from_normal",
        arguments,
        move |a| unit.cubemap_uv_from_normal(&a.directions, black_box(&mut [0.0; 8]), black_box(&mut [0; 4])),
        by_source,
    )
}

fn cubemap_rgb<'a>(unit: &'a dyn Unit, chain: &'a Chain, arguments: &'a [Arguments]) -> Row<'a> {
    let picture = chain.lend();
    row(
        "sample_cubemap_rgb",
        arguments,
        move |a| unit.sample_cubemap_rgb(&picture, &a.directions, &a.levels, black_box(&mut [0.0; 12])),
        by_source!(picture, [0; 2], arguments, |t, a| t
            .sample_cubemap_rgb(vec3x4(&a.directions), uvec4(&a.levels))),
    )
}

fn trilinear<'a>(unit: &'a dyn Unit, chain: &'a Chain, arguments: &'a [Arguments]) -> Row<'a> {
    let picture = chain.lend();
    row(
        "sample_cubemap_trilinear_rgb",
        arguments,
        move |a| unit.sample_cubemap_trilinear_rgb(&picture, &a.directions, &a.fractions, black_box(&mut [0.0; 12])),
        by_source!(picture, [0; 2], arguments, |t, a| {
            t.sample_cubemap_trilinear_rgb(vec3x4(&a.directions), vec4(&a.fractions))
        }),
    )
}
