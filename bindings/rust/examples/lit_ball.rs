//! Lights a grey ball by the four coefficients of a studio, and draws it there in four views: the studio's +Z, where the sample has
//! its window, lies to the left, ahead, to the right and behind. Writes a PPM picture to standard output. Takes the path of a TXR
//! cubemap; without one, it is the studio among the samples.

mod txr;

use std::error::Error;
use std::f32::consts::PI;
use std::io::{self, BufWriter, Write};
use std::{env, process};

use swathecold::{IrradianceSh4, Picture, Refusal, Vec3x4};

const STUDIO: &str = concat!(env!("CARGO_MANIFEST_DIR"), "/../../samples/studio.txr");
const ALBEDO: f32 = 0.9;

/// The pixels along a view's side, and along the stripe between two views.
const SIDE: usize = 240;
const STRIPE: usize = 12;

/// Places in a view go from -1 to 1, to the right and up: the ball's radius, and how high its middle lies.
const RADIUS: f32 = 0.5;
const MIDDLE: f32 = -0.2;

/// How far the views are turned to the right from +Z and up from the horizon, in degrees; half of what they take in, as a tangent.
const TURNS: [f32; 4] = [60.0, 0.0, -60.0, 180.0];
const LIFT: f32 = 14.0;
const SPREAD: f32 = 1.4;

/// The direction that is this far to the right, up and ahead in a view. Faces are seen from inside: to the right of +Z lies +X.
fn towards(turn: f32, [right, up, ahead]: [f32; 3]) -> [f32; 3] {
    let ((sin, cos), (lift_sin, lift_cos)) = (turn.to_radians().sin_cos(), LIFT.to_radians().sin_cos());
    let (level, high) = (ahead * lift_cos - up * lift_sin, ahead * lift_sin + up * lift_cos);
    [right * cos + level * sin, high, level * cos - right * sin]
}

/// The byte that shows a light of 0 to 1; what lies outside is held to it.
fn shown(light: f32) -> u8 {
    let held = light.clamp(0.0, 1.0);
    let encoded = if held <= 0.0031308 { 12.92 * held } else { 1.055 * held.powf(1.0 / 2.4) - 0.055 };
    (255.0 * encoded).round() as u8
}

/// The ball's colours at a place in each view, as seen from afar; none beside it.
fn ball(light: &IrradianceSh4, x: f32, y: f32) -> Option<[[u8; 3]; 4]> {
    let (across, above) = (x / RADIUS, (y - MIDDLE) / RADIUS);
    let nearer = 1.0 - across * across - above * above;
    (nearer > 0.0).then(|| {
        TURNS.map(|turn| light.on(towards(turn, [across, above, -nearer.sqrt()])).map(|falls| shown(ALBEDO / PI * falls)))
    })
}

/// The studio's colours there, a lane a view.
fn walls(studio: &Picture, x: f32, y: f32) -> Result<[[u8; 3]; 4], Refusal> {
    let seen = TURNS.map(|turn| towards(turn, [SPREAD * x, SPREAD * y, 1.0]));
    let [x, y, z] = [0, 1, 2].map(|axis| seen.map(|direction| direction[axis]));
    let found = studio.sample_cubemap_rgb(Vec3x4 { x, y, z }, [0; 4])?;
    Ok([0, 1, 2, 3].map(|lane| [found.x[lane], found.y[lane], found.z[lane]].map(|value| (255.0 * value).round() as u8)))
}

fn draw(path: &str) -> Result<(), Box<dyn Error>> {
    let studio = txr::opened(path)?;
    // the first level with sides up to 256
    let level = studio.width().max(studio.height()).div_ceil(256).next_power_of_two().ilog2();
    let light = studio.reopen(level)?.irradiance_sh4()?;
    let mut out = BufWriter::new(io::stdout().lock());
    writeln!(out, "P6 {} {SIDE} 255", 4 * SIDE + 3 * STRIPE)?;
    let place = |pixel: usize| (pixel as f32 + 0.5) / SIDE as f32 * 2.0 - 1.0;
    for row in 0..SIDE {
        let mut views: [Vec<u8>; 4] = Default::default();
        for column in 0..SIDE {
            let (x, y) = (place(column), -place(row));
            let colours = ball(&light, x, y).map_or_else(|| walls(&studio, x, y), Ok)?;
            views.iter_mut().zip(colours).for_each(|(view, colour)| view.extend(colour));
        }
        out.write_all(&views.join(&[26; 3 * STRIPE][..]))?;
    }
    Ok(out.flush()?)
}

fn main() {
    let path = env::args().nth(1).unwrap_or_else(|| STUDIO.into());
    if let Err(why) = draw(&path) {
        eprintln!("{path}: {why}");
        process::exit(1);
    }
}
