//! The table T, one value at a time: four bytes whose reduction changes when T(k) alone is moved by one place.
//!
//! The source says nothing about SRGB colour, so these are looked for: for each byte k and each of its two neighbours
//! in the row of all f32. A reduction can change only where the mean of the four is next to some T(j), so for every k
//! and every two other bytes a fourth is taken that brings the sum next to 4T(j). What was found goes through the chain
//! call as a 2 by 2 picture.

use super::Run;
use crate::call::Call;
use crate::plain::{decoded, Document01, Rules, TRUNCATING};
use crate::random::ulps;

/// Runs the part.
pub fn run(run: &mut Run) {
    let fourths = Fourths::new();
    for k in 0..256 {
        for bytes in fourths.sensitive(k).into_iter().flatten() {
            picture(run, bytes);
        }
    }
}

/// The table with T(k) moved by so many places.
fn moved(k: u32, places: i64) -> [f32; 256] {
    let mut table: [f32; 256] = std::array::from_fn(|byte| decoded(byte as u32));
    table[k as usize] = ulps(table[k as usize], places);
    table
}

/// The reduction of four bytes by a table that grows.
fn reduced(table: &[f32; 256], bytes: [u32; 4]) -> usize {
    let mean = Document01::mean(bytes.map(|byte| table[byte as usize]));
    table.partition_point(|t| *t <= mean)
}

/// Every 4T(j) - T(d) with its d, in growing order.
pub struct Fourths(Vec<(f64, u32)>);

impl Fourths {
    pub fn new() -> Fourths {
        let pairs = (0..256u32).flat_map(|j| (0..256u32).map(move |d| (j, d)));
        let mut fourths: Vec<(f64, u32)> = pairs
            .map(|(j, d)| (4.0 * decoded(j) as f64 - decoded(d) as f64, d))
            .collect();
        fourths.sort_by(|a, b| a.0.total_cmp(&b.0));
        Fourths(fourths)
    }

    /// The d that bring three bytes next to some 4T(j): within a few places of the sum.
    fn of(&self, three: [u32; 3]) -> impl Iterator<Item = u32> + '_ {
        let sum: f64 = three.iter().map(|byte| decoded(*byte) as f64).sum();
        let near = 4.0 * f32::EPSILON as f64 * sum.max(1e-6);
        let first = self.0.partition_point(|(fourth, _)| *fourth < sum - near);
        self.0[first..]
            .iter()
            .take_while(move |(fourth, _)| *fourth <= sum + near)
            .map(|(_, d)| *d)
    }

    /// Four bytes for T(k) moved down and four for T(k) moved up, where there are any.
    pub fn sensitive(&self, k: u32) -> [Option<[u32; 4]>; 2] {
        let table = moved(0, 0);
        let both = [moved(k, -1), moved(k, 1)];
        let mut found = [None, None];
        for (a, b) in (0..256).flat_map(|a| (a..256).map(move |b| (a, b))) {
            for d in self.of([k, a, b]) {
                for bytes in orders([k, a, b, d]) {
                    for (moved, found) in both.iter().zip(&mut found) {
                        if found.is_none() && reduced(&table, bytes) != reduced(moved, bytes) {
                            *found = Some(bytes);
                        }
                    }
                }
            }
            if found.iter().all(Option::is_some) {
                break;
            }
        }
        found
    }
}

impl Default for Fourths {
    fn default() -> Self {
        Fourths::new()
    }
}

/// The orders in which four bytes can be summed to different numbers: which two come first, and which third.
fn orders([a, b, c, d]: [u32; 4]) -> [[u32; 4]; 12] {
    let pairs = [
        [a, b, c, d],
        [a, c, b, d],
        [a, d, b, c],
        [b, c, a, d],
        [b, d, a, c],
        [c, d, a, b],
    ];
    std::array::from_fn(|i| {
        let [p, q, r, s] = pairs[i / 2];
        if i % 2 == 0 {
            [p, q, r, s]
        } else {
            [p, q, s, r]
        }
    })
}

/// A 2 by 2 picture with the four bytes in every channel.
fn picture(run: &mut Run, bytes: [u32; 4]) {
    let mut texels = [0x0BAD_F00D; 5];
    for (texel, byte) in texels.iter_mut().zip(bytes) {
        *texel = byte * 0x0101_0101;
    }
    run.call(&Call::GenerateMipmaps {
        kind: 0,
        width: 2,
        height: 2,
        mode: TRUNCATING,
        texels: &texels,
    });
}

#[cfg(test)]
mod tests {
    use super::Fourths;

    /// A table that is one place off at a single value is seen, but for the smallest values.
    #[test]
    fn single_values_are_met() {
        let fourths = Fourths::new();
        let found: Vec<[bool; 2]> = (0..256)
            .map(|k| fourths.sensitive(k).map(|four| four.is_some()))
            .collect();
        let missing = |side: usize| (0..256).filter(|k| !found[*k][side]).collect::<Vec<_>>();
        println!("not met below: {:?}", missing(0));
        println!("not met above: {:?}", missing(1));
        assert!(missing(0).len() < 40 && missing(1).len() < 40);
    }
}
