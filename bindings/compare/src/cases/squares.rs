//! Squares of four bytes for packing: the mean of each, or the root of the mean of their squares, comes to about a half.

use crate::random::Random;

/// One channel of p00, p10, p01, p11.
pub type Square = [u8; 4];

/// For each sum of squares so many are taken, where there are as many.
const OF_A_SUM: usize = 12;

/// The seven whose Normal mean times 255 is the f32 just below a half: with a half added in f32 it is 1.
pub const JUST_BELOW_A_HALF: [Square; 7] = [
    [0, 0, 0, 2],
    [0, 0, 2, 0],
    [0, 1, 1, 0],
    [0, 2, 0, 0],
    [1, 0, 1, 0],
    [1, 1, 0, 0],
    [2, 0, 0, 0],
];

/// Every sum of four bytes in four orders: as even as it can be, as far apart as it can be, and drawn twice.
pub fn of_every_sum(random: &mut Random) -> Vec<Square> {
    let mut squares: Vec<Square> = Vec::new();
    for sum in 0..=1020 {
        let of_sum = [
            even(sum),
            apart(sum, |_, most| most),
            apart(sum, |least, most| random.between(least, most)),
            apart(sum, |least, most| random.between(least, most)),
        ];
        squares.extend(of_sum.iter().flat_map(turned));
    }
    squares
}

/// The four orders in which a square is gone round.
fn turned(square: &Square) -> [Square; 4] {
    std::array::from_fn(|first| std::array::from_fn(|i| square[(first + i) % 4]))
}

/// The sum in four bytes that differ by one at most.
pub fn even(sum: i64) -> Square {
    std::array::from_fn(|i| ((sum + i as i64) / 4) as u8)
}

/// The sum in four bytes, each taken between the least and the most that the others allow.
fn apart(sum: i64, mut take: impl FnMut(i64, i64) -> i64) -> Square {
    let mut left = sum;
    std::array::from_fn(|i| {
        let of_others = 255 * (3 - i as i64);
        let byte = take((left - of_others).max(0), left.min(255));
        left -= byte;
        byte as u8
    })
}

/// For every k squares with a sum of squares at and about (2k + 1)^2: the root of a quarter of that is k and a half.
pub fn of_roots(random: &mut Random) -> Vec<Square> {
    let pairs = pairs_by_squares();
    let mut squares = Vec::new();
    for k in 0..255i64 {
        for sum in (-2..=2).map(|off| (2 * k + 1).pow(2) + off) {
            let first = random.between(0, 65535);
            // 40503 is odd: every two bytes come once.
            let two = (0..65536)
                .map(|n| (first + 40503 * n) % 65536)
                .map(|n| [n / 256, n % 256]);
            let with_rest = |[a, b]: [i64; 2]| {
                let rest = usize::try_from(sum - a * a - b * b).ok()?;
                let [c, d] = pairs.get(rest).copied().flatten()?;
                Some([a as u8, b as u8, c, d])
            };
            squares.extend(two.filter_map(with_rest).take(OF_A_SUM));
        }
    }
    squares
}

/// Two bytes for each sum of two squares, where there are any.
fn pairs_by_squares() -> Vec<Option<[u8; 2]>> {
    let mut pairs = vec![None; 2 * 255 * 255 + 1];
    for (c, d) in (0..256).flat_map(|c| (c..256).map(move |d| (c, d))) {
        pairs[c * c + d * d] = Some([c as u8, d as u8]);
    }
    pairs
}

/// Every square of bytes at the ends and in the middle of the range.
pub fn of_ends() -> Vec<Square> {
    let bytes = [0, 1, 127, 128, 254, 255];
    (0..1296)
        .map(|n| [n % 6, n / 6 % 6, n / 36 % 6, n / 216].map(|i| bytes[i]))
        .collect()
}

#[cfg(test)]
mod tests {
    use super::*;

    #[test]
    fn sums_and_roots_are_those_that_are_named() {
        let mut random = Random::of(1, "squares");
        let sums = of_every_sum(&mut random);
        let sum = |square: &Square| square.iter().map(|byte| *byte as usize).sum::<usize>();
        assert!(sums.iter().enumerate().all(|(i, square)| sum(square) == i / 16));
        let of_squares = |square: &Square| square.iter().map(|byte| (*byte as i64).pow(2)).sum::<i64>();
        let roots = of_roots(&mut random);
        let met = |offs: [i64; 2]| {
            let about = |exact: i64| roots.iter().any(|square| offs.contains(&(of_squares(square) - exact)));
            (0..255).filter(|k| about((2 * k + 1) * (2 * k + 1))).count()
        };
        let [at, below, above] = [[0, 0], [-2, -1], [1, 2]].map(met);
        println!("sums of squares at {at} of 255 halves, just below {below}, just above {above}");
        assert!(at > 240 && below > 240 && above > 240);
    }
}
