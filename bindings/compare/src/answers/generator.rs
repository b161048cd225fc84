//! The texels and bytes of a seed, and the sum over a buffer. Each step stays below 2^49.

/// The next number of the stream: 48271 times the last one, modulo 2^31 - 1.
fn next(number: u64) -> u64 {
    number * 48271 % 2147483647
}

/// So many texels of a seed from 1 to 2^31 - 2: each from two numbers of the stream, the first above.
pub fn texels(seed: u32, count: usize) -> Vec<u32> {
    let mut number = seed as u64;
    let mut half = || {
        number = next(number);
        (number % 65536) as u32
    };
    (0..count).map(|_| half() * 65536 + half()).collect()
}

/// So many bytes of a seed: each from one number of the stream.
pub fn bytes(seed: u32, count: usize) -> Vec<u8> {
    let mut number = seed as u64;
    let mut byte = || {
        number = next(number);
        (number % 256) as u8
    };
    (0..count).map(|_| byte()).collect()
}

/// The sum over a buffer: from 1, each texel or byte added to 65599 times the sum before, modulo 2^32 - 5.
pub fn checksum<T: Copy + Into<u64>>(buffer: &[T]) -> u32 {
    buffer
        .iter()
        .fold(1u64, |sum, entry| (sum * 65599 + (*entry).into()) % 4294967291) as u32
}
