//! Whole numbers of any length: what the rule of the table T is stated over.

use std::cmp::Ordering;

/// A whole number as 32-bit digits, the least first, with no zero digit at the end.
#[derive(Clone, PartialEq, Eq, Debug)]
pub struct Whole(Vec<u32>);

impl Whole {
    /// The whole number of a machine number.
    pub fn of(number: u64) -> Whole {
        Whole(vec![number as u32, (number >> 32) as u32]).trimmed()
    }

    /// The same number with no zero digit at the end.
    fn trimmed(mut self) -> Whole {
        while self.0.last() == Some(&0) {
            self.0.pop();
        }
        self
    }

    /// The product, as learnt at school.
    pub fn times(&self, other: &Whole) -> Whole {
        let mut digits = vec![0u32; self.0.len() + other.0.len()];
        for (i, a) in self.0.iter().enumerate() {
            let mut carry = 0u64;
            for (j, b) in other.0.iter().enumerate() {
                let sum = *a as u64 * *b as u64 + digits[i + j] as u64 + carry;
                digits[i + j] = sum as u32;
                carry = sum >> 32;
            }
            digits[i + other.0.len()] = carry as u32;
        }
        Whole(digits).trimmed()
    }

    /// The power, by as many products.
    pub fn power(&self, exponent: u32) -> Whole {
        (0..exponent).fold(Whole::of(1), |product, _| product.times(self))
    }
}

impl Ord for Whole {
    fn cmp(&self, other: &Whole) -> Ordering {
        let longer = self.0.len().cmp(&other.0.len());
        longer.then_with(|| self.0.iter().rev().cmp(other.0.iter().rev()))
    }
}

impl PartialOrd for Whole {
    fn partial_cmp(&self, other: &Whole) -> Option<Ordering> {
        Some(self.cmp(other))
    }
}

#[cfg(test)]
mod tests {
    use super::Whole;

    #[test]
    fn products_and_powers() {
        assert_eq!(Whole::of(0).times(&Whole::of(7)), Whole::of(0));
        assert_eq!(
            Whole::of(u32::MAX as u64).power(2),
            Whole::of(u32::MAX as u64 * u32::MAX as u64)
        );
        // (10^9)^4 = 10^36, and 10^36 = 2^36 * 5^36.
        assert_eq!(
            Whole::of(1_000_000_000).power(4),
            Whole::of(2).power(36).times(&Whole::of(5).power(36))
        );
        assert!(Whole::of(3).power(41) > Whole::of(2).power(64));
        assert!(Whole::of(3).power(40) < Whole::of(2).power(64));
    }
}
