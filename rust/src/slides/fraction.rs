//! Exact fractions, for numbers far below the limits of the type.

use std::cmp::Ordering;
use std::ops::{Add, Mul, Sub};

/// A fraction in lowest terms.
#[derive(Clone, Copy, Debug, PartialEq, Eq)]
pub struct Fraction {
    above: i64,
    below: i64,
}

impl Fraction {
    /// `below` is above 0.
    pub fn new(above: i64, below: i64) -> Fraction {
        let (mut divisor, mut rest) = (below, above.abs());
        while rest != 0 {
            (divisor, rest) = (rest, divisor % rest);
        }
        Fraction { above: above / divisor, below: below / divisor }
    }

    pub fn whole(number: u64) -> Fraction {
        Fraction { above: number as i64, below: 1 }
    }

    /// The fraction, where it is a whole number from 0.
    pub fn to_whole(self) -> Option<u64> {
        (self.below == 1 && self.above >= 0).then_some(self.above as u64)
    }
}

impl Add for Fraction {
    type Output = Fraction;

    fn add(self, other: Fraction) -> Fraction {
        let above = self.above * other.below + other.above * self.below;
        Fraction::new(above, self.below * other.below)
    }
}

impl Sub for Fraction {
    type Output = Fraction;

    fn sub(self, other: Fraction) -> Fraction {
        let above = self.above * other.below - other.above * self.below;
        Fraction::new(above, self.below * other.below)
    }
}

impl Mul for Fraction {
    type Output = Fraction;

    fn mul(self, other: Fraction) -> Fraction {
        Fraction::new(self.above * other.above, self.below * other.below)
    }
}

impl Ord for Fraction {
    fn cmp(&self, other: &Fraction) -> Ordering {
        (self.above * other.below).cmp(&(other.above * self.below))
    }
}

impl PartialOrd for Fraction {
    fn partial_cmp(&self, other: &Fraction) -> Option<Ordering> {
        Some(self.cmp(other))
    }
}
