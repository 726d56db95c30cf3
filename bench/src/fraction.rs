//! Squared distances as fractions, compared by value and never reduced.

use crate::refusal::Refusal;
use std::cmp::Ordering;

/// A top below 2^40 over a bottom from 1 to 2^20.
///
/// `==` asks whether both numbers are the same. The order by value is `by_value`: fractions that are
/// equal by it may differ as answers, so `Ord` would contradict `Eq`.
#[derive(Clone, Copy, Debug, PartialEq, Eq)]
pub struct Fraction {
    top: u64,
    bottom: u32,
}

impl Fraction {
    pub const ZERO: Fraction = Fraction { top: 0, bottom: 1 };
    pub const LARGEST: Fraction = Fraction {
        top: (1 << 40) - 1,
        bottom: 1,
    };

    pub fn new(top: u64, bottom: u64) -> Result<Fraction, Refusal> {
        if top < 1 << 40 && (1..=1 << 20).contains(&bottom) {
            Ok(Fraction {
                top,
                bottom: bottom as u32,
            })
        } else {
            Err(Refusal::Tolerance)
        }
    }

    /// For numbers that a measure made, which are in bounds.
    #[inline]
    pub(crate) fn made(top: u64, bottom: u32) -> Fraction {
        debug_assert!(Fraction::new(top, u64::from(bottom)).is_ok());
        Fraction { top, bottom }
    }

    pub fn top(self) -> u64 {
        self.top
    }

    pub fn bottom(self) -> u32 {
        self.bottom
    }

    /// Cross products stay below 2^60.
    #[inline]
    pub fn by_value(self, other: Fraction) -> Ordering {
        (self.top * u64::from(other.bottom)).cmp(&(other.top * u64::from(self.bottom)))
    }

    #[inline]
    pub fn is_above(self, other: Fraction) -> bool {
        self.by_value(other) == Ordering::Greater
    }

    /// The old fraction unless the new one is greater.
    #[inline]
    pub fn joined(self, new: Fraction) -> Fraction {
        if new.is_above(self) { new } else { self }
    }
}

/// A limit on tops over one known bottom: two products in place of a fraction per point.
#[derive(Clone, Copy, Debug)]
pub struct Bound {
    scale: u64,
    most: u64,
}

impl Bound {
    pub const NONE: Bound = Bound { scale: 0, most: 0 };

    /// Tops over `bottom` that are not greater than the limit.
    #[inline]
    pub fn within(limit: Fraction, bottom: u32) -> Bound {
        Bound {
            scale: u64::from(limit.bottom),
            most: limit.top * u64::from(bottom),
        }
    }

    /// Tops over `bottom` that are below the limit, which must not be zero.
    #[inline]
    pub fn below(limit: Fraction, bottom: u32) -> Bound {
        debug_assert!(limit.top > 0);
        Bound {
            scale: u64::from(limit.bottom),
            most: limit.top * u64::from(bottom) - 1,
        }
    }

    #[inline]
    pub fn admits(self, top: u64) -> bool {
        top * self.scale <= self.most
    }
}

#[cfg(test)]
mod tests {
    use super::*;

    fn fraction(top: u64, bottom: u64) -> Fraction {
        Fraction::new(top, bottom).unwrap()
    }

    #[test]
    fn numbers_out_of_bounds_are_refused() {
        for (top, bottom) in [
            (1 << 40, 1),
            (0, 0),
            (0, (1 << 20) + 1),
            (u64::MAX, u64::MAX),
        ] {
            assert_eq!(Fraction::new(top, bottom), Err(Refusal::Tolerance));
        }
        assert!(Fraction::new((1 << 40) - 1, 1 << 20).is_ok());
    }

    #[test]
    fn equal_by_value_and_different_as_answers() {
        let (two, sixteen) = (fraction(2, 1), fraction(16, 8));
        assert_eq!(two.by_value(sixteen), Ordering::Equal);
        assert_ne!(two, sixteen);
        assert_eq!(two.joined(sixteen), two);
        assert_eq!(sixteen.joined(two), sixteen);
        assert_eq!(two.joined(fraction(17, 8)), fraction(17, 8));
    }

    #[test]
    fn bounds_agree_with_the_order() {
        for limit in [
            fraction(1, 3),
            fraction(7, 2),
            fraction(16, 8),
            fraction(5, 1),
        ] {
            for bottom in 1..20 {
                for top in 0..100 {
                    let order = fraction(top, bottom.into()).by_value(limit);
                    let (within, below) =
                        (Bound::within(limit, bottom), Bound::below(limit, bottom));
                    assert_eq!(within.admits(top), order != Ordering::Greater);
                    assert_eq!(below.admits(top), order == Ordering::Less);
                    assert!(Bound::NONE.admits(top));
                }
            }
        }
    }
}
