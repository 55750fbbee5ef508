//! The size of a last.

/// The size of a measured last, the form that a shoe is made on. It is in half points: two of them are a Paris point, two thirds of a
/// centimetre, so that size 40.0 is 80 half points. With t the length plus the correction it is 3·t/1,000 half points, rounded.
#[derive(Clone, Copy, Debug, PartialEq, Eq)]
pub struct Size {
    /// The nearest whole number, a half going up: 15 to 135.
    pub half_points: u64,
    /// 3·t less 1,000 times `half_points`, in thousandths of a half point: −500 to 499.
    pub rest: i64,
}
