//! Stands in for num-traits. Powers are f32's own, as with the crate's feature `std`; `Float` adds only document 01's fourth root,
//! which the rooted copy of the crate calls where the published one calls `powf(0.25)`.
use std::ops::{BitAnd, Shl};

pub trait PrimInt: Copy + PartialOrd + BitAnd<Output = Self> + Shl<usize, Output = Self> {
    fn one() -> Self;
    fn zero() -> Self;
}

pub trait Unsigned {}

macro_rules! unsigned {
    ($($t:ty),*) => { $(
        impl PrimInt for $t {
            fn one() -> Self { 1 }
            fn zero() -> Self { 0 }
        }
        impl Unsigned for $t {}
    )* };
}
unsigned!(u8, u16, u32, u64, usize);

pub trait Float {
    fn document_root(self) -> Self;
}

impl Float for f32 {
    #[inline]
    fn document_root(self) -> f32 {
        if self.is_nan() {
            return f32::NAN;
        }
        if self.is_infinite() {
            return f32::INFINITY;
        }
        if self == 0.0 {
            return 0.0;
        }
        if self < 0.0 {
            return f32::NAN;
        }
        nearest_square_root(nearest_square_root(self))
    }
}

/// The f32 nearest to the exact square root of a finite number above zero, settled by whole squares: x is m × 2^e with m of 24 bits.
/// A whole number M in [2^46, 2^48) has x = M × 2^(even), so its root has 24 bits before the point. No root lies halfway between two.
#[inline]
pub fn nearest_square_root(x: f32) -> f32 {
    let bits = x.to_bits();
    let (mut m, mut e) = match bits >> 23 {
        0 => (u64::from(bits), -149),
        field => (u64::from(bits & 0x7F_FFFF | 0x80_0000), field as i32 - 150),
    };
    while m < 0x80_0000 {
        m *= 2;
        e -= 1;
    }
    let shift = if (e - 23) % 2 == 0 { 23 } else { 24 };
    let whole = m << shift;
    let mut root = (whole as f64).sqrt() as u64;
    while root * root > whole {
        root -= 1;
    }
    while (root + 1) * (root + 1) <= whole {
        root += 1;
    }
    if whole > root * root + root {
        root += 1;
    }
    let power = (e - shift) / 2;
    (root as f64 * f64::from_bits(((power + 1023) as u64) << 52)) as f32
}
