//! Replaces `num-traits`: the part of `PrimInt` that the bit chunks use.
//!
//! Assumed: its operations are the integers' own.

use std::ops::{BitAnd, BitOr, BitXor, Not, Shl, Shr, Sub};

pub trait PrimInt:
    Copy
    + Ord
    + Sub<Output = Self>
    + Not<Output = Self>
    + BitAnd<Output = Self>
    + BitOr<Output = Self>
    + BitXor<Output = Self>
    + Shl<usize, Output = Self>
    + Shr<usize, Output = Self>
{
    fn zero() -> Self;
    fn one() -> Self;
    fn count_ones(self) -> u32;
    fn trailing_zeros(self) -> u32;
}

macro_rules! prim_int {
    ($($ty:ty),*) => {$(
        impl PrimInt for $ty {
            #[inline(always)]
            fn zero() -> Self {
                0
            }

            #[inline(always)]
            fn one() -> Self {
                1
            }

            #[inline(always)]
            fn count_ones(self) -> u32 {
                <$ty>::count_ones(self)
            }

            #[inline(always)]
            fn trailing_zeros(self) -> u32 {
                <$ty>::trailing_zeros(self)
            }
        }
    )*};
}

prim_int!(u8, u16, u32, u64);
