//! The bitmap module of polars-arrow 0.55.2, its files unchanged, against stand-ins for what is missing.
//!
//! `missing` holds the crate's own absent files, `../stand-ins` the absent crates; each says what it assumes. The private names of the
//! crate that the comparison needs are made public at the end of this file.
#![allow(dead_code, unexpected_cfgs, unused_imports, clippy::all)]

include!(concat!(env!("OUT_DIR"), "/modules.rs"));

/// The trait that `Bitmap` implements for splitting; the comparison does not use it.
pub mod array {
    pub trait Splitable: Sized {
        fn check_bound(&self, offset: usize) -> bool;

        /// # Safety
        /// The bound holds.
        unsafe fn _split_at_unchecked(&self, offset: usize) -> (Self, Self);
    }
}

/// The trait by which `Bitmap` is collected; the comparison does not use it.
pub mod legacy {
    pub mod utils {
        use crate::trusted_len::TrustedLen;

        pub trait FromTrustedLenIterator<A>: Sized {
            fn from_iter_trusted_length<T: IntoIterator<Item = A>>(iter: T) -> Self
            where
                T::IntoIter: TrustedLen;
        }
    }
}

pub use polars_buffer::SharedStorage;

/// Calls `merge_reversed` at 64 bits, which is visible only in its crate. The offset is 1 to 63.
#[inline]
pub fn merge_reversed(current: u64, next: u64, offset: usize) -> u64 {
    bitmap::utils::merge_reversed(current, next, offset)
}

/// Returns the start of a bitmap in its bytes, which is visible only in its crate.
#[inline]
pub fn offset(bitmap: &bitmap::Bitmap) -> usize {
    bitmap.offset()
}

/// Returns all bytes of a bitmap's storage, those past its end too.
pub fn storage(bitmap: &bitmap::Bitmap) -> SharedStorage<u8> {
    bitmap.as_buffer().0.storage().clone()
}
