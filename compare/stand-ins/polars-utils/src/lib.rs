//! Replaces `polars-utils`: the load of a word, the cell of the cached count, the index type and a push.

/// An index has 32 bits, as in the crate without its feature `bigidx` and in the reference.
pub type IdxSize = u32;

pub mod slice {
    /// Returns the first eight bytes as a little-endian word, absent ones zero. That is assumed, from the reference and from its use: the
    /// crate's own text is missing, so this one call is compared with the model only.
    #[inline]
    pub fn load_padded_le_u64(bytes: &[u8]) -> u64 {
        bytes.first_chunk::<8>().map_or_else(|| load_short(bytes), |first| u64::from_le_bytes(*first))
    }

    /// Loads at most seven bytes, with no copy of variable length, so that the crate loses no time by its stand-in.
    #[inline(never)]
    fn load_short(bytes: &[u8]) -> u64 {
        if let (Some(low), Some(high)) = (bytes.first_chunk::<4>(), bytes.last_chunk::<4>()) {
            let high = u64::from(u32::from_le_bytes(*high)) << (8 * (bytes.len() - 4));
            return u64::from(u32::from_le_bytes(*low)) | high;
        }
        bytes.iter().rev().fold(0, |word, byte| word << 8 | u64::from(*byte))
    }
}

pub mod relaxed_cell {
    use std::sync::atomic::{AtomicU64, Ordering};

    /// Assumed: an atomic value, loaded and stored in relaxed order; a clone holds the value at that time. The bitmaps use it only
    /// for u64, so it holds that and the parameter only names it.
    pub struct RelaxedCell<T>(AtomicU64, std::marker::PhantomData<T>);

    impl RelaxedCell<u64> {
        #[inline]
        pub fn load(&self) -> u64 {
            self.0.load(Ordering::Relaxed)
        }

        #[inline]
        pub fn store(&self, value: u64) {
            self.0.store(value, Ordering::Relaxed)
        }

        #[inline]
        pub fn get_mut(&mut self) -> &mut u64 {
            self.0.get_mut()
        }
    }

    impl From<u64> for RelaxedCell<u64> {
        #[inline]
        fn from(value: u64) -> Self {
            Self(AtomicU64::new(value), std::marker::PhantomData)
        }
    }

    impl Default for RelaxedCell<u64> {
        #[inline]
        fn default() -> Self {
            Self::from(0)
        }
    }

    impl Clone for RelaxedCell<u64> {
        #[inline]
        fn clone(&self) -> Self {
            Self::from(self.load())
        }
    }
}

pub mod vec {
    /// Assumed: a push that takes the capacity for granted. This one checks it, so the result is equal.
    pub trait PushUnchecked<T> {
        /// # Safety
        /// The capacity exceeds the length.
        unsafe fn push_unchecked(&mut self, value: T);
    }

    impl<T> PushUnchecked<T> for Vec<T> {
        #[inline]
        unsafe fn push_unchecked(&mut self, value: T) {
            self.push(value)
        }
    }
}

/// `trusted_len.rs` names these two iterators and never makes one.
pub mod itertools {
    pub struct EnumerateIdx<I, T>(std::marker::PhantomData<(I, T)>);

    pub struct ZipEq<A, B>(std::marker::PhantomData<(A, B)>);

    impl<A: Iterator, B: Iterator> Iterator for ZipEq<A, B> {
        type Item = (A::Item, B::Item);

        fn next(&mut self) -> Option<Self::Item> {
            unreachable!("no such iterator is made")
        }
    }
}
