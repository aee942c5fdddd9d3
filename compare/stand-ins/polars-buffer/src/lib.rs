//! Replaces `polars-buffer`: bytes shared by reference count, which `Bitmap` keeps, and the buffer around them.
//!
//! Assumed: a storage returns the bytes of the vector it was made from, unmoved; a clone shares them; only the last owner gets the vector
//! back; a zeroed buffer is as many zeros as asked for. The alignment of the bytes is the allocator's and nothing is assumed of it.
//! A function without a comment stands in for the crate's function of its name.

use std::ops::{Deref, Range};
use std::sync::Arc;

pub struct SharedStorage<T>(Arc<Vec<T>>);

impl<T> SharedStorage<T> {
    pub fn from_vec(values: Vec<T>) -> Self {
        Self(Arc::new(values))
    }

    pub fn try_into_vec(self) -> Result<Vec<T>, Self> {
        Arc::try_unwrap(self.0).map_err(Self)
    }
}

impl<T> Default for SharedStorage<T> {
    fn default() -> Self {
        Self::from_vec(Vec::new())
    }
}

impl<T> Clone for SharedStorage<T> {
    fn clone(&self) -> Self {
        Self(self.0.clone())
    }
}

impl<T> Deref for SharedStorage<T> {
    type Target = [T];

    #[inline]
    fn deref(&self) -> &[T] {
        &self.0
    }
}

/// A range of a storage.
pub struct Buffer<T> {
    storage: SharedStorage<T>,
    range: Range<usize>,
}

impl<T> Buffer<T> {
    pub fn from_storage(storage: SharedStorage<T>) -> Self {
        let range = 0..storage.len();
        Self { storage, range }
    }

    pub fn into_storage(self) -> SharedStorage<T> {
        assert!(self.range == (0..self.storage.len()), "a part of a storage");
        self.storage
    }

    /// Returns the whole storage that the buffer is a range of. The crate has no such call: by it the comparison sees the bytes of a result
    /// that no call returns.
    pub fn storage(&self) -> &SharedStorage<T> {
        &self.storage
    }

    pub fn sliced(self, part: Range<usize>) -> Self {
        assert!(part.start <= part.end && part.end <= self.range.len());
        let range = self.range.start + part.start..self.range.start + part.end;
        Self { range, ..self }
    }
}

impl<T: Clone + Default> Buffer<T> {
    pub fn zeroed(length: usize) -> Self {
        Self::from_storage(SharedStorage::from_vec(vec![T::default(); length]))
    }
}

impl<T> Deref for Buffer<T> {
    type Target = [T];

    fn deref(&self) -> &[T] {
        &self.storage[self.range.clone()]
    }
}

/// `trusted_len.rs` names this iterator and never makes one.
pub mod buffer {
    pub struct IntoIter<T>(std::vec::IntoIter<T>);

    impl<T> Iterator for IntoIter<T> {
        type Item = T;

        fn next(&mut self) -> Option<T> {
            self.0.next()
        }
    }
}
