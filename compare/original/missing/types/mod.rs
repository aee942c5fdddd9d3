//! The types that a bit chunk may have. Assumed of `NativeType`: an array of its bytes and the little-endian reading of one.

mod bit_chunk;

pub use bit_chunk::{BitChunk, BitChunkIter, BitChunkOnes};

mod private {
    pub trait Sealed {}
}

pub trait NativeType: private::Sealed + bytemuck::Pod + Default + std::fmt::Debug {
    type Bytes: Default
        + AsRef<[u8]>
        + AsMut<[u8]>
        + std::ops::IndexMut<usize, Output = u8>
        + IntoIterator<Item = u8>
        + for<'a> TryFrom<&'a [u8]>;

    fn from_le_bytes(bytes: Self::Bytes) -> Self;
}

macro_rules! native_type {
    ($($ty:ty),*) => {$(
        impl private::Sealed for $ty {}

        impl NativeType for $ty {
            type Bytes = [u8; size_of::<$ty>()];

            #[inline(always)]
            fn from_le_bytes(bytes: Self::Bytes) -> Self {
                <$ty>::from_le_bytes(bytes)
            }
        }
    )*};
}

native_type!(u8, u16, u32, u64);
