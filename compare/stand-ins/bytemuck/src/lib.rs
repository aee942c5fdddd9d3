//! Replaces `bytemuck`: the bound `Pod` and the one cast that `AlignedBitmapSlice` makes.
//!
//! Assumed: `cast_slice` views the bytes as values in the machine's byte order, and panics if the address is not aligned or the
//! bytes are no whole number of values. A slice of no values begins at the address of the bytes too.

/// A type that any bit pattern fits.
///
/// # Safety
/// The type has no padding, no invalid bit pattern and no drop.
pub unsafe trait Pod: Copy + 'static {}

unsafe impl Pod for u8 {}
unsafe impl Pod for u16 {}
unsafe impl Pod for u32 {}
unsafe impl Pod for u64 {}

pub fn cast_slice<B: Pod>(bytes: &[u8]) -> &[B] {
    let size = size_of::<B>();
    assert!(bytes.len().is_multiple_of(size), "no whole number of values");
    assert!(bytes.as_ptr().cast::<B>().is_aligned(), "not aligned");
    // SAFETY: the length and the address were tested, and B takes any bits.
    unsafe { std::slice::from_raw_parts(bytes.as_ptr().cast::<B>(), bytes.len() / size) }
}
