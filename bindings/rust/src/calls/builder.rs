//! The builder. Each append writes finished words to `buf`, leaves its other bytes unchanged, and returns the builder after it;
//! [`freeze`] and [`into_opt_validity`] write the frozen bytes at the start of `buf`.
//!
//! Written by tests/declarations.py from crates/capi.

use super::exports;
use super::records::*;

/// Returns a builder with no flags.
///
/// ```
/// assert_eq!(poruwhina::calls::builder_new().length, 0);
/// ```
#[inline]
pub fn builder_new() -> Builder {
    unsafe { exports::pw_builder_new() }
}

/// Appends `flag`. Refuses with 1, 4, 9; the builder is unchanged.
///
/// ```
/// use poruwhina::calls::{builder_new, push};
///
/// assert_eq!(push(builder_new(), &mut [0; 8], true).builder.word, 1);
/// ```
#[inline]
pub fn push(builder: Builder, buf: &mut [u8], flag: bool) -> BuilderAnswer {
    unsafe { exports::pw_push(builder.length, builder.word, builder.ones, buf.as_mut_ptr(), buf.len(), flag) }
}

/// Appends `n` copies of `flag`. Refuses with 1, 4, 9; the builder is unchanged.
///
/// ```
/// use poruwhina::calls::{builder_new, extend_constant};
///
/// let mut buf = [0; 16];
/// let sixty = extend_constant(builder_new(), &mut buf, 60, true).builder;
/// assert_eq!(extend_constant(sixty, &mut buf, 5, true).builder.word, 1);
/// assert_eq!(buf[..8], [0xFF; 8]);
/// ```
#[inline]
pub fn extend_constant(builder: Builder, buf: &mut [u8], n: usize, flag: bool) -> BuilderAnswer {
    unsafe { exports::pw_extend_constant(builder.length, builder.word, builder.ones, buf.as_mut_ptr(), buf.len(), n, flag) }
}

/// Appends the lowest `n` bits of `flags`, bit 0 first. `n` must be at most 64, and all higher bits 0. Refuses with 1, 4, 6, 9;
/// the builder is unchanged.
///
/// ```
/// use poruwhina::calls::{builder_new, push_word_with_len_unchecked};
///
/// let mut buf = [0; 8];
/// assert_eq!(push_word_with_len_unchecked(builder_new(), &mut buf, 0x2D, 6).builder.length, 6);
/// assert_eq!(push_word_with_len_unchecked(builder_new(), &mut buf, 0x2D, 5).refusal, 6);
/// ```
#[inline]
pub fn push_word_with_len_unchecked(builder: Builder, buf: &mut [u8], flags: u64, n: usize) -> BuilderAnswer {
    unsafe { exports::pw_push_word_with_len_unchecked(builder.length, builder.word, builder.ones, buf.as_mut_ptr(), buf.len(), flags, n) }
}

/// Appends the `n` flags of `bytes` that start at bit `start`. Refuses with 1, 2, 4, 9; the builder is unchanged.
///
/// ```
/// use poruwhina::calls::{builder_new, extend_from_slice};
///
/// assert_eq!(extend_from_slice(builder_new(), &mut [0; 8], &[0x2D], 2, 4).builder.word, 0x0B);
/// ```
#[inline]
pub fn extend_from_slice(builder: Builder, buf: &mut [u8], bytes: &[u8], start: usize, n: usize) -> BuilderAnswer {
    unsafe {
        exports::pw_extend_from_slice(
            builder.length,
            builder.word,
            builder.ones,
            buf.as_mut_ptr(),
            buf.len(),
            bytes.as_ptr(),
            bytes.len(),
            start,
            n,
        )
    }
}

/// Appends `repeats` copies of each of the `n` flags of `bytes` that start at bit `start`, one flag after the other. Refuses with
/// 1, 2, 4, 9; the builder is unchanged.
///
/// ```
/// use poruwhina::calls::{builder_new, extend_each_repeated_from_slice_unchecked};
///
/// let twice = extend_each_repeated_from_slice_unchecked(builder_new(), &mut [0; 8], &[0x2D], 2, 4, 2);
/// assert_eq!(twice.builder.word, 0xCF);
/// ```
#[inline]
pub fn extend_each_repeated_from_slice_unchecked(
    builder: Builder, buf: &mut [u8], bytes: &[u8], start: usize, n: usize, repeats: usize,
) -> BuilderAnswer {
    unsafe {
        exports::pw_extend_each_repeated_from_slice_unchecked(
            builder.length,
            builder.word,
            builder.ones,
            buf.as_mut_ptr(),
            buf.len(),
            bytes.as_ptr(),
            bytes.len(),
            start,
            n,
            repeats,
        )
    }
}

/// Appends the `n` flags of `mask` that start at its flag `start`. Refuses with 1, 2, 3, 4, 6, 9; the builder is unchanged.
///
/// ```
/// use poruwhina::calls::{builder_new, subslice_extend_from_bitmap, try_new};
///
/// let mask = try_new(&[0x2D], 1, 6).mask;
/// assert_eq!(subslice_extend_from_bitmap(builder_new(), &mut [0; 8], mask, &[0x2D], 1, 4).builder.word, 0x0B);
/// ```
#[inline]
pub fn subslice_extend_from_bitmap(builder: Builder, buf: &mut [u8], mask: Mask, bytes: &[u8], start: usize, n: usize) -> BuilderAnswer {
    unsafe {
        exports::pw_subslice_extend_from_bitmap(
            builder.length,
            builder.word,
            builder.ones,
            buf.as_mut_ptr(),
            buf.len(),
            mask,
            bytes.as_ptr(),
            bytes.len(),
            start,
            n,
        )
    }
}

/// Appends, for each index in `idxs`, that flag of the `n` flags of `bytes` that start at bit `start`. Each index must be below
/// `n`. Refuses with 1, 2, 4, 6, 9; the builder is unchanged.
///
/// ```
/// use poruwhina::calls::{builder_new, gather_extend_from_slice};
///
/// assert_eq!(gather_extend_from_slice(builder_new(), &mut [0; 8], &[0x2D], 0, 6, &[5, 4, 0]).builder.word, 0x05);
/// assert_eq!(gather_extend_from_slice(builder_new(), &mut [0; 8], &[0x2D], 0, 6, &[5, 6, 0]).refusal, 6);
/// ```
#[inline]
pub fn gather_extend_from_slice(builder: Builder, buf: &mut [u8], bytes: &[u8], start: usize, n: usize, idxs: &[u32]) -> BuilderAnswer {
    unsafe {
        exports::pw_gather_extend_from_slice(
            builder.length,
            builder.word,
            builder.ones,
            buf.as_mut_ptr(),
            buf.len(),
            bytes.as_ptr(),
            bytes.len(),
            start,
            n,
            idxs.as_ptr(),
            idxs.len(),
        )
    }
}

/// Appends, for each index in `idxs`, that flag of the `n` flags of `bytes` that start at bit `start`, or 0 if the index is `n`
/// or more. Refuses with 1, 2, 4, 9; the builder is unchanged.
///
/// ```
/// use poruwhina::calls::{builder_new, opt_gather_extend_from_slice};
///
/// assert_eq!(opt_gather_extend_from_slice(builder_new(), &mut [0; 8], &[0x2D], 0, 6, &[5, 6, 0]).builder.word, 0x05);
/// ```
#[inline]
pub fn opt_gather_extend_from_slice(builder: Builder, buf: &mut [u8], bytes: &[u8], start: usize, n: usize, idxs: &[u32]) -> BuilderAnswer {
    unsafe {
        exports::pw_opt_gather_extend_from_slice(
            builder.length,
            builder.word,
            builder.ones,
            buf.as_mut_ptr(),
            buf.len(),
            bytes.as_ptr(),
            bytes.len(),
            start,
            n,
            idxs.as_ptr(),
            idxs.len(),
        )
    }
}

/// Writes the frozen bytes of the builder's flags at the start of `buf` and returns the mask over them, with its zero count known
/// from `ones` and `word`, and with the builder's `serial`, which the caller kept. The builder is not returned: it does not
/// change. Refuses with 1, 4, 9; every other field is then 0.
///
/// ```
/// use poruwhina::calls::{builder_new, freeze, push_word_with_len_unchecked};
///
/// let mut buf = [0xFF; 8];
/// let mask = freeze(push_word_with_len_unchecked(builder_new(), &mut buf, 0x2D, 6).builder, &mut buf, 0).mask;
/// assert_eq!((mask.length, mask.zeros, mask.known), (6, 2, 1));
/// assert_eq!(buf, [0x2D, 0, 0, 0, 0, 0, 0, 0]);
/// ```
#[inline]
pub fn freeze(builder: Builder, buf: &mut [u8], serial: u32) -> MaskAnswer {
    unsafe { exports::pw_freeze(builder.length, builder.word, builder.ones, buf.as_mut_ptr(), buf.len(), serial) }
}

/// Writes the frozen bytes of the builder's flags at the start of `buf` and returns the mask that [`freeze`] returns, or no mask
/// if all flags are set, also if there are no flags. As in Arrow, no mask means all ones here; in
/// [`may_reassign`](super::may_reassign) no permission mask means no truck: end the builder of a permission mask with [`freeze`].
/// Refuses with 1, 4, 9; every other field is then 0.
///
/// ```
/// use poruwhina::calls::{builder_new, extend_constant, into_opt_validity};
///
/// let mut buf = [0; 8];
/// let ones = extend_constant(builder_new(), &mut buf, 6, true).builder;
/// assert!(!into_opt_validity(ones, &mut buf, 0).present);
/// let mixed = extend_constant(ones, &mut buf, 1, false).builder;
/// assert!(into_opt_validity(mixed, &mut buf, 0).present);
/// ```
#[inline]
pub fn into_opt_validity(builder: Builder, buf: &mut [u8], serial: u32) -> ValidityAnswer {
    unsafe { exports::pw_into_opt_validity(builder.length, builder.word, builder.ones, buf.as_mut_ptr(), buf.len(), serial) }
}
