//! Permission masks: lists of flags, one for each haul truck that an operator may reassign, over a library whose every call is
//! proved against its contract.
//!
//! A [`Bitmap`] is made from bytes, from flags or by a [`BitmapBuilder`]. It can be sliced, combined with others, counted, searched
//! and iterated over. A [`Grid`] has the flags of a mask in rows and columns, as pits by trucks. [`Bitmap::from_run_ends`] and
//! [`Bitmap::run_ends`] read and write a mask as Arrow's run ends. [`may_reassign`] answers for one truck, [`offer`] returns the next
//! one. An [`ActivityWindow`] counts in how many of the last minutes each truck was busy. The names are those of polars-arrow's bitmap
//! module, of which the library is a port. A call that cannot be carried out returns a [`Refusal`], which has a number and a message,
//! and has changed nothing; operators and conversions panic instead. `docs/MIGRATING.md` of the repository is for those who come from
//! polars-arrow.
//!
//! ```
//! use poruwhina::{Bitmap, BitmapBuilder, Permission, may_reassign};
//!
//! // Trucks 0 to 59 and 62 are permitted, 60 and 61 are not.
//! let mut builder = BitmapBuilder::new();
//! builder.extend_constant(60, true)?;
//! builder.push_word_with_len(0b100, 3)?;
//! let permission = builder.freeze();
//! assert_eq!(permission.unset_bits(), 2);
//!
//! // Truck 62 is revoked.
//! let revocation: Bitmap = (0..63).map(|truck| truck == 62).collect();
//! assert!(!may_reassign(Permission::Mask(&permission), Some(&revocation), 62)?);
//!
//! // The trucks of the pit that has numbers 58 to 62.
//! let allowed = permission.and_not(&revocation)?.sliced(58, 5)?;
//! assert_eq!(allowed, Bitmap::from([true, true, false, false, false]));
//! assert!(allowed.slices().eq([(0, 2)]));
//! # Ok::<(), poruwhina::Refusal>(())
//! ```
//!
//! Flag j of a byte buffer is bit j mod 8 of byte j div 8, least significant bit first, as in the Apache Arrow columnar format.
//!
//! # Why safe code cannot break what is proved
//!
//! What is proved of a call holds for every record and every slice. What is proved of a mask's whole history (that its flags,
//! counts, runs, searches and combinations are those of the plain list of flags, however it was made) presumes three things,
//! which this crate's types ensure:
//!
//! - **A record stays with the bytes that it was made for.** Both are private fields of one value, and are read together.
//! - **The bytes are never altered.** A `Bitmap` takes them by value, lends them only as `&[u8]` and has no method that writes
//!   them. Clones and slices share them in a private [`Arc`](std::sync::Arc).
//! - **A known count is exact.** It comes from the library's own answers for these bytes. A caller cannot reach the field, and a
//!   stated count ([`Bitmap::try_from_counted_span`]) is refused unless it is exact. So every call except `slice` and `grid_row` is
//!   passed the mask without its count, and does not count again. Of their answers only the count in the record of `superseding` would
//!   differ; the crate keeps the winner's own instead.
//!
//! In addition, the crate does for each call what its caller must do:
//!
//! - **Outputs and inputs do not overlap.** A result is written to a new `Vec`, a builder's flags to the builder's own, borrowed
//!   `&mut` for the call.
//! - **Lengths.** The library checks each length that safe code passes. The crate computes sizes only from lengths that it has
//!   first bounded by [`Bitmap::LIMIT`], so no sum wraps and no output is longer than the frozen bytes of that many flags.
//! - **Threads.** The library has no state of its own: calls read and write only the slices lent to them. [`Bitmap`] and the
//!   iterators are `Send` and `Sync` since their fields are. The only field that changes through `&self` is the kept count, in
//!   a [`OnceLock`](std::sync::OnceLock): a thread reads it unset or complete, and every thread would set the same number.
//! - **`unsafe`** is used only in the module [`calls`], whose documentation says why each use is sound.
//!
//! ```
//! # use poruwhina::{Bitmap, BitmapBuilder, BitmapIntoIter, BitmapIter, SlicesIterator, TrueIdxIter, BitChunks};
//! fn shared<T: Send + Sync>() {}
//! shared::<(Bitmap, BitmapBuilder, BitmapIntoIter)>();
//! shared::<(BitmapIter, SlicesIterator, TrueIdxIter, BitChunks)>();
//! ```
//!
//! Bytes that a mask was made from cannot be reached:
//!
//! ```compile_fail,E0382
//! let mut bytes = vec![0x2D];
//! let mask = poruwhina::Bitmap::try_new(bytes, 6).unwrap();
//! bytes[0] = 0xFF;
//! ```
//!
//! and the bytes that a mask lends cannot be written:
//!
//! ```compile_fail,E0594
//! let mask = poruwhina::Bitmap::try_new(vec![0x2D], 6).unwrap();
//! mask.as_slice().0[0] = 0xFF;
//! ```
//!
//! A count cannot be set:
//!
//! ```compile_fail,E0616
//! let mut mask = poruwhina::Bitmap::try_new(vec![0x2D], 6).unwrap();
//! mask.zeros = 0.into();
//! ```
//!
//! A mask cannot be replaced under an iterator:
//!
//! ```compile_fail,E0506
//! let mut mask = poruwhina::Bitmap::try_new(vec![0x2D], 6).unwrap();
//! let flags = mask.iter();
//! mask = poruwhina::Bitmap::new();
//! flags.count();
//! ```
//!
//! A frozen builder cannot write to the mask's bytes:
//!
//! ```compile_fail,E0382
//! let mut builder = poruwhina::BitmapBuilder::new();
//! let mask = builder.freeze();
//! builder.push(true).unwrap();
//! ```
//!
//! # What is not proved
//!
//! The Rust of this crate is not proved. It keeps records and bytes, keeps the positions that a call returned until they are requested,
//! allocates memory, and computes the number of bytes for a number of flags and, from [`Bitmap::num_edges`], of places for run ends. It
//! makes `Option`, `Result` and text from answers. It never writes a flag itself, and reads none: it compares, hashes and shows those
//! that calls returned. It computes with lengths and places:
//!
//! - It subtracts the zeros from the length for [`Bitmap::set_bits`], and a place from a length for the iterators' `size_hint`.
//! - It ends an iterator's span before what was taken from the back: a flag, a position, or a run's zeros and ones.
//! - It subtracts the builder's length from the start of each run for [`Bitmap::from_runs`], and asks whether the run ends past the length.
//! - It passes over the words of two masks that are equal, to find which mask is less.
//! - It puts a builder's record back after [`BitmapBuilder::try_extend`] was refused.
//! - It multiplies a row of a [`Grid`] by the columns if the row would start above the limit, and ends a round of [`offers`] at its first
//!   truck.
//! - It begins the words of an [`ActivityWindow`] at the oldest minute, which is at the place of the next one.
//!
//! The README lists what else must be believed.
//!
//! # What a call costs
//!
//! Every step of an iterator is one call of the library, which checks its cursor again, rather than a shortcut in unproved Rust. A
//! call for positions returns up to 64. Measured by `examples/costs.rs` on one x86-64 machine, shared with other
//! work, in nanoseconds:
//!
//! | call | cost |
//! |---|---|
//! | [`Bitmap::iter`], per flag | 3 |
//! | [`Bitmap::slices`], per run, half the flags ones at random | 15 |
//! | [`Bitmap::true_idx_iter`], per position, half the flags ones at random | 5 |
//! | [`Bitmap::true_idx_iter`], per position, 63 in 64 flags ones: a loop, [`sum`](Iterator::sum) and the like | 0.7, 0.4 |
//! | [`TrueIdxIter::next_chunk`], per position, of these two masks | 4, 0.1 |
//! | [`Bitmap::chunks`], per word of 64 flags | 3 |
//! | [`BitmapBuilder::push`], per flag | 5 |
//! | [`Bitmap::get`], [`may_reassign`], of 1,000,000 flags | 6, 21 |
//! | [`Bitmap::sliced`], of 40 flags | 29 |
//! | [`Bitmap::and`], of 40 and of 1,000,000 flags | 78, 3,800 |
//!
//! To process many flags, prefer runs, positions or words to single flags, and append spans or words.
#![deny(unsafe_code, missing_docs)]

mod activity;
mod bitmap;
mod builder;
mod bytes;
pub mod calls;
mod dispatch;
mod grid;
mod iterator;
mod offer;
mod refusal;
mod run_ends;

pub use activity::{ActivityWindow, WindowParts};
pub use bitmap::{Bitmap, ListError};
pub use builder::BitmapBuilder;
pub use bytes::IntoBytes;
pub use dispatch::{Permission, may_reassign};
pub use grid::{Grid, RowIter};
pub use iterator::{BitChunks, BitmapIntoIter, BitmapIter, SlicesIterator, TrueIdxIter};
pub use offer::{Offer, Offers, offer, offers};
pub use refusal::{Refusal, RefusedLengths, UnknownNumber};

/// The example of the README, run with those of the documentation.
#[cfg(doctest)]
#[doc = include_str!("../README.md")]
struct Readme;
