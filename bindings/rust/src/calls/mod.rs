//! The calls of the library one by one, over plain records and lent bytes: the layer below [`Bitmap`](crate::Bitmap).
//!
//! Every call is total. For any record, even a damaged one, and any bytes it returns an answer, or in the field `refusal` the number of
//! the first check that fails (0 if none does; [`Refusal`](crate::Refusal) has the messages). After a refusal no lent byte has changed. So
//! these functions are safe, whatever the numbers are. They do not keep a record and its bytes together: here the caller must, while the
//! types of the crate do so themselves. A mask whose known count is false for the bytes that it is passed with is refused with 3, so its
//! flags are counted at each call. A record that the library returned may be passed with `known` 0: this changes no answer except the
//! counts in returned records. Pass a record from elsewhere with its count.
//!
//! This is the only module with `unsafe`. Each use is a call of an export, and the argument is the same for all: an export is
//! proved to return on every input, reading and writing only the slices lent to it. A slice is passed as its pointer and its
//! number of elements, an array of fixed size as its pointer. A Rust reference makes the pointer valid for the time of the call,
//! and exclusive if it is `&mut`; the pointer of an empty slice is not null and not read. All else is passed by value. A
//! `bool` that is returned is 0 or 1, as the C interface has it.
//!
//! ```
//! use poruwhina::calls;
//!
//! let bytes = [0x2D];
//! let mask = calls::try_new(&bytes, 0, 6).mask;
//! let counted = calls::unset_bits(mask, &bytes);
//! assert_eq!((counted.refusal, counted.zeros), (0, 2));
//!
//! // A record that does not fit its bytes is refused with a number.
//! let damaged = calls::Mask { length: 9, ..mask };
//! assert_eq!(calls::unset_bits(damaged, &bytes).refusal, 2);
//! ```
#![allow(unsafe_code, clippy::too_many_arguments)]

mod at_index;
mod builder;
mod chunks;
mod combine;
mod cursors;
mod exports;
mod grid;
mod mask;
mod next_and_not;
mod offer;
mod reassign;
mod records;
mod run_end;
mod search;
mod spans;
mod superseding;
mod window;
mod word;

pub use at_index::*;
pub use builder::*;
pub use chunks::*;
pub use combine::*;
pub use cursors::*;
pub use grid::*;
pub use mask::*;
pub use next_and_not::*;
pub use offer::*;
pub use reassign::*;
pub use records::*;
pub use run_end::*;
pub use search::*;
pub use spans::*;
pub use superseding::*;
pub use window::*;
pub use word::*;
