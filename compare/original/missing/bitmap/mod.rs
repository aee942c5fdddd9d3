//! The module's own list of parts, whose file is missing. Assumed: the names that the parts use of one another are found here.

pub mod aligned;
pub mod bitmap_ops;
pub mod bitmask;
pub mod builder;
pub mod immutable;
pub mod iterator;
pub mod mutable;
pub mod utils;

pub use bitmap_ops::*;
pub use builder::{BitmapBuilder, OptBitmapBuilder};
pub use immutable::Bitmap;
pub use iterator::IntoIter;
pub use mutable::MutableBitmap;
