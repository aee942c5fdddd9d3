//! What the bytes of a mask may come from.

use std::sync::Arc;

/// Bytes from which a mask is made, by [`Bitmap::try_new`](crate::Bitmap::try_new) and the other constructors from bytes: all that converts
/// into a `Vec<u8>`, and a `&Vec<u8>`, an `Arc<[u8]>` or a `&Arc<[u8]>`. A `Vec<u8>` or a `Box<[u8]>` is used without a copy; borrowed and
/// shared bytes are copied.
///
/// `By` tells the implementations apart; the compiler finds it.
///
/// ```
/// use std::sync::Arc;
///
/// use poruwhina::Bitmap;
///
/// let received = vec![0x2D];
/// let shared: Arc<[u8]> = Arc::from([0x2D]);
/// assert_eq!(Bitmap::try_new(&received, 6)?, Bitmap::try_new(&shared, 6)?);
/// assert_eq!(Bitmap::try_new(shared, 6)?, Bitmap::try_new([0x2D], 6)?);
/// # Ok::<(), poruwhina::Refusal>(())
/// ```
pub trait IntoBytes<By> {
    /// Returns the bytes.
    ///
    /// ```
    /// use poruwhina::IntoBytes;
    ///
    /// assert_eq!((&vec![0x2D]).into_bytes(), [0x2D]);
    /// ```
    fn into_bytes(self) -> Vec<u8>;
}

/// Says that bytes come by their conversion into a `Vec<u8>`.
pub enum ByConversion {}

/// Says that bytes come by a copy.
pub enum ByCopy {}

impl<T: Into<Vec<u8>>> IntoBytes<ByConversion> for T {
    fn into_bytes(self) -> Vec<u8> {
        self.into()
    }
}

impl IntoBytes<ByCopy> for &Vec<u8> {
    fn into_bytes(self) -> Vec<u8> {
        self.clone()
    }
}

impl IntoBytes<ByCopy> for Arc<[u8]> {
    fn into_bytes(self) -> Vec<u8> {
        self.to_vec()
    }
}

impl IntoBytes<ByCopy> for &Arc<[u8]> {
    fn into_bytes(self) -> Vec<u8> {
        self.to_vec()
    }
}
