//! The standard traits by which a mask is made from flags.

use super::Bitmap;
use crate::builder::BitmapBuilder;

/// The default is the mask of no flags.
///
/// ```
/// assert_eq!(poruwhina::Bitmap::default(), poruwhina::Bitmap::new());
/// ```
impl Default for Bitmap {
    fn default() -> Bitmap {
        Bitmap::new()
    }
}

/// Makes a mask of the flags of an array, a slice or a `Vec` of `bool`, in their order.
///
/// # Panics
/// With more than [`Bitmap::LIMIT`] flags. [`BitmapBuilder::try_extend`] refuses instead.
///
/// ```
/// use poruwhina::Bitmap;
///
/// let flags = vec![true, false];
/// assert_eq!(Bitmap::from(&flags), Bitmap::from([true, false]));
/// ```
impl<P: AsRef<[bool]>> From<P> for Bitmap {
    #[track_caller]
    fn from(flags: P) -> Bitmap {
        let mut builder = BitmapBuilder::new();
        builder.extend(flags.as_ref());
        builder.freeze()
    }
}

/// Makes a mask of the flags of an iterator, in their order.
///
/// # Panics
/// With more than [`Bitmap::LIMIT`] flags. [`BitmapBuilder::try_extend`] refuses instead. The panic names a line of the standard library,
/// as every panic in `collect` does.
///
/// ```
/// use poruwhina::Bitmap;
///
/// let even: Bitmap = (0..5).map(|truck| truck % 2 == 0).collect();
/// assert_eq!(even, Bitmap::from([true, false, true, false, true]));
/// ```
impl FromIterator<bool> for Bitmap {
    #[track_caller]
    fn from_iter<I: IntoIterator<Item = bool>>(flags: I) -> Bitmap {
        let mut builder = BitmapBuilder::new();
        builder.extend(flags);
        builder.freeze()
    }
}

/// Makes a mask of the flags of an iterator over borrowed flags, as of one over flags.
///
/// ```
/// use poruwhina::Bitmap;
///
/// let flags = vec![true, false];
/// assert_eq!(flags.iter().collect::<Bitmap>(), Bitmap::from(flags));
/// ```
impl<'a> FromIterator<&'a bool> for Bitmap {
    #[track_caller]
    fn from_iter<I: IntoIterator<Item = &'a bool>>(flags: I) -> Bitmap {
        flags.into_iter().copied().collect()
    }
}
