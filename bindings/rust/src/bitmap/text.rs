//! How a mask is shown.

use std::fmt;

use super::Bitmap;

/// The number of flags of a long mask that are shown.
const SHOWN: usize = 64;

/// Shows the length, and the flags as 0 and 1, at most the first 64.
///
/// ```
/// use poruwhina::Bitmap;
///
/// assert_eq!(format!("{:?}", Bitmap::from([true, false, true])), "Bitmap(len 3, [1, 0, 1])");
/// assert!(format!("{:?}", Bitmap::new_zeroed(65)?).ends_with("0, 0, ..])"));
/// # Ok::<(), poruwhina::Refusal>(())
/// ```
impl fmt::Debug for Bitmap {
    fn fmt(&self, f: &mut fmt::Formatter<'_>) -> fmt::Result {
        write!(f, "Bitmap(")?;
        self.fmt_flags(f)?;
        write!(f, ")")
    }
}

impl Bitmap {
    /// Writes the text between the parentheses of `Debug`, of a mask and of a builder.
    pub(crate) fn fmt_flags(&self, f: &mut fmt::Formatter<'_>) -> fmt::Result {
        write!(f, "len {}, [", self.len())?;
        for (i, flag) in self.iter().take(SHOWN).enumerate() {
            write!(f, "{}{}", if i == 0 { "" } else { ", " }, u8::from(flag))?;
        }
        write!(f, "{}]", if SHOWN < self.len() { ", .." } else { "" })
    }
}

/// Shows all flags as 0 and 1, the first leftmost: as a list is read, and not as a number is. Width and precision are those of text.
///
/// ```
/// use poruwhina::Bitmap;
///
/// let mask = Bitmap::from([true, false, true, true]);
/// assert_eq!(mask.to_string(), "1011");
/// assert_eq!(format!("[{mask:6}] [{mask:.2}]"), "[1011  ] [10]");
/// ```
impl fmt::Display for Bitmap {
    fn fmt(&self, f: &mut fmt::Formatter<'_>) -> fmt::Result {
        f.pad(&self.iter().map(digit).collect::<String>())
    }
}

/// Shows all flags as `Display` does, the first leftmost, and after `0b` with `#`. So it is not the number that has the first flag in its
/// lowest bit: that one has the digits in reverse.
///
/// ```
/// use poruwhina::Bitmap;
///
/// let mask = Bitmap::from([true, false, true, true]);
/// assert_eq!(format!("{mask:b} {mask:#b}"), "1011 0b1011");
/// assert_eq!(format!("{:b}", mask.get_u32(0)), "1101");
/// ```
impl fmt::Binary for Bitmap {
    fn fmt(&self, f: &mut fmt::Formatter<'_>) -> fmt::Result {
        if f.alternate() {
            return f.pad(&"0b".chars().chain(self.iter().map(digit)).collect::<String>());
        }
        fmt::Display::fmt(self, f)
    }
}

fn digit(flag: bool) -> char {
    if flag { '1' } else { '0' }
}
