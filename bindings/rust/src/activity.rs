//! The window of minutes: in how many of the last minutes each truck was busy.

use std::fmt;

use crate::calls;
use crate::refusal::{Refusal, check, check_passed};

/// The words of the last minutes, with a flag for each of up to 64 trucks, and for each truck the number of words that have its flag set.
///
/// The fields are private, and come from the library's own answers or were checked by it. So every window is one that a run of minutes
/// leaves, and only [`new`](ActivityWindow::new) and [`try_from_parts`](ActivityWindow::try_from_parts) can be refused. The library still
/// checks the window at each call.
///
/// Two windows are equal if their widths and their minutes from the oldest to the latest are: then their counts are equal, and stay equal
/// under the same minutes.
///
/// ```
/// use poruwhina::{ActivityWindow, Refusal};
///
/// // The last two minutes.
/// let mut window = ActivityWindow::new(2)?;
/// window.push_minute(0b101);
/// window.push_minute(0b001);
/// assert_eq!((window.count(0), window.count(1), window.count(2)), (Some(2), Some(0), Some(1)));
///
/// // The first minute goes.
/// window.push_minute(0b010);
/// assert_eq!((window.count(0), window.count(1), window.count(2)), (Some(1), Some(1), Some(0)));
/// # Ok::<(), Refusal>(())
/// ```
#[derive(Clone)]
pub struct ActivityWindow {
    words: [u64; 256],
    counts: [u32; 64],
    place: usize,
    fill: usize,
    width: usize,
}

impl ActivityWindow {
    /// Returns an empty window, which keeps the words of the last `width` minutes. Refused with 16 if `width` is 0 or above 256.
    ///
    /// ```
    /// use poruwhina::{ActivityWindow, Refusal};
    ///
    /// assert_eq!(ActivityWindow::new(256).unwrap().counts(), [0; 64]);
    /// assert_eq!(ActivityWindow::new(0).unwrap_err(), Refusal::ImpossibleWindow);
    /// assert_eq!(ActivityWindow::new(257).unwrap_err().number(), 16);
    /// ```
    pub fn new(width: usize) -> Result<ActivityWindow, Refusal> {
        let (mut words, mut counts) = ([0; 256], [0; 64]);
        let made = calls::activity_new(&mut words, &mut counts, width);
        check(made.refusal)?;
        Ok(ActivityWindow { words, counts, place: made.place, fill: made.fill, width: made.width })
    }

    /// Returns the window with these parts, as [`parts`](ActivityWindow::parts) returned them: read from a file, for example. Refused with
    /// 16 unless a run of minutes leaves them, each count and each word.
    ///
    /// ```
    /// use poruwhina::{ActivityWindow, Refusal};
    ///
    /// let mut window = ActivityWindow::new(60)?;
    /// window.push_minute(0b101);
    /// let mut parts = window.parts();
    /// assert_eq!(ActivityWindow::try_from_parts(parts.clone())?, window);
    /// parts.counts[0] = 2;
    /// assert_eq!(ActivityWindow::try_from_parts(parts), Err(Refusal::ImpossibleWindow));
    /// # Ok::<(), Refusal>(())
    /// ```
    pub fn try_from_parts(parts: WindowParts) -> Result<ActivityWindow, Refusal> {
        let WindowParts { words, counts, place, fill, width } = parts;
        check(calls::activity_counts(&words, &counts, place, fill, width, &mut [0; 64]))?;
        Ok(ActivityWindow { words, counts, place, fill, width })
    }

    /// Returns the parts of the window, to be saved.
    ///
    /// ```
    /// let mut window = poruwhina::ActivityWindow::new(60)?;
    /// window.push_minute(0b101);
    /// let parts = window.parts();
    /// assert_eq!((parts.words[0], parts.counts[2], parts.place, parts.fill, parts.width), (0b101, 1, 1, 1, 60));
    /// # Ok::<(), poruwhina::Refusal>(())
    /// ```
    #[must_use]
    pub fn parts(&self) -> WindowParts {
        WindowParts { words: self.words, counts: self.counts, place: self.place, fill: self.fill, width: self.width }
    }

    /// Returns the number of minutes that the window keeps at most.
    ///
    /// ```
    /// assert_eq!(poruwhina::ActivityWindow::new(60).unwrap().width(), 60);
    /// ```
    #[must_use]
    pub fn width(&self) -> usize {
        self.width
    }

    /// Returns the number of minutes that are in the window: at most its width.
    ///
    /// ```
    /// let mut window = poruwhina::ActivityWindow::new(2)?;
    /// assert_eq!(window.minutes(), 0);
    /// (0..3).for_each(|_| window.push_minute(0));
    /// assert_eq!(window.minutes(), 2);
    /// # Ok::<(), poruwhina::Refusal>(())
    /// ```
    #[must_use]
    pub fn minutes(&self) -> usize {
        self.fill
    }

    /// Returns an iterator over the words of the minutes that are in the window, from the oldest to the latest. A new window of the same
    /// width, into which they are pushed, is equal to this one.
    ///
    /// ```
    /// let mut window = poruwhina::ActivityWindow::new(2)?;
    /// [0b001, 0b010, 0b100].into_iter().for_each(|word| window.push_minute(word));
    /// assert!(window.words().eq([0b010, 0b100]));
    /// # Ok::<(), poruwhina::Refusal>(())
    /// ```
    pub fn words(&self) -> impl DoubleEndedIterator<Item = u64> {
        // The place of the next minute: in a full window the oldest one is there.
        let (latest, oldest) = self.words[..self.fill].split_at(self.place);
        oldest.iter().chain(latest).copied()
    }

    /// Adds the word of the next minute to the window: bit j is set if truck j was busy in it. If the window already has the words of
    /// `width` minutes, the oldest one is dropped.
    ///
    /// ```
    /// let mut window = poruwhina::ActivityWindow::new(60).unwrap();
    /// window.push_minute(1 << 63);
    /// assert_eq!(window.count(63), Some(1));
    /// ```
    pub fn push_minute(&mut self, word: u64) {
        let after = calls::activity_push_minute(&mut self.words, &mut self.counts, self.place, self.fill, self.width, word);
        check_passed(after.refusal);
        (self.place, self.fill) = (after.place, after.fill);
    }

    /// Returns, for each of 64 trucks, in how many of the last minutes it was busy.
    ///
    /// ```
    /// let mut window = poruwhina::ActivityWindow::new(60).unwrap();
    /// window.push_minute(u64::MAX);
    /// window.push_minute(u64::MAX);
    /// assert_eq!(window.counts(), [2; 64]);
    /// ```
    #[must_use]
    pub fn counts(&self) -> [u32; 64] {
        let mut out = [0; 64];
        check_passed(calls::activity_counts(&self.words, &self.counts, self.place, self.fill, self.width, &mut out));
        out
    }

    /// Returns in how many of the last minutes `truck` was busy, or none if `truck` is 64 or more.
    ///
    /// ```
    /// let mut window = poruwhina::ActivityWindow::new(60).unwrap();
    /// window.push_minute(1 << 63);
    /// assert_eq!((window.count(63), window.count(64)), (Some(1), None));
    /// ```
    #[must_use]
    pub fn count(&self, truck: usize) -> Option<u32> {
        self.counts().get(truck).copied()
    }
}

/// The parts of an [`ActivityWindow`], as the calls of the library take them: to save a window and to load it again.
///
/// Anyone can write such parts: [`ActivityWindow::try_from_parts`] has the library check them. They have the names of the arguments of
/// [`calls::activity_counts`].
///
/// ```
/// use poruwhina::{ActivityWindow, WindowParts};
///
/// let parts = WindowParts { words: [0; 256], counts: [0; 64], place: 0, fill: 0, width: 60 };
/// assert_eq!(ActivityWindow::try_from_parts(parts)?, ActivityWindow::new(60)?);
/// # Ok::<(), poruwhina::Refusal>(())
/// ```
#[derive(Clone, Debug, PartialEq, Eq)]
pub struct WindowParts {
    /// The words of the minutes, as many as `fill`, then zeros. In a full window the oldest one is at `place`.
    pub words: [u64; 256],
    /// For each truck, how many of these words have its flag set.
    pub counts: [u32; 64],
    /// The place of the next minute's word.
    pub place: usize,
    /// The number of minutes in the window.
    pub fill: usize,
    /// The number of minutes that the window keeps at most.
    pub width: usize,
}

impl PartialEq for ActivityWindow {
    fn eq(&self, other: &ActivityWindow) -> bool {
        self.width == other.width && self.words().eq(other.words())
    }
}

impl Eq for ActivityWindow {}

/// Shows the width, the number of minutes in the window, and the counts.
///
/// ```
/// let window = poruwhina::ActivityWindow::new(60)?;
/// assert!(format!("{window:?}").starts_with("ActivityWindow { width: 60, minutes: 0, counts: [0, "));
/// # Ok::<(), poruwhina::Refusal>(())
/// ```
impl fmt::Debug for ActivityWindow {
    fn fmt(&self, f: &mut fmt::Formatter<'_>) -> fmt::Result {
        f.debug_struct("ActivityWindow").field("width", &self.width).field("minutes", &self.fill).field("counts", &self.counts).finish()
    }
}
