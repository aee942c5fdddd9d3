//! The window of the last minutes, as the reference defines it: over the list of minutes, every count made afresh.

/// The one number of these calls.
pub const REFUSED: u8 = 16;

/// A record of 256 words and 64 counts, with the place of the next word, the number of kept words and the width.
#[derive(Clone, Debug, PartialEq, Eq)]
pub struct Window {
    pub words: Vec<u64>,
    pub counts: Vec<u32>,
    pub place: usize,
    pub fill: usize,
    pub width: usize,
}

/// Returns the window that a run of minutes leaves: minute k, counted from 0, is kept at k mod width.
pub fn left_by(width: usize, minutes: &[u64]) -> Window {
    let mut words = vec![0; 256];
    for (k, &word) in minutes.iter().enumerate() {
        words[k % width] = word;
    }
    let last = &minutes[minutes.len().saturating_sub(width)..];
    let counts = (0..64).map(|truck| last.iter().filter(|&&word| word >> truck & 1 == 1).count() as u32).collect();
    Window { words, counts, place: minutes.len() % width, fill: last.len(), width }
}

/// Returns a run of minutes that leaves the window, if there is one: its words in order, and those before the place once more if
/// all places are taken. The run's window is made again and compared.
pub fn run_of(window: &Window) -> Option<Vec<u64>> {
    if !(1..=256).contains(&window.width) || window.fill > window.width || window.place >= window.width {
        return None;
    }
    let mut minutes = window.words[..window.fill].to_vec();
    if window.fill == window.width {
        minutes.extend_from_slice(&window.words[..window.place]);
    }
    (left_by(window.width, &minutes) == *window).then_some(minutes)
}

/// Returns what `ActivityWindow::new` answers: the window and 0, or a window of zeros and the number.
pub fn new(width: usize) -> (Window, u8) {
    if (1..=256).contains(&width) { (left_by(width, &[]), 0) } else { (Window { width: 0, ..left_by(1, &[]) }, REFUSED) }
}

/// Returns what `ActivityWindow::push_minute` answers: the window one minute later and 0, or the window unchanged and the number.
pub fn push_minute(window: &Window, word: u64) -> (Window, u8) {
    match run_of(window) {
        Some(mut minutes) => {
            minutes.push(word);
            (left_by(window.width, &minutes), 0)
        }
        None => (window.clone(), REFUSED),
    }
}

/// Returns what `ActivityWindow::counts` answers: the 64 counts and 0, or 64 zeros and the number.
pub fn counts(window: &Window) -> (Vec<u32>, u8) {
    match run_of(window) {
        Some(_) => (window.counts.clone(), 0),
        None => (vec![0; 64], REFUSED),
    }
}

#[cfg(test)]
mod tests {
    use super::*;

    fn word(seed: u64) -> u64 {
        (seed + 1).wrapping_mul(0x9E37_79B9_7F4A_7C15).rotate_left(seed as u32 % 64)
    }

    #[test]
    fn a_run_made_minute_by_minute_leaves_the_window_of_the_run() {
        for width in [1, 2, 63, 64, 255, 256] {
            let minutes: Vec<u64> = (0..600).map(word).collect();
            let mut window = new(width).0;
            for (k, &minute) in minutes.iter().enumerate() {
                assert_eq!(window, left_by(width, &minutes[..k]));
                let (next, refusal) = push_minute(&window, minute);
                assert_eq!(refusal, 0);
                window = next;
            }
        }
    }

    #[test]
    fn records_wrong_at_one_place_come_back_as_they_are() {
        let good = left_by(4, &[3, 5, 9, 1, 7]);
        let part = left_by(4, &[3, 5]);
        let mut bad = vec![
            Window { width: 0, ..good.clone() },
            Window { width: 257, ..good.clone() },
            Window { width: usize::MAX, ..good.clone() },
            Window { place: 4, ..good.clone() },
            Window { fill: 5, ..good.clone() },
            Window { fill: 3, ..good.clone() },
            Window { place: 1, ..part.clone() },
        ];
        for (base, at) in [(&good, 4), (&good, 255), (&part, 2), (&part, 3)] {
            let mut window = base.clone();
            window.words[at] = 1;
            bad.push(window);
        }
        for (flag, count) in [(0, good.counts[0] + 1), (0, good.counts[0] - 1), (63, 1), (63, u32::MAX)] {
            let mut window = good.clone();
            window.counts[flag] = count;
            bad.push(window);
        }
        for window in bad {
            assert_eq!(push_minute(&window, 1), (window.clone(), REFUSED));
            assert_eq!(counts(&window), (vec![0; 64], REFUSED));
        }
        assert_eq!(new(257), new(0));
        assert_eq!(push_minute(&new(0).0, 1).1, REFUSED);
    }
}
