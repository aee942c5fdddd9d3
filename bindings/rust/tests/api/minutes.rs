//! The window of the last minutes, compared with a plain list of all minutes.

use poruwhina::{ActivityWindow, Refusal, WindowParts, calls};

use crate::lists::Random;

/// Returns, for each flag, in how many of these words it is set.
fn counted(words: &[u64]) -> [u32; 64] {
    std::array::from_fn(|truck| words.iter().filter(|&word| word >> truck & 1 == 1).count() as u32)
}

/// Returns the last `width` words, or all words if there are fewer.
fn last(minutes: &[u64], width: usize) -> &[u64] {
    &minutes[minutes.len().saturating_sub(width)..]
}

#[test]
fn some_thousand_minutes() {
    for width in [1, 2, 63, 64, 255, 256] {
        let mut random = Random(width as u64);
        let mut window = ActivityWindow::new(width).expect("a width of 1 to 256");
        let mut minutes = Vec::new();
        assert_eq!(window.counts(), [0; 64]);
        for minute in 0..3000 {
            let word = match minute % 7 {
                0 => 0,
                1 => u64::MAX,
                2 => 1 << (minute % 64),
                _ => (0..64).fold(0, |word, _| word << 1 | u64::from(random.flag())),
            };
            window.push_minute(word);
            minutes.push(word);
            assert_eq!(window.counts(), counted(last(&minutes, width)), "width {width}, minute {minute}");
        }
    }
}

#[test]
fn one_truck() {
    let mut window = ActivityWindow::new(3).unwrap();
    for word in [0b11, 0b01, 0b01, 0b10] {
        window.push_minute(word);
    }
    assert_eq!((window.count(0), window.count(1), window.count(2), window.count(63)), (Some(2), Some(1), Some(0), Some(0)));
    assert_eq!((window.count(64), window.count(usize::MAX)), (None, None));
}

#[test]
fn a_clone_goes_its_own_way() {
    let mut window = ActivityWindow::new(2).unwrap();
    window.push_minute(0b1);
    let mut other = window.clone();
    other.push_minute(0b1);
    assert_eq!((window.count(0), other.count(0)), (Some(1), Some(2)));
    let shown = format!("{other:?}");
    assert!(shown.starts_with("ActivityWindow { width: 2, minutes: 2, counts: [2, 0, "), "{shown}");
}

#[test]
fn widths_that_are_refused() {
    for width in [0, 257, usize::MAX] {
        assert_eq!(ActivityWindow::new(width).unwrap_err(), Refusal::ImpossibleWindow);
    }
}

/// Windows of width 3 after two minutes, each wrong at one place.
#[test]
fn windows_that_no_minutes_leave() {
    let (mut words, mut counts) = ([0; 256], [0; 64]);
    calls::activity_new(&mut words, &mut counts, 3);
    calls::activity_push_minute(&mut words, &mut counts, 0, 0, 3, 0b11);
    calls::activity_push_minute(&mut words, &mut counts, 1, 1, 3, 0b10);
    let refused = |words: [u64; 256], counts: [u32; 64], place, fill, width| {
        let (mut kept, mut numbers, mut out) = (words, counts, [7; 64]);
        let pushed = calls::activity_push_minute(&mut kept, &mut numbers, place, fill, width, 1);
        assert_eq!((pushed.place, pushed.fill, pushed.width), if pushed.refusal == 16 { (place, fill, width) } else { (0, 3, 3) });
        assert_eq!(calls::activity_counts(&words, &counts, place, fill, width, &mut out), pushed.refusal);
        if pushed.refusal == 16 {
            assert_eq!((kept, numbers, out), (words, counts, [7; 64]));
        }
        pushed.refusal
    };
    assert_eq!(refused(words, counts, 2, 2, 3), 0);
    for (place, fill, width) in [(2, 2, 0), (2, 2, 257), (2, 2, usize::MAX), (1, 2, 3), (2, 1, 3), (2, 4, 3), (3, 2, 3), (2, 2, 2)] {
        assert_eq!(refused(words, counts, place, fill, width), 16, "{place} {fill} {width}");
    }
    for at in [2, 3, 255] {
        let mut stray = words;
        stray[at] = 1;
        assert_eq!(refused(stray, counts, 2, 2, 3), 16, "a word behind the kept ones, at {at}");
    }
    for (truck, count) in [(0, 0), (0, 2), (1, 1), (1, 3), (63, 1), (63, u32::MAX)] {
        let mut off = counts;
        off[truck] = count;
        assert_eq!(refused(words, off, 2, 2, 3), 16, "truck {truck} with {count}");
    }
}

/// A window is saved and loaded at every minute, by its parts and by its words.
#[test]
fn out_and_in() {
    for width in [1, 2, 3, 64, 256] {
        let mut random = Random(width as u64);
        let mut window = ActivityWindow::new(width).unwrap();
        let mut minutes = Vec::new();
        for minute in 0..2 * width + 3 {
            assert_eq!((window.width(), window.minutes()), (width, minute.min(width)));
            assert!(window.words().eq(last(&minutes, width).iter().copied()));
            assert!(window.words().rev().eq(last(&minutes, width).iter().rev().copied()));
            let mut loaded = ActivityWindow::try_from_parts(window.parts()).expect("its own parts");
            assert_eq!((&loaded, loaded.parts(), loaded.counts()), (&window, window.parts(), window.counts()));
            let mut repeated = ActivityWindow::new(width).unwrap();
            window.words().for_each(|word| repeated.push_minute(word));
            assert_eq!(repeated, window, "whatever its place");
            let word = random.below(1 << 30) as u64 * 5;
            for one in [&mut window, &mut loaded, &mut repeated] {
                one.push_minute(word);
            }
            minutes.push(word);
            assert_eq!((&loaded, loaded.counts()), (&window, window.counts()));
            assert_eq!((&repeated, repeated.counts()), (&window, window.counts()));
        }
    }
}

#[test]
fn unequal_windows() {
    let pushed = |width: usize, words: &[u64]| {
        let mut window = ActivityWindow::new(width).unwrap();
        words.iter().for_each(|&word| window.push_minute(word));
        window
    };
    assert_eq!(pushed(2, &[9, 1, 2]), pushed(2, &[1, 2]));
    assert_ne!(pushed(2, &[1, 2]), pushed(2, &[2, 1]), "equal counts, which will differ");
    assert_ne!(pushed(2, &[1]), pushed(2, &[1, 0]));
    assert_ne!(pushed(2, &[1]), pushed(3, &[1]));
}

/// Parts of which one is wrong are refused with 16.
#[test]
fn parts_that_no_minutes_leave() {
    let mut window = ActivityWindow::new(3).unwrap();
    window.push_minute(0b11);
    window.push_minute(0b10);
    let good = window.parts();
    assert_eq!(ActivityWindow::try_from_parts(good.clone()), Ok(window));
    let numbers = [(2, 2, 0), (2, 2, 257), (1, 2, 3), (2, 1, 3), (2, 4, 3), (3, 2, 3), (2, 2, 2), (0, usize::MAX, usize::MAX)];
    for (place, fill, width) in numbers {
        let wrong = WindowParts { place, fill, width, ..good.clone() };
        assert_eq!(ActivityWindow::try_from_parts(wrong), Err(Refusal::ImpossibleWindow), "{place} {fill} {width}");
    }
    for at in [0, 1, 2, 255] {
        let mut wrong = good.clone();
        wrong.words[at] ^= 0b100;
        assert_eq!(ActivityWindow::try_from_parts(wrong), Err(Refusal::ImpossibleWindow), "word {at}");
    }
    for truck in [0, 1, 2, 63] {
        let mut wrong = good.clone();
        wrong.counts[truck] += 1;
        assert_eq!(ActivityWindow::try_from_parts(wrong), Err(Refusal::ImpossibleWindow), "truck {truck}");
    }
}
