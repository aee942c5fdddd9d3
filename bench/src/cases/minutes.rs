//! A minute pushed into a full window, whose record the library checks, compared with a plain version that counts the kept words afresh.

use poruwhina::calls;

use crate::cases::SIZES;
use crate::driver::{Driver, Label, Sides};
use crate::inputs::Words;
use crate::timing::{Side, side};

const WIDTHS: [usize; 6] = [8, 16, 32, 64, 128, 256];

struct Window {
    words: [u64; 256],
    counts: [u32; 64],
    place: usize,
    fill: usize,
    width: usize,
    minutes: Words,
}

impl Window {
    fn new(width: usize) -> Self {
        Window { words: [0; 256], counts: [0; 64], place: 0, fill: 0, width, minutes: Words::new(5) }
    }

    fn minute(&mut self) -> u64 {
        self.minutes.below(1 << 32) << 32 | self.minutes.below(1 << 32)
    }

    fn ours(&mut self) {
        let word = self.minute();
        let answer = calls::activity_push_minute(&mut self.words, &mut self.counts, self.place, self.fill, self.width, word);
        assert_eq!(answer.refusal, 0);
        (self.place, self.fill) = (answer.place, answer.fill);
    }

    fn plain(&mut self) {
        self.words[self.place] = self.minute();
        self.place = (self.place + 1) % self.width;
        self.fill = self.width.min(self.fill + 1);
        let kept = &self.words[..self.fill];
        for (truck, count) in self.counts.iter_mut().enumerate() {
            *count = kept.iter().map(|word| (word >> truck) as u32 & 1).sum();
        }
    }
}

/// Returns a side whose window is full.
fn full(width: usize, push: fn(&mut Window)) -> Box<dyn Side> {
    let mut window = Window::new(width);
    (0..width).for_each(|_| push(&mut window));
    side(window, push, |window, ()| window.counts.map(u64::from).to_vec())
}

pub fn run(driver: &Driver) {
    if !driver.wants("push_minute") {
        return;
    }
    for width in WIDTHS {
        let kind = format!("width {width}");
        let label = Label { call: "push_minute", kind: &kind, at: "-", length: SIZES[0] };
        driver.case(label, Sides { ours: full(width, Window::ours), original: None, plain: Some(full(width, Window::plain)) });
    }
}
