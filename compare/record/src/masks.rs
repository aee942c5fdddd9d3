//! The mask: slices, counts, combinations and comparisons.

use crate::draw::{Draw, KINDS, Kind};
use crate::list::{List, Numbers};
use original::bitmap::{self as rust, Bitmap};

/// Returns a mask over a span of the bytes, its zeros counted or not.
pub fn bitmap(bytes: &[u8], start: usize, length: usize, counted: bool) -> Bitmap {
    let whole = Bitmap::try_new(bytes.to_vec(), 8 * bytes.len()).expect("so many flags");
    let mask = whole.sliced(start, length);
    if counted {
        mask.unset_bits();
    }
    mask
}

/// Returns the numbers of a mask that a call made: its length, its zero count, its flags.
pub fn mask(mask: &Bitmap) -> Numbers {
    Numbers::of(&[mask.len()]).count(mask.lazy_unset_bits()).flags(mask.iter())
}

/// Records the calls on masks.
pub fn record(list: &mut List, draw: &mut Draw) {
    for _ in 0..100 {
        let length = draw.length(600);
        list.record("new_zeroed", Numbers::of(&[length]), mask(&Bitmap::new_zeroed(length)));
    }
    for kind in KINDS {
        for second in KINDS {
            let third = draw.pick(&KINDS);
            Lent::new(draw, [kind, second, third], 40).records(list, draw);
        }
    }
    for kind in [Kind::Random, Kind::Runs] {
        let lent = Lent::new(draw, [kind, Kind::Random, Kind::FewOnes], 1000);
        lent.lend(list);
        for _ in 0..4 {
            let length = 7700 + draw.below(200);
            lent.combinations(list, draw, length);
            lent.comparisons(list, draw, length);
        }
    }
}

/// The bytes of x, y and z. If x and y are of one kind, flag j + `shift` of y is flag j of x.
struct Lent {
    bytes: [Vec<u8>; 3],
    shift: Option<usize>,
}

/// A mask of a request: its start in the bytes lent, and the Rust's mask.
struct Argument {
    start: usize,
    mask: Bitmap,
}

impl Argument {
    /// Appends its start, its length and its count.
    fn whole(&self, all: Numbers) -> Numbers {
        all.number(self.start).number(self.mask.len()).count(self.mask.lazy_unset_bits())
    }

    /// Appends its start and its count, for a mask as long as the first.
    fn further(&self, all: Numbers) -> Numbers {
        all.number(self.start).count(self.mask.lazy_unset_bits())
    }
}

impl Lent {
    fn new(draw: &mut Draw, kinds: [Kind; 3], size: usize) -> Self {
        let mut bytes = kinds.map(|kind| draw.bytes(kind, size));
        let shift = (kinds[0] == kinds[1]).then(|| draw.below(8));
        if let Some(shift) = shift {
            let mut last = 0;
            bytes[1] = bytes[0]
                .iter()
                .map(|&byte| (byte as u16) << shift | std::mem::replace(&mut last, byte as u16 >> (8 - shift)))
                .map(|w| w as u8)
                .collect();
        }
        Self { bytes, shift }
    }

    fn lend(&self, list: &mut List) {
        for (letter, bytes) in ['x', 'y', 'z'].into_iter().zip(&self.bytes) {
            list.lend(letter, bytes);
        }
    }

    fn argument(&self, draw: &mut Draw, place: usize, length: usize) -> Argument {
        let start = draw.below((8 * self.bytes[place].len() - length + 1).min(80));
        self.argument_at(draw, place, start, length)
    }

    fn argument_at(&self, draw: &mut Draw, place: usize, start: usize, length: usize) -> Argument {
        Argument { start, mask: bitmap(&self.bytes[place], start, length, draw.flag()) }
    }

    fn records(&self, list: &mut List, draw: &mut Draw) {
        self.lend(list);
        for _ in 0..4 {
            let length = draw.length(8 * self.bytes[0].len());
            let whole = Bitmap::try_new(self.bytes[0].clone(), length).expect("so many flags");
            list.record("try_new", Numbers::of(&[length]), mask(&whole));
        }
        for _ in 0..12 {
            let length = draw.length(310);
            self.combinations(list, draw, length);
            self.comparisons(list, draw, length);
            self.slices(list, draw, length);
        }
    }

    fn combinations(&self, list: &mut List, draw: &mut Draw, length: usize) {
        type Pair = fn(&Bitmap, &Bitmap) -> Bitmap;
        let pairs: [(&str, Pair); 5] =
            [("and", rust::and), ("and_not", rust::and_not), ("or", rust::or), ("or_not", rust::or_not), ("xor", rust::xor)];
        for (name, call) in pairs {
            let [a, b] = [0, 1].map(|place| self.argument(draw, place, length));
            list.record(name, b.further(a.whole(Numbers::default())), mask(&call(&a.mask, &b.mask)));
        }
        let a = self.argument(draw, 0, length);
        list.record("not", a.whole(Numbers::default()), mask(&!&a.mask));
        let [a, b, c] = [0, 1, 2].map(|place| self.argument(draw, place, length));
        let request = c.further(b.further(a.whole(Numbers::default())));
        list.record("select", request, mask(&rust::select(&a.mask, &b.mask, &c.mask)));
        let [a, b] = [0, 1].map(|place| self.argument(draw, place, length));
        let flag = draw.flag();
        let request = b.further(a.whole(Numbers::default())).number(flag as usize);
        list.record("select_constant", request, mask(&rust::select_constant(&a.mask, &b.mask, flag)));
    }

    fn comparisons(&self, list: &mut List, draw: &mut Draw, length: usize) {
        for other in [length, draw.length(length + 1)] {
            let a = self.argument(draw, 0, length);
            let room = 8 * self.bytes[1].len();
            let b = match self.shift {
                Some(shift) if a.start + shift + length <= room => self.argument_at(draw, 1, a.start + shift, length),
                _ => self.argument(draw, 1, other),
            };
            list.record("eq", b.whole(a.whole(Numbers::default())), Numbers::of(&[(a.mask == b.mask) as usize]));
        }
        let a = self.argument(draw, 0, length);
        list.record("num_edges", a.whole(Numbers::default()), Numbers::of(&[a.mask.num_edges()]));
        let [a, b] = [0, 1].map(|place| self.argument(draw, place, length));
        let request = b.further(a.whole(Numbers::default()));
        list.record("num_intersections_with", request, Numbers::of(&[a.mask.num_intersections_with(&b.mask)]));
        let a = self.argument(draw, 0, length);
        list.record("unset_bits", a.whole(Numbers::default()), Numbers::of(&[a.mask.unset_bits()]));
    }

    /// Records slices of lengths around the least for which a known count is counted again, and of others.
    fn slices(&self, list: &mut List, draw: &mut Draw, length: usize) {
        let edge = length.saturating_sub((length / 5).max(32));
        for n in [length, edge, edge.saturating_sub(1), draw.below(length + 1)] {
            let a = self.argument(draw, 0, length);
            let offset = draw.below(length - n + 1);
            let request = a.whole(Numbers::default()).number(offset).number(n);
            list.record("slice", request, mask(&a.mask.sliced(offset, n)));
        }
    }
}
