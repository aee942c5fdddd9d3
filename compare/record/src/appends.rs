//! The builder: flags of z are pushed, then one append is made, then it is frozen.

use crate::draw::{Draw, KINDS, Kind};
use crate::list::{List, Numbers};
use crate::masks::{bitmap, mask};
use original::bitmap::BitmapBuilder;
use original::bitmap::bitmask::BitMask;

/// How many flags are pushed before the append: words in progress of many lengths, with and without whole words before them.
const FILLS: [usize; 12] = [0, 1, 7, 8, 31, 32, 63, 64, 65, 127, 128, 150];

/// Records the builder's calls.
pub fn record(list: &mut List, draw: &mut Draw) {
    for (i, kind) in KINDS.into_iter().enumerate() {
        let x = draw.bytes(kind, 40);
        let z = draw.bytes(KINDS[(i + 3) % KINDS.len()], 20);
        list.lend('x', &x);
        list.lend('z', &z);
        for fill in FILLS {
            Record { list, fill, z: &z }.all(draw, &x);
        }
    }
    long(list, draw);
}

/// The records of a builder that begins with `fill` flags of z.
struct Record<'a> {
    list: &'a mut List,
    fill: usize,
    z: &'a [u8],
}

impl Record<'_> {
    /// Returns a builder with the first `fill` flags of z.
    fn filled(&self) -> BitmapBuilder {
        let mut builder = BitmapBuilder::new();
        let flags = BitMask::new(self.z, 0, self.fill);
        (0..self.fill).for_each(|i| builder.push(flags.get(i)));
        builder
    }

    /// Records one append: the number of flags before it, its arguments, and the mask that the builder freezes to.
    fn append(&mut self, call: &str, request: impl Fn(Numbers) -> Numbers, append: impl Fn(&mut BitmapBuilder)) {
        let mut builder = self.filled();
        append(&mut builder);
        self.list.record(call, request(Numbers::of(&[self.fill])), mask(&builder.freeze()));
    }

    fn all(&mut self, draw: &mut Draw, x: &[u8]) {
        self.append("freeze", |all| all, |_| ());
        let validity = self.filled().into_opt_validity();
        let answer = validity.map_or_else(Numbers::default, |validity| mask(&validity));
        self.list.record("into_opt_validity", Numbers::of(&[self.fill]), answer);
        self.numbers(draw);
        self.spans(draw, x);
        self.gathers(draw, x);
    }

    fn numbers(&mut self, draw: &mut Draw) {
        for flag in [false, true] {
            self.append("push", |all| all.number(flag as usize), |builder| builder.push(flag));
            for _ in 0..5 {
                let n = draw.length(260);
                self.append("extend_constant", |all| all.number(n).number(flag as usize), |builder| builder.extend_constant(n, flag));
            }
        }
        for _ in 0..10 {
            let n = draw.length(64);
            let word = if n == 0 { 0 } else { draw.mixed_word() >> (64 - n) };
            self.append(
                "push_word_with_len_unchecked",
                |all| all.word(word).number(n),
                |builder| {
                    builder.reserve(n);
                    // SAFETY: there is room for n flags, n is at most 64, and the word has no bit set at or above n.
                    unsafe { builder.push_word_with_len_unchecked(word, n) }
                },
            );
        }
    }

    fn spans(&mut self, draw: &mut Draw, x: &[u8]) {
        for _ in 0..14 {
            let (start, length) = draw.span(x.len());
            self.append("extend_from_slice", |all| all.number(start).number(length), |builder| builder.extend_from_slice(x, start, length));
        }
        for _ in 0..10 {
            let start = draw.below(70);
            let length = draw.length(70);
            let repeats = draw.below(9);
            self.append(
                "extend_each_repeated_from_slice_unchecked",
                |all| all.number(start).number(length).number(repeats),
                |builder| builder.extend_each_repeated_from_slice(x, start, length, repeats),
            );
        }
        for _ in 0..12 {
            let (start, length) = draw.span(x.len());
            let source = bitmap(x, start, length, draw.flag());
            let n = draw.length(length);
            let offset = draw.below(length - n + 1);
            self.append(
                "subslice_extend_from_bitmap",
                |all| all.number(start).number(length).count(source.lazy_unset_bits()).number(offset).number(n),
                |builder| builder.subslice_extend_from_bitmap(&source, offset, n),
            );
        }
    }

    fn gathers(&mut self, draw: &mut Draw, x: &[u8]) {
        for i in 0..12 {
            let (start, length) = draw.span(x.len());
            let most = if i % 2 == 0 { length } else { length + 40 };
            let many = if most == 0 { 0 } else { draw.length(70) };
            let idxs: Vec<u32> = (0..many).map(|_| draw.below(most) as u32).collect();
            let request = |all: Numbers| idxs.iter().fold(all.number(start).number(length), |all, &idx| all.number(idx as usize));
            if i % 2 == 0 {
                // SAFETY: each index is below the length.
                self.append("gather_extend_from_slice", request, |builder| unsafe {
                    builder.gather_extend_from_slice(x, start, length, &idxs)
                });
            } else {
                self.append("opt_gather_extend_from_slice", request, |builder| {
                    builder.opt_gather_extend_from_slice(x, start, length, &idxs)
                });
            }
        }
    }
}

/// Records appends of some hundred words at once.
fn long(list: &mut List, draw: &mut Draw) {
    let x = draw.bytes(Kind::Random, 1000);
    let z = draw.bytes(Kind::Random, 20);
    list.lend('x', &x);
    list.lend('z', &z);
    for fill in FILLS {
        let mut record = Record { list, fill, z: &z };
        let start = draw.below(20);
        let length = 8 * x.len() - start - draw.below(200);
        record.append("extend_from_slice", |all| all.number(start).number(length), |builder| builder.extend_from_slice(&x, start, length));
    }
}
