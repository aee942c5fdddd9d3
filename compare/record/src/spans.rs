//! Calls over a span of bytes: counts, parts, searches.

use crate::cursors;
use crate::draw::{Draw, KINDS, Kind};
use crate::list::{List, Numbers};
use crate::words::found;
use original::bitmap::aligned::AlignedBitmapSlice;
use original::bitmap::bitmask::BitMask;
use original::bitmap::utils::{self, BitChunkIterExact, BitChunks, BitChunksExact};

/// Records the calls over spans of x, and the iterators.
pub fn record(list: &mut List, draw: &mut Draw) {
    for kind in KINDS {
        for size in [40, 43] {
            let x = draw.bytes(kind, size);
            list.lend('x', &x);
            counts(list, draw, &x);
            parts(list, draw, &x);
            searches(list, draw, &x);
            cursors::record(list, draw, &x);
        }
    }
    for size in 0..=8 {
        let x = draw.bytes(Kind::Random, size);
        list.lend('x', &x);
        counts(list, draw, &x);
        searches(list, draw, &x);
    }
    long(list, draw);
}

/// Bytes that begin at an address with a given remainder by 8.
struct Placed {
    space: Vec<u8>,
    first: usize,
    size: usize,
}

impl Placed {
    fn new(bytes: &[u8], address: usize) -> Self {
        let mut space = vec![0xa5; bytes.len() + 16];
        let first = (8 + address - space.as_ptr() as usize % 8) % 8;
        space[first..first + bytes.len()].copy_from_slice(bytes);
        Self { space, first, size: bytes.len() }
    }

    fn bytes(&self) -> &[u8] {
        &self.space[self.first..self.first + self.size]
    }
}

type Count = fn(&[u8], usize, usize) -> usize;

const COUNTS: [(&str, Count); 5] = [
    ("count_zeros", utils::count_zeros),
    ("leading_zeros", utils::leading_zeros),
    ("leading_ones", utils::leading_ones),
    ("trailing_zeros", utils::trailing_zeros),
    ("trailing_ones", utils::trailing_ones),
];

/// Records counts at every start of the first two bytes and some around a word, at drawn addresses.
fn counts(list: &mut List, draw: &mut Draw, x: &[u8]) {
    for start in (0..=16).chain([63, 64, 65]).filter(|&start| start <= 8 * x.len()) {
        for _ in 0..4 {
            let length = draw.length(8 * x.len() - start);
            count(list, draw.below(8), x, start, length);
            chunks(list, x, start, length);
        }
    }
}

fn count(list: &mut List, address: usize, x: &[u8], start: usize, length: usize) {
    let placed = Placed::new(x, address);
    let request = || Numbers::of(&[start, length, address]);
    for (name, call) in COUNTS {
        list.record(name, request(), Numbers::of(&[call(placed.bytes(), start, length)]));
    }
    let split = AlignedBitmapSlice::<u64>::new(placed.bytes(), start, length);
    let ends = Numbers::default().word(split.prefix()).number(split.prefix_bitlen()).word(split.suffix()).number(split.suffix_bitlen());
    list.record("AlignedBitmapSlice", request(), split.bulk_iter().fold(ends, |all, word| all.word(word)));
}

fn chunks(list: &mut List, x: &[u8], start: usize, length: usize) {
    let mut chunks = BitChunks::<u64>::new(x, start, length);
    let words = chunks.by_ref().fold(Numbers::default(), |all, word| all.word(word));
    list.record("BitChunks", Numbers::of(&[start, length]), words.word(chunks.remainder()).number(chunks.remainder_len()));
}

fn parts(list: &mut List, draw: &mut Draw, x: &[u8]) {
    for _ in 0..30 {
        let length = draw.length(8 * x.len());
        let mut chunks = BitChunksExact::<u64>::new(x, length);
        let words = chunks.by_ref().fold(Numbers::default(), |all, word| all.word(word));
        let rest = chunks.remainder_len();
        let remainder = chunks.remainder() & ((1 << rest) - 1);
        list.record("BitChunksExact", Numbers::of(&[length]), words.word(remainder).number(rest));
    }
    for _ in 0..50 {
        let (start, length) = draw.span(x.len());
        let at = draw.length(length);
        let (left, right) = BitMask::new(x, start, length).split_at(at);
        let answer = Numbers::of(&[left.len()]).flags(left.iter()).number(right.len()).flags(right.iter());
        list.record("split_at_unchecked", Numbers::of(&[start, length, at]), answer);
    }
}

fn searches(list: &mut List, draw: &mut Draw, x: &[u8]) {
    for i in 0..100 {
        let (start, length) = draw.span(x.len());
        let mask = BitMask::new(x, start, length);
        let index = if i % 16 == 0 { draw.pick(&[1 << 40, 1 << 63, usize::MAX - 256]) } else { draw.below(length + 40) };
        let answer = Numbers::default().word(mask.get_u32(index) as u64);
        list.record("get_u32", Numbers::of(&[start, length]).number(index), answer);
        let n = if i % 16 == 1 { usize::MAX - i } else { draw.below(mask.set_bits() + 3) };
        let from = if draw.flag() { draw.below(length + 40) } else { draw.below(40) };
        let request = |place: usize| Numbers::of(&[start, length]).number(n).number(place);
        list.record("nth_set_bit_idx", request(from), found(mask.nth_set_bit_idx(n, from)));
        let end = if draw.flag() { draw.below(length + 40) } else { length + draw.below(500) };
        list.record("nth_set_bit_idx_rev", request(end), found(mask.nth_set_bit_idx_rev(n, end)));
    }
}

/// Records calls over some hundred words.
fn long(list: &mut List, draw: &mut Draw) {
    for kind in [Kind::Random, Kind::FewOnes, Kind::FewZeros, Kind::Runs] {
        let x = draw.bytes(kind, 1000);
        list.lend('x', &x);
        for _ in 0..6 {
            let start = draw.below(100);
            let length = 8 * x.len() - start - draw.below(200);
            count(list, draw.below(8), &x, start, length);
            chunks(list, &x, start, length);
            let mask = BitMask::new(&x, start, length);
            for _ in 0..20 {
                let n = draw.below(mask.set_bits() + 3);
                let from = draw.below(100);
                list.record("nth_set_bit_idx", Numbers::of(&[start, length, n, from]), found(mask.nth_set_bit_idx(n, from)));
                let end = length - draw.below(100);
                list.record("nth_set_bit_idx_rev", Numbers::of(&[start, length, n, end]), found(mask.nth_set_bit_idx_rev(n, end)));
            }
        }
    }
}
