//! Calls on words.

use crate::draw::Draw;
use crate::list::{List, Numbers};
use original::bitmap::bitmask::{nth_set_bit_u32, nth_set_bit_u64};

/// Records the calls on words.
pub fn record(list: &mut List, draw: &mut Draw) {
    for offset in (1..64).cycle().take(1008) {
        let (current, next) = (draw.mixed_word(), draw.mixed_word());
        let request = Numbers::default().word(current).word(next).number(offset);
        list.record("merge_reversed", request, Numbers::default().word(original::merge_reversed(current, next, offset)));
    }
    for i in 0..3000 {
        let word = draw.mixed_word();
        let n = draw.below(70) as u64;
        if i % 2 == 0 {
            let request = Numbers::default().word(word as u32 as u64).word(n);
            let position = nth_set_bit_u32(word as u32, n as u32);
            list.record("nth_set_bit_u32", request, found(position.map(|p| p as usize)));
        } else {
            let request = Numbers::default().word(word).word(n);
            list.record("nth_set_bit_u64", request, found(nth_set_bit_u64(word, n).map(|p| p as usize)));
        }
    }
}

/// Returns a position as a row of one number, or an empty row.
pub fn found(position: Option<usize>) -> Numbers {
    position.map_or_else(Numbers::default, |p| Numbers::of(&[p]))
}
