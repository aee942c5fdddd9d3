//! Several checks that fail in one call: each check by itself, each pair of them, all of them, and every choice of them as a range. The
//! modules of some calls ask for their own by `choices`.

use crate::file::File;
use crate::patterns::paint;
use crate::token::Token;

/// Requests with places that can fail a check: `{good|bad|number}`. Long bytes are lent, so that a start past the limit lies in them.
const SPANS: [&str; 12] = [
    "AlignedBitmapSlice::new {3|4194305|1} 70 {7|8|8} x:{524352|9|2}",
    "count_zeros {3|4194305|1} 70 {7|8|8} x:{524352|9|2}",
    "leading_zeros {3|4194305|1} 70 {7|8|8} x:{524352|9|2}",
    "leading_ones {3|4194305|1} 70 {7|8|8} x:{524352|9|2}",
    "trailing_zeros {3|4194305|1} 70 {7|8|8} x:{524352|9|2}",
    "trailing_ones {3|4194305|1} 70 {7|8|8} x:{524352|9|2}",
    "BitChunks::new {3|4194305|1} 70 x:{524352|9|2}",
    "BitChunksExact::new {70|4194305|1} x:{524352|8|2}",
    "split_at_unchecked {3|4194305|1} 70 {5|71|6} x:{524352|9|2}",
    "get_u32 {3|4194305|1} 70 5 x:{524352|9|2}",
    "nth_set_bit_idx {3|4194305|1} 70 5 0 x:{524352|9|2}",
    "nth_set_bit_idx_rev {3|4194305|1} 70 5 70 x:{524352|9|2}",
];

const CURSORS: [&str; 12] = [
    "BitChunks::next {3|4194305|1} 70 {0|71|6} x:{524352|9|2}",
    "remainder {3|4194305|1} 70 {0|71|6} x:{524352|9|2}",
    "SlicesIterator::new {3|4194305|1} 70 {?|1|3} x:{524352|9|2}",
    "SlicesIterator::next {3|4194305|1} 70 {0|71|6} x:{524352|9|2}",
    "BitmapIter::new {3|4194305|1} 70 x:{524352|9|2}",
    "BitmapIter::next {3|4194305|1} 70 {0|71|6} x:{524352|9|2}",
    "nth {3|4194305|1} 70 {0|71|6} 5 x:{524352|9|2}",
    "take_leading_ones {3|4194305|1} 70 {0|71|6} x:{524352|9|2}",
    "take_leading_zeros {3|4194305|1} 70 {0|71|6} x:{524352|9|2}",
    "TrueIdxIter::new {70|69|5} 1 {3|4194305|1} 70 {?|1|3} x:{524352|9|2}",
    "TrueIdxIter::next {3|4194305|1} 70 {0|71|6} 1 x:{524352|9|2}",
    "next_chunk {3|4194305|1} 70 {0|71|6} 1 x:{524352|9|2}",
];

const WITHOUT_MASK: [&str; 2] = ["TrueIdxIter::next {3|4194305|1} 70 {0|71|6} 0 x:0", "next_chunk {3|4194305|1} 70 {0|71|6} 0 x:0"];

const MASKS: [&str; 6] = [
    "try_new {3|4194305|1} 70 x:{524352|9|2}",
    "slice {3|4194305|1} 70 {?|1|3} {0|66|6} 5 x:{524352|9|2}",
    "slice 3 70 {?|1|3} {0|66|6} {5|4194305|1} x:{524352|9|2}",
    "unset_bits {3|4194305|1} 70 {?|1|3} x:{524352|9|2}",
    "num_edges {3|4194305|1} 70 {?|1|3} x:{524352|9|2}",
    "not {3|4194305|1} 70 {?|1|3} x:{524352|9|2} o:{16|15|9}",
];

/// Two masks of 70 flags, the sizes that follow them, and two masks that may be absent with an index.
const TWO: &str = "{3|4194305|1} 70 {?|1|3} {5|4194305|1} {70|69|5} {?|1|3}";
pub const TWO_SIZES: &str = "x:{524352|9|2} y:{524352|9|2}";
pub const OPTIONAL: &str = "1 {3|4194305|1} 70 {?|1|3} 1 {5|4194305|1} {70|69|5} {?|1|3} {64|70|6}";

/// Requests with a stale count and other checks that fail, and the number that refuses them.
const STALE: [(&str, u64); 8] = [
    ("slice 3 70 1 66 5 x:524352", 3),
    ("slice 3 70 1 66 4194305 x:524352", 1),
    ("slice 3 70 1 0 70 x:9", 2),
    ("subslice_extend_from_bitmap 1 2 0 3 70 1 0 1 x:524352 o:16", 3),
    ("subslice_extend_from_bitmap 1 2 0 3 70 1 70 1 x:524352 o:0", 3),
    ("TrueIdxIter::new 69 1 3 70 1 x:524352", 3),
    ("and_not 3 70 1 5 70 ? x:524352 y:9 o:16", 2),
    ("and_not 3 70 ? 5 69 1 x:524352 y:524352 o:0", 3),
];

/// Appends of one flag to builders just below the limit.
const APPENDS: [&str; 11] = [
    "push {4194303|4194304|1} 0 {0|4194305|4} 1 o:{524352|524287|9}",
    "push_mut {4194303|4194304|1} 0 {0|4194305|4} 1 o:{524352|524287|9}",
    "push_word_with_len_unchecked {4194303|4194304|1} 0 {0|4194305|4} {1|3|6} 1 o:{524352|524287|9}",
    "extend_constant {4194303|4194304|1} 0 {0|4194305|4} 1 1 o:{524352|524287|9}",
    "extend_from_slice {4194303|4194304|1} 0 {0|4194305|4} 3 1 x:{9|0|2} o:{524352|524287|9}",
    "extend_each_repeated_from_slice_unchecked {4194303|4194304|1} 0 {0|4194305|4} 3 1 1 x:{9|0|2} o:{524352|524287|9}",
    "subslice_extend_from_bitmap {4194303|4194304|1} 0 {0|4194305|4} 0 70 {?|1|3} {3|70|6} 1 x:{9|8|2} o:{524352|524287|9}",
    "gather_extend_from_slice {4194303|4194304|1} 0 {0|4194305|4} 3 {1|0|6} x:{9|0|2} o:{524352|524287|9}",
    "opt_gather_extend_from_slice {4194303|4194304|1} 0 {0|4194305|4} 3 1 x:{9|0|2} o:{524352|524287|9}",
    "freeze {4194303|4194305|1} 0 {0|4194306|4} o:{524352|524287|9}",
    "into_opt_validity {4194303|4194305|1} 0 {0|4194306|4} o:{524352|524287|9}",
];

pub fn write(f: &mut File) {
    f.note("several checks at once: spans, cursors, masks");
    f.lend_pattern('x', &paint(8, 509), 524_352);
    f.lend_pattern('y', &paint(9, 509), 524_352);
    f.lend_pattern('z', &paint(10, 509), 524_352);
    f.lend('o', &paint(7, 17));
    f.lend_numbers(&[7; 3]);
    for template in SPANS.iter().chain(&CURSORS).chain(&WITHOUT_MASK).chain(&MASKS) {
        choices(f, template);
    }
    f.note("several checks at once: two and three masks");
    for name in ["and", "and_not", "or", "or_not", "xor"] {
        choices(f, &format!("{name} {TWO} {TWO_SIZES} o:{{16|15|9}}"));
    }
    choices(f, &format!("select_constant {TWO} 1 {TWO_SIZES} o:{{16|15|9}}"));
    choices(f, &format!("select {TWO} 6 70 {{?|1|3}} {TWO_SIZES} z:{{524352|9|2}} o:{{16|15|9}}"));
    choices(f, "select 3 70 ? 5 70 ? {6|4194305|1} {70|69|5} {?|1|3} z:{524352|9|2} o:{16|15|9}");
    choices(f, &format!("eq {} {TWO_SIZES}", TWO.replace("{70|69|5}", "70")));
    choices(f, &format!("num_intersections_with {TWO} {TWO_SIZES}"));
    f.note("several checks at once: a stale count beside others");
    for (request, number) in STALE {
        f.ask(request);
        assert_eq!(f.last[0], Token::Number(number), "{request}");
    }
    f.note("several checks at once: the builder, and outputs of new masks");
    f.lend_numbers(&[0]);
    f.lend_pattern('o', &paint(7, 251), 524_352);
    for template in APPENDS {
        choices(f, template);
    }
    choices(f, "new_zeroed {4194304|4194305|1} o:{524352|524287|9}");
    f.lend('o', &[]);
}

/// Returns the texts between the places of a template, and each good and bad value with the number of the check that the bad one fails.
fn places(template: &str) -> (Vec<&str>, Vec<[&str; 3]>) {
    let mut texts = Vec::new();
    let mut all = Vec::new();
    let mut rest = template;
    while let Some((before, behind)) = rest.split_once('{') {
        let (place, behind) = behind.split_once('}').expect("a closed place");
        let values: Vec<&str> = place.split('|').collect();
        texts.push(before);
        all.push([values[0], values[1], values[2]]);
        rest = behind;
    }
    texts.push(rest);
    (texts, all)
}

/// Asks with no bad value, all of them, each one and each pair, and with every choice as a range.
pub fn choices(f: &mut File, template: &str) {
    let (texts, places) = places(template);
    let request = |value: &dyn Fn(usize) -> String| {
        let parts: Vec<String> = (0..places.len()).map(|k| format!("{}{}", texts[k], value(k))).collect();
        format!("{}{}", parts.concat(), texts[places.len()])
    };
    let many = places.len();
    let mut chosen: Vec<Vec<usize>> = vec![Vec::new(), (0..many).collect()];
    chosen.extend((0..many).map(|k| vec![k]));
    chosen.extend((0..many).flat_map(|k| (k + 1..many).map(move |l| vec![k, l])));
    for bad in chosen {
        f.ask(&request(&|k| places[k][usize::from(bad.contains(&k))].to_string()));
        if bad.len() == 1 {
            let number = places[bad[0]][2];
            assert_eq!(f.last[0].to_string(), number, "{template}");
        }
    }
    f.ask(&request(&|k| format!("{},{}", places[k][0], places[k][1])));
}
