//! The lines of a record, in the form that crates/requests reads: requests with all their arguments, and the Rust's answer as the records
//! of this library. Flags that the Rust returns are compared here with the bytes lent, or become the bytes of the output.

use std::fmt::Write;

/// A number of a record, or a zero count that is not known.
pub type Token = Option<u64>;

/// The serial of a mask and of a builder, which comes before their numbers in an answer: the Rust has no serials.
const SERIAL: Token = Some(0);

/// The number of bytes of the output, which are all ones except for a builder's finished words.
pub const OUTPUT: usize = 1024;

/// The bytes lent to the records, and those of the output.
#[derive(Default)]
pub struct Lent {
    pub x: Vec<u8>,
    pub z: Vec<u8>,
    output: Vec<u8>,
}

/// The lines of one record, and the calls that they request.
#[derive(Default)]
pub struct Lines {
    pub text: String,
    pub calls: Vec<&'static str>,
}

impl Lines {
    fn request(&mut self, call: &'static str, request: &[Token], answer: &[Token]) {
        self.calls.push(call);
        self.text.push_str(call);
        self.numbers(request);
        self.text.push_str(" = 0");
        self.numbers(answer);
    }

    fn numbers(&mut self, numbers: &[Token]) {
        for n in numbers {
            match n {
                Some(n) if *n < 1 << 20 => write!(self.text, " {n}").unwrap(),
                Some(n) => write!(self.text, " x{n:x}").unwrap(),
                None => self.text.push_str(" ?"),
            }
        }
    }

    /// Writes a request whose answer is a position, or none and `_`: there the library says how many bits are set, and the Rust does not.
    fn uncounted(&mut self, call: &'static str, request: &[Token], answer: &[Token]) {
        self.request(call, request, answer);
        self.text.push_str(if answer.is_empty() { " - _\n" } else { "\n" });
    }

    /// Writes a request whose answer is these numbers, or none.
    fn plain(&mut self, call: &'static str, request: &[Token], answer: &[Token]) {
        self.request(call, request, answer);
        self.text.push_str(if answer.is_empty() { " -\n" } else { "\n" });
    }

    /// Writes a step of a cursor: its item, or none, and the cursor after it.
    fn step(&mut self, call: &'static str, request: &[Token], given: &[Token], cursor: &[Token]) {
        self.request(call, request, given);
        self.text.push_str(if given.is_empty() { " -" } else { "" });
        self.numbers(cursor);
        self.text.push('\n');
    }

    /// Writes a request that returns these numbers, or none, and writes these bytes at the start of the output, which was `before`.
    fn written(&mut self, call: &'static str, request: &[Token], answer: &[Token], bytes: &[u8], before: &[u8]) {
        self.request(call, request, answer);
        let mut after = before.to_vec();
        after[..bytes.len()].copy_from_slice(bytes);
        self.text.push_str(if answer.is_empty() { " - | " } else { " | " });
        self.bytes(&after);
    }

    /// Writes bytes in hexadecimal, those of all ones at their end as one piece.
    fn bytes(&mut self, bytes: &[u8]) {
        let ones = bytes.iter().rev().take_while(|&&byte| byte == 255).count();
        let front = &bytes[..bytes.len() - ones];
        front.iter().for_each(|byte| write!(self.text, "{byte:02x}").unwrap());
        if ones > 0 {
            write!(self.text, "{}ff*{ones}", if front.is_empty() { "" } else { " " }).unwrap();
        }
        self.text.push('\n');
    }
}

fn number(n: Token) -> usize {
    n.expect("a number") as usize
}

fn flag(bytes: &[u8], at: usize) -> bool {
    bytes[at / 8] >> (at % 8) & 1 == 1
}

/// Returns the first `length` flags of words.
fn flags(words: &[Token], length: usize) -> Vec<bool> {
    assert_eq!(words.len(), length.div_ceil(64));
    (0..length).map(|i| words[i / 64].expect("a word") >> (i % 64) & 1 == 1).collect()
}

/// Returns the frozen bytes of flags: whole words of 64, zeros after the last flag.
fn frozen(flags: &[bool]) -> Vec<u8> {
    let mut bytes = vec![0; 8 * flags.len().div_ceil(64)];
    for (i, _) in flags.iter().enumerate().filter(|&(_, &set)| set) {
        bytes[i / 8] |= 1 << (i % 8);
    }
    bytes
}

/// Returns a builder of flags, its length, its word in progress and the ones of its finished words, and the bytes of these words.
fn builder(flags: &[bool]) -> ([Token; 3], Vec<u8>) {
    let finished = flags.len() / 64 * 64;
    let word = flags[finished..].iter().rev().fold(0, |w, &set| w << 1 | set as u64);
    let ones = flags[..finished].iter().filter(|&&set| set).count();
    ([Some(flags.len() as u64), Some(word), Some(ones as u64)], frozen(&flags[..finished]))
}

/// The calls whose numbers are written unchanged.
const PLAIN: [&str; 11] = [
    "merge_reversed",
    "count_zeros",
    "leading_zeros",
    "leading_ones",
    "trailing_zeros",
    "trailing_ones",
    "get_u32",
    "nth_set_bit_idx",
    "nth_set_bit_idx_rev",
    "eq",
    "num_edges",
];

const WORD_SEARCHES: [&str; 2] = ["nth_set_bit_u32", "nth_set_bit_u64"];

const COMBINATIONS: [&str; 8] = ["and", "and_not", "or", "or_not", "xor", "not", "select", "select_constant"];

const APPENDS: [&str; 8] = [
    "push",
    "extend_constant",
    "push_word_with_len_unchecked",
    "extend_from_slice",
    "extend_each_repeated_from_slice_unchecked",
    "subslice_extend_from_bitmap",
    "gather_extend_from_slice",
    "opt_gather_extend_from_slice",
];

fn named(call: &str, names: &[&'static str]) -> Option<&'static str> {
    names.iter().find(|&&name| name == call).copied()
}

/// Returns masks with all their numbers: a second and a third one have the first one's length.
fn whole(masks: &[Token]) -> Vec<Token> {
    let mut all = masks[..3].to_vec();
    for mask in masks[3..].chunks(2) {
        all.extend([mask[0], masks[1], mask[1]]);
    }
    all
}

impl Lent {
    /// Returns the lines of a record: a call's name and its numbers, as the modules of this program record them.
    pub fn lines(&mut self, call: &str, request: &[Token], answer: &[Token]) -> Lines {
        let mut lines = Lines::default();
        if let Some(name) = named(call, &PLAIN) {
            lines.plain(name, request, answer);
        } else if let Some(name) = named(call, &WORD_SEARCHES) {
            lines.uncounted(name, request, answer);
        } else if let Some(name) = named(call, &COMBINATIONS) {
            self.combined(&mut lines, name, request, answer);
        } else if let Some(name) = named(call, &APPENDS) {
            self.appended(&mut lines, name, request, answer);
        } else {
            self.others(&mut lines, call, request, answer);
        }
        lines
    }

    fn others(&mut self, lines: &mut Lines, call: &str, request: &[Token], answer: &[Token]) {
        let first = number(request[0]);
        match call {
            "AlignedBitmapSlice" => self.aligned(lines, request, answer),
            "BitChunks" => chunks(lines, "BitChunks::new", request, answer),
            "BitChunksExact" => chunks(lines, "BitChunksExact::new", request, answer),
            "split_at_unchecked" => self.split(lines, request, answer),
            "SlicesIterator" => runs(lines, request, answer),
            "BitmapIter" => steps(lines, request, answer),
            "TrueIdxIter" => positions(lines, first, number(request[1]), true, answer),
            "TrueIdxIter_without_mask" => positions(lines, 0, first, false, answer),
            "freeze" => self.frozen(lines, "freeze", first, answer),
            "into_opt_validity" => self.frozen(lines, "into_opt_validity", first, answer),
            "new_zeroed" => self.combined(lines, "new_zeroed", request, answer),
            "try_new" => self.cut(lines, "try_new", &[Some(0), request[0]], 0, answer),
            "slice" => self.cut(lines, "slice", request, first + number(request[3]), answer),
            "unset_bits" => lines.plain("unset_bits", request, &[answer[0], SERIAL, request[0], request[1], answer[0]]),
            "num_intersections_with" => lines.plain("num_intersections_with", &whole(request), answer),
            _ => panic!("no form of {call}"),
        }
    }

    /// Writes a split whose whole words must be the bytes after the prefix. If there is only a prefix, the first byte is 0.
    fn aligned(&self, lines: &mut Lines, request: &[Token], answer: &[Token]) {
        let (ends, words) = answer.split_at(4);
        let first = (number(request[0]) + number(ends[1])) / 8;
        for (i, word) in words.iter().enumerate() {
            assert_eq!(self.x[first + 8 * i..][..8], word.expect("a word").to_le_bytes());
        }
        let first = if words.is_empty() && number(ends[3]) == 0 { 0 } else { first };
        let answer = [ends[0], ends[1], Some(first as u64), Some(words.len() as u64), ends[2], ends[3]];
        lines.plain("AlignedBitmapSlice::new", request, &answer);
    }

    /// Checks that the flags of a span of x are those of an answer.
    fn hold(&self, start: usize, length: usize, words: &[Token]) {
        assert!(flags(words, length).iter().enumerate().all(|(i, &set)| set == flag(&self.x, start + i)));
    }

    fn split(&self, lines: &mut Lines, request: &[Token], answer: &[Token]) {
        let (start, at) = (number(request[0]), number(request[2]));
        let left = number(answer[0]);
        let (first, second) = answer.split_at(1 + left.div_ceil(64));
        self.hold(start, left, &first[1..]);
        self.hold(start + at, number(second[0]), &second[1..]);
        lines.plain("split_at_unchecked", request, &[request[0], first[0], Some((start + at) as u64), second[0]]);
    }

    /// Writes a call that returns a mask over x whose flags start at `start`.
    fn cut(&self, lines: &mut Lines, call: &'static str, request: &[Token], start: usize, answer: &[Token]) {
        self.hold(start, number(answer[0]), &answer[2..]);
        lines.plain(call, request, &[SERIAL, Some(start as u64), answer[0], answer[1]]);
    }

    /// Lends the output of the records that follow, if it differs from the last.
    fn output(&mut self, lines: &mut Lines, front: &[u8]) {
        let mut output = vec![255; OUTPUT];
        output[..front.len()].copy_from_slice(front);
        if self.output != output {
            lines.text.push_str("o ");
            lines.bytes(&output);
            self.output = output;
        }
    }

    fn combined(&mut self, lines: &mut Lines, call: &'static str, request: &[Token], answer: &[Token]) {
        self.output(lines, &[]);
        let bytes = frozen(&flags(&answer[2..], number(answer[0])));
        let request = match call {
            "new_zeroed" => request.to_vec(),
            "select_constant" => [whole(&request[..5]), request[5..].to_vec()].concat(),
            _ => whole(request),
        };
        lines.written(call, &request, &[SERIAL, Some(0), answer[0], answer[1]], &bytes, &self.output);
    }

    /// Returns the builder of the first `fill` flags of z, and lends an output with its finished words.
    fn filled(&mut self, lines: &mut Lines, fill: usize) -> [Token; 3] {
        let flags: Vec<bool> = (0..fill).map(|i| flag(&self.z, i)).collect();
        let (builder, finished) = builder(&flags);
        self.output(lines, &finished);
        builder
    }

    fn frozen(&mut self, lines: &mut Lines, call: &'static str, fill: usize, answer: &[Token]) {
        let builder = self.filled(lines, fill);
        let flags: Vec<bool> = (0..fill).map(|i| flag(&self.z, i)).collect();
        if answer.is_empty() {
            lines.written(call, &builder, &[], &frozen(&flags), &self.output);
        } else {
            let bytes = frozen(&self::flags(&answer[2..], number(answer[0])));
            lines.written(call, &builder, &[SERIAL, Some(0), answer[0], answer[1]], &bytes, &self.output);
        }
    }

    /// Writes an append, which leaves the builder of all flags that the Rust froze.
    fn appended(&mut self, lines: &mut Lines, call: &'static str, request: &[Token], answer: &[Token]) {
        let start = self.filled(lines, number(request[0]));
        let mut arguments = [&start, &request[1..]].concat();
        if call.contains("gather") {
            let indices: Vec<String> = arguments.drain(5..).map(|index| format!(" {}", number(index))).collect();
            writeln!(lines.text, "i{}", indices.concat()).unwrap();
        }
        let (end, finished) = builder(&flags(&answer[2..], number(answer[0])));
        lines.written(call, &arguments, &[&[SERIAL], &end[..]].concat(), &finished, &self.output);
    }
}

fn cursor(start: usize, length: usize, place: usize) -> [Token; 3] {
    [start, length, place].map(|n| Some(n as u64))
}

/// Writes a step for each word, then one with no word, then the remainder.
fn chunks(lines: &mut Lines, new: &'static str, request: &[Token], answer: &[Token]) {
    let (start, length) = if request.len() == 1 { (0, number(request[0])) } else { (number(request[0]), number(request[1])) };
    let (words, rest) = answer.split_at(answer.len() - 2);
    lines.plain(new, request, &cursor(start, length, 0));
    for (i, &word) in words.iter().enumerate() {
        lines.step("BitChunks::next", &cursor(start, length, i), &[word], &cursor(start, length, i + 1));
    }
    let end = cursor(start, length, words.len());
    lines.step("BitChunks::next", &end, &[], &end);
    lines.plain("remainder", &end, rest);
}

fn runs(lines: &mut Lines, request: &[Token], answer: &[Token]) {
    let (start, length) = (number(request[0]), number(request[1]));
    let mut place = cursor(start, length, 0);
    lines.plain("SlicesIterator::new", &[request[0], request[1], None], &place);
    for run in answer.chunks(2) {
        let behind = cursor(start, length, number(run[0]) + number(run[1]));
        lines.step("SlicesIterator::next", &place, run, &behind);
        place = behind;
    }
    lines.step("SlicesIterator::next", &place, &[], &cursor(start, length, length));
}

/// Writes the steps of one cursor: 0 take_leading_ones, 1 take_leading_zeros, n + 2 nth(n).
fn steps(lines: &mut Lines, request: &[Token], answer: &[Token]) {
    let (start, length) = (number(request[0]), number(request[1]));
    let mut place = 0;
    for (&step, &given) in request[2..].iter().zip(answer) {
        let before = cursor(start, length, place);
        let code = number(step);
        place = match (code, given) {
            (0 | 1, given) => place + number(given),
            (_, Some(_)) => place + code - 1,
            (_, None) => length,
        };
        let behind = cursor(start, length, place);
        match code {
            0 => lines.step("take_leading_ones", &before, &[given], &behind),
            1 => lines.step("take_leading_zeros", &before, &[given], &behind),
            _ => {
                let request = [before[0], before[1], before[2], Some(code as u64 - 2)];
                lines.step("nth", &request, given.map(Some).as_slice(), &behind);
            }
        }
    }
}

fn positions(lines: &mut Lines, start: usize, length: usize, masked: bool, answer: &[Token]) {
    let at = |place: usize| [start, length, place, masked as usize].map(|n| Some(n as u64));
    let mask = if masked { [Some(1), Some(start as u64), Some(length as u64), None] } else { [Some(0), Some(0), Some(0), None] };
    lines.plain("TrueIdxIter::new", &[&[Some(length as u64)], &mask[..]].concat(), &at(0));
    let mut place = 0;
    for &position in answer {
        lines.step("TrueIdxIter::next", &at(place), &[position], &at(number(position) + 1));
        place = number(position) + 1;
    }
    lines.step("TrueIdxIter::next", &at(place), &[], &at(length));
}
