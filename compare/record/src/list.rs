//! The list: its lines, and how many requests of each call there are.

use crate::lines::{Lent, Token};
use std::fmt::Write;

/// The calls that are recorded, in the order of crates/notation's names.rt, in which the program prints them.
const CALLS: [&str; 49] = [
    "merge_reversed",
    "nth_set_bit_u32",
    "nth_set_bit_u64",
    "AlignedBitmapSlice::new",
    "split_at_unchecked",
    "get_u32",
    "nth_set_bit_idx",
    "nth_set_bit_idx_rev",
    "count_zeros",
    "leading_zeros",
    "leading_ones",
    "trailing_zeros",
    "trailing_ones",
    "BitChunks::new",
    "BitChunksExact::new",
    "BitChunks::next",
    "remainder",
    "try_new",
    "slice",
    "unset_bits",
    "num_edges",
    "eq",
    "num_intersections_with",
    "SlicesIterator::new",
    "SlicesIterator::next",
    "TrueIdxIter::new",
    "TrueIdxIter::next",
    "nth",
    "take_leading_ones",
    "take_leading_zeros",
    "push",
    "push_word_with_len_unchecked",
    "extend_constant",
    "freeze",
    "into_opt_validity",
    "new_zeroed",
    "extend_from_slice",
    "extend_each_repeated_from_slice_unchecked",
    "subslice_extend_from_bitmap",
    "and",
    "and_not",
    "or",
    "or_not",
    "xor",
    "not",
    "select",
    "select_constant",
    "gather_extend_from_slice",
    "opt_gather_extend_from_slice",
];

/// A row of numbers.
#[derive(Default)]
pub struct Numbers(Vec<Token>);

impl Numbers {
    /// Returns a row of these numbers.
    pub fn of(numbers: &[usize]) -> Self {
        numbers.iter().fold(Self::default(), |all, &n| all.number(n))
    }

    /// Appends a number.
    pub fn number(mut self, n: usize) -> Self {
        self.0.push(Some(n as u64));
        self
    }

    /// Appends a word.
    pub fn word(mut self, w: u64) -> Self {
        self.0.push(Some(w));
        self
    }

    /// Appends a zero count, known or not.
    pub fn count(mut self, zeros: Option<usize>) -> Self {
        match zeros {
            Some(zeros) => self.number(zeros),
            None => {
                self.0.push(None);
                self
            }
        }
    }

    /// Appends flags as words of 64, zeros after the last flag.
    pub fn flags(mut self, flags: impl Iterator<Item = bool>) -> Self {
        let flags: Vec<bool> = flags.collect();
        for part in flags.chunks(64) {
            self = self.word(part.iter().rev().fold(0, |w, &flag| w << 1 | flag as u64));
        }
        self
    }
}

/// The text of the list, and its requests counted.
pub struct List {
    text: String,
    lent: Lent,
    requests: [usize; CALLS.len()],
}

impl List {
    pub fn new() -> Self {
        Self { text: String::new(), lent: Lent::default(), requests: [0; CALLS.len()] }
    }

    /// Writes a comment line.
    pub fn comment(&mut self, text: &str) {
        writeln!(self.text, "# {text}").unwrap();
    }

    /// Lends bytes to the records that follow as x, y or z.
    pub fn lend(&mut self, letter: char, bytes: &[u8]) {
        match letter {
            'x' => self.lent.x = bytes.to_vec(),
            'z' => self.lent.z = bytes.to_vec(),
            _ => (),
        }
        self.text.push(letter);
        if !bytes.is_empty() {
            self.text.push(' ');
        }
        for byte in bytes {
            write!(self.text, "{byte:02x}").unwrap();
        }
        self.text.push('\n');
    }

    /// Writes the lines of a record and counts their requests.
    pub fn record(&mut self, call: &str, request: Numbers, answer: Numbers) {
        let lines = self.lent.lines(call, &request.0, &answer.0);
        for call in lines.calls {
            self.requests[CALLS.iter().position(|&name| name == call).expect("a call of the table")] += 1;
        }
        self.text.push_str(&lines.text);
    }

    pub fn text(&self) -> &str {
        &self.text
    }

    /// Returns what the program prints if no answer differs.
    pub fn totals(&self) -> String {
        let mut totals = String::new();
        for (call, requests) in CALLS.iter().zip(self.requests) {
            assert!(requests > 0, "no request of {call}");
            writeln!(totals, "{call}: {requests} requests, {requests} calls, 0 differ").unwrap();
        }
        let all = self.requests.iter().sum::<usize>();
        writeln!(totals, "total: {all} requests, {all} calls, 0 differ").unwrap();
        writeln!(totals, "requests with no answer: 0").unwrap();
        writeln!(totals, "malformed lines: 0").unwrap();
        totals
    }
}
