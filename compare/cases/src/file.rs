//! The case file: lent bytes, requests and the model's answers, line by line, and how many requests of each call there are.

use crate::arguments::Args;
use crate::calls::{Lents, Output, Reply, answer};
use crate::token::{Checksum, Token, values};
use std::collections::BTreeMap;
use std::fmt::{Display, Write};

/// The longest output that is written byte by byte; a longer one is written as its checksum.
const SHOWN: usize = 56;

/// The longest text of an output of numbers or ends; what has a longer one is written as its checksum.
const COUNTED: usize = 4096;

/// How many requests a call has, how many single calls these make, and how many of those are refused.
#[derive(Clone, Copy, Default)]
pub struct Tally {
    pub requests: usize,
    pub calls: usize,
    pub refusals: usize,
}

/// The text of the file so far, and what its lines leave in force.
#[derive(Default)]
pub struct File {
    pub text: String,
    /// x, y, z and o as they are lent, in `numbers` i and in `ends` e.
    bytes: [Vec<u8>; 4],
    numbers: Vec<u32>,
    ends: Vec<i32>,
    /// The answer of the last call, in `left` what it left in o, and in `left_ends` in e.
    pub last: Vec<Token>,
    pub left: Vec<u8>,
    left_ends: Vec<i32>,
    pub tallies: BTreeMap<String, Tally>,
}

/// One choice of the values of a line: a single call.
struct Choice<'a> {
    name: &'a str,
    arguments: Vec<Token>,
    /// How many bytes of x, y, z and o, numbers of i and ends of e are lent.
    sizes: [usize; 6],
    /// The serials s, t and u of the records, in their order.
    serials: [u32; 3],
}

/// What o, i and e hold after a call.
struct Left {
    bytes: Vec<u8>,
    numbers: Vec<u32>,
    ends: Vec<i32>,
}

/// An argument, a size or a serial, with its values.
enum Part {
    Argument(Vec<Token>),
    Size(usize, Vec<Token>),
    Serial(usize, Vec<Token>),
}

impl File {
    /// Writes a comment line.
    pub fn note(&mut self, text: &str) {
        writeln!(self.text, "# {text}").unwrap();
    }

    /// Lends bytes as x, y, z or o.
    pub fn lend(&mut self, letter: char, bytes: &[u8]) {
        self.lend_pieces(letter, bytes, &pieces(bytes));
    }

    /// Lends a pattern repeated up to a size as x, y, z or o.
    pub fn lend_pattern(&mut self, letter: char, pattern: &[u8], size: usize) {
        let bytes: Vec<u8> = pattern.iter().copied().cycle().take(size).collect();
        let (times, rest) = (size / pattern.len(), size % pattern.len());
        let mut pieces = Vec::new();
        if times > 0 {
            pieces.push(format!("{}*{times}", hex(pattern)));
        }
        if rest > 0 {
            pieces.push(hex(&pattern[..rest]));
        }
        self.lend_pieces(letter, &bytes, &pieces.join(" "));
    }

    fn lend_pieces(&mut self, letter: char, bytes: &[u8], text: &str) {
        let place = "xyzo".find(letter).expect("x, y, z or o");
        if self.bytes[place] != bytes {
            self.bytes[place] = bytes.to_vec();
            self.line(format!("{letter} {text}").trim_end());
        }
    }

    /// Lends the bytes that the last call left in o as x, y, z or o.
    pub fn lend_left(&mut self, letter: char) {
        let place = "xyzo".find(letter).expect("x, y, z or o");
        self.bytes[place] = self.left.clone();
        self.line(&format!("{letter} @"));
    }

    /// Lends the numbers i.
    pub fn lend_numbers(&mut self, numbers: &[u32]) {
        if self.numbers != numbers {
            self.numbers = numbers.to_vec();
            self.line(format!("i {}", counted(numbers)).trim_end());
        }
    }

    /// Lends the ends e.
    pub fn lend_ends(&mut self, ends: &[i32]) {
        if self.ends != ends {
            self.ends = ends.to_vec();
            self.line(format!("e {}", counted(ends)).trim_end());
        }
    }

    /// Lends the ends that the last call left in e.
    pub fn lend_left_ends(&mut self) {
        self.ends = self.left_ends.clone();
        self.line("e @");
    }

    fn line(&mut self, text: &str) {
        assert!(text.len() < 16_384, "a line that is too long");
        self.text.push_str(text);
        self.text.push('\n');
    }

    /// Writes a request, or a range of them, with the model's answer. After `+` the output goes on as the last call left it.
    pub fn ask(&mut self, request: &str) {
        let go_on = request.starts_with("+ ");
        if go_on {
            self.bytes[3] = self.left.clone();
        }
        let mut words = request.strip_prefix("+ ").unwrap_or(request).split(' ');
        let name = words.next().expect("a name");
        let parts: Vec<Part> = words.flat_map(|word| self.part(word)).collect();
        let answer = match parts.iter().all(|part| part.values().len() == 1) {
            true => self.single(name, &parts),
            false => self.range(name, &parts),
        };
        self.tallies.entry(name.to_string()).or_default().requests += 1;
        self.line(&format!("{request} = {answer}"));
    }

    fn part(&self, word: &str) -> Vec<Part> {
        if let Some(many) = word.strip_prefix('@') {
            let many: usize = many.parse().expect("how many");
            return self.last[self.last.len() - many..].iter().map(|&token| Part::Argument(vec![token])).collect();
        }
        match word.split_once(':') {
            Some((letter, serials)) if "stu".contains(letter) => vec![Part::Serial("stu".find(letter).unwrap(), values(serials))],
            Some((letter, sizes)) => vec![Part::Size("xyzoie".find(letter).expect("a letter"), values(sizes))],
            None => vec![Part::Argument(values(word))],
        }
    }

    fn single(&mut self, name: &str, parts: &[Part]) -> String {
        let (reply, left) = self.call(choice(name, parts, 0));
        let tokens: Vec<String> = reply.tokens.iter().map(Token::to_string).collect();
        let answer = tokens.join(" ");
        let bytes = after(&self.bytes[3], &left.bytes);
        match reply.output {
            Output::None => answer,
            Output::Bytes => format!("{answer} | {bytes}"),
            Output::Numbers => format!("{answer} | {}", list_after(&self.numbers, &left.numbers, u64::from)),
            Output::EndsAndBytes => format!("{answer} | {} | {bytes}", list_after(&self.ends, &left.ends, bits)),
        }
    }

    fn range(&mut self, name: &str, parts: &[Part]) -> String {
        let calls: usize = parts.iter().map(|part| part.values().len()).product();
        assert!(calls <= 4_194_304, "a range of too many calls");
        let mut sum = Checksum::new();
        for number in 0..calls {
            let (reply, left) = self.call(choice(name, parts, number));
            sum.take_tokens(&reply.tokens);
            match reply.output {
                Output::None => {}
                Output::Bytes => sum.take_bytes(&left.bytes),
                Output::Numbers => left.numbers.iter().for_each(|&number| sum.take(number.into())),
                Output::EndsAndBytes => {
                    left.ends.iter().for_each(|&end| sum.take(bits(end)));
                    sum.take_bytes(&left.bytes);
                }
            }
        }
        format!("#{calls} x{:x}", sum.0)
    }

    /// Makes one call and returns its answer and what its outputs hold after it.
    fn call(&mut self, choice: Choice) -> (Reply, Left) {
        let (mut bytes, mut numbers, mut ends) = (self.bytes[3].clone(), self.numbers.clone(), self.ends.clone());
        let [x, y, z, o, i, e] = choice.sizes;
        let cut = |bytes: usize, most: usize| bytes.min(most);
        let lents = Lents {
            x: &self.bytes[0][..cut(x, self.bytes[0].len())],
            y: &self.bytes[1][..cut(y, self.bytes[1].len())],
            z: &self.bytes[2][..cut(z, self.bytes[2].len())],
            o: &mut bytes[..cut(o, self.bytes[3].len())],
            i: &mut numbers[..cut(i, self.numbers.len())],
            e: &mut ends[..cut(e, self.ends.len())],
        };
        let reply = answer(choice.name, Args(&choice.arguments, &choice.serials), lents);
        let tally = self.tallies.entry(choice.name.to_string()).or_default();
        tally.calls += 1;
        tally.refusals += usize::from(reply.tokens[0] != Token::Number(0));
        self.last = reply.tokens.clone();
        if matches!(reply.output, Output::Bytes | Output::EndsAndBytes) {
            self.left = bytes.clone();
        }
        if reply.output == Output::EndsAndBytes {
            self.left_ends = ends.clone();
        }
        (reply, Left { bytes, numbers, ends })
    }
}

impl Part {
    fn values(&self) -> &[Token] {
        match self {
            Part::Argument(values) | Part::Size(_, values) | Part::Serial(_, values) => values,
        }
    }
}

/// Returns choice `number` of the values: the last part changes fastest.
fn choice<'a>(name: &'a str, parts: &[Part], number: usize) -> Choice<'a> {
    let mut rest = number;
    let mut picked = Vec::new();
    for part in parts.iter().rev() {
        picked.push(part.values()[rest % part.values().len()]);
        rest /= part.values().len();
    }
    picked.reverse();
    let mut choice = Choice { name, arguments: Vec::new(), sizes: [usize::MAX; 6], serials: [0; 3] };
    for (part, token) in parts.iter().zip(picked) {
        match (part, token) {
            (Part::Argument(_), token) => choice.arguments.push(token),
            (Part::Size(place, _), Token::Number(size)) => choice.sizes[*place] = size as usize,
            (Part::Serial(place, _), Token::Number(serial)) => choice.serials[*place] = serial.try_into().expect("a serial"),
            _ => panic!("no size and no serial"),
        }
    }
    choice
}

fn hex(bytes: &[u8]) -> String {
    bytes.iter().map(|byte| format!("{byte:02x}")).collect()
}

/// Returns the text of an output after a call: `same`, its pieces or its checksum.
fn after(before: &[u8], bytes: &[u8]) -> String {
    if before == bytes {
        return "same".to_string();
    }
    if bytes.len() <= SHOWN {
        return pieces(bytes);
    }
    let mut sum = Checksum::new();
    sum.take_bytes(bytes);
    format!("#x{:x}", sum.0)
}

/// Returns the text of an output of numbers or ends after a call: `same`, its pieces or its checksum, which takes in `symbol` of each.
fn list_after<T: Copy + PartialEq + Display>(before: &[T], list: &[T], symbol: impl Fn(T) -> u64) -> String {
    if before == list {
        return "same".to_string();
    }
    let text = counted(list);
    if text.len() <= COUNTED {
        return text;
    }
    let mut sum = Checksum::new();
    list.iter().for_each(|&number| sum.take(symbol(number)));
    format!("#x{:x}", sum.0)
}

/// Returns the number that the 32 bits of an end have without a sign.
fn bits(end: i32) -> u64 {
    end.cast_unsigned().into()
}

/// Returns bytes as pieces: a byte that comes at least four times in a row is written once, with their number.
fn pieces(bytes: &[u8]) -> String {
    let mut texts: Vec<String> = Vec::new();
    let mut plain = String::new();
    for run in bytes.chunk_by(|a, b| a == b) {
        if run.len() < 4 {
            plain.push_str(&hex(run));
            continue;
        }
        texts.extend((!plain.is_empty()).then(|| std::mem::take(&mut plain)));
        texts.push(format!("{:02x}*{}", run[0], run.len()));
    }
    texts.extend((!plain.is_empty()).then_some(plain));
    texts.join(" ")
}

/// Returns numbers or ends as pieces: one that comes several times in a row is written once, with their number.
fn counted<T: Copy + PartialEq + Display>(numbers: &[T]) -> String {
    let runs = numbers.chunk_by(|a, b| a == b);
    let texts: Vec<String> =
        runs.map(|run| if run.len() == 1 { run[0].to_string() } else { format!("{}*{}", run[0], run.len()) }).collect();
    texts.join(" ")
}
