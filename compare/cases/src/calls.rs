//! The calls by their names: the model is called with a request's arguments, and its answer becomes the tokens of a line. The calls that a
//! function of the model of their name answers are in `asked`, which a script writes; the others are here.

use crate::arguments::Args;
use crate::asked;
use crate::minutes;
use crate::token::{Checksum, Token};
use model::combine::{self, Op};
use model::loops::{self, Stretch, WordOp};
use model::spans::{self, Count};
use model::{Answer, Builder, Cursor, Mask, Span, State, builder, cursors, mask, superseding, words};

/// The bytes, numbers and ends lent to one call.
pub struct Lents<'a> {
    pub x: &'a [u8],
    pub y: &'a [u8],
    pub z: &'a [u8],
    pub o: &'a mut [u8],
    pub i: &'a mut [u32],
    pub e: &'a mut [i32],
}

/// What a call writes to: nothing, the bytes o, the numbers i, or the ends e and the bytes o.
#[derive(Clone, Copy, PartialEq, Eq)]
pub enum Output {
    None,
    Bytes,
    Numbers,
    EndsAndBytes,
}

/// The tokens of an answer, and the output that is compared.
pub struct Reply {
    pub tokens: Vec<Token>,
    pub output: Output,
}

/// Returns an answer of fixed shape: the refusal or 0, then the values, then the record, its serial first.
fn gave(answer: Answer) -> Reply {
    reply(answer, false, false)
}

/// Returns an answer whose values are missing if nothing is found.
fn found(answer: Answer) -> Reply {
    reply(answer, true, false)
}

/// Returns an answer: missing values are `-` if `may_miss`, and a cursor ends in whether it has a mask if `marks`.
fn reply(answer: Answer, may_miss: bool, marks: bool) -> Reply {
    let mut tokens = vec![Token::Number(answer.refusal.into())];
    if answer.refusal == 0 && may_miss && answer.values.is_empty() {
        tokens.push(Token::Missing);
    }
    tokens.extend(answer.values.iter().map(|&value| Token::Number(value)));
    let number = |value: usize| Token::Number(value as u64);
    match answer.state {
        State::None => {}
        State::Ones(ones) => tokens.push(number(ones)),
        State::Mask(Mask { start, length, zeros, serial }) => {
            tokens.extend([Token::Number(serial.into()), number(start), number(length), zeros.map_or(Token::Unknown, number)]);
        }
        State::Builder(Builder { length, word, ones, serial }) => {
            tokens.extend([Token::Number(serial.into()), number(length), Token::Number(word), number(ones)]);
        }
        State::Cursor(Cursor { start, length, place, masked }) => {
            tokens.extend([number(start), number(length), number(place)]);
            tokens.extend(marks.then_some(number(masked.into())));
        }
    }
    Reply { tokens, output: Output::None }
}

/// Returns the answer of a call that writes to o.
fn wrote(answer: Answer) -> Reply {
    Reply { output: Output::Bytes, ..gave(answer) }
}

/// Returns an answer with its output, in which `-` comes before the values if they are fewer than `values`; a refusal keeps its own.
pub fn plainly(answer: Answer, values: usize, output: Output) -> Reply {
    let missing = answer.refusal == 0 && answer.values.len() < values;
    let mut reply = gave(answer);
    if missing {
        reply.tokens.insert(1, Token::Missing);
    }
    Reply { output, ..reply }
}

/// Returns the answer of ending a builder; a refusal carries the builder, which the model leaves out.
fn ended(answer: Answer, builder: Builder, may_miss: bool) -> Reply {
    let state = if answer.refusal == 0 { answer.state } else { State::Builder(builder) };
    let missing = may_miss && state == State::None;
    Reply { output: Output::Bytes, ..reply(Answer { state, ..answer }, missing, false) }
}

/// Returns the model's answer to the call of that name. Panics if there is no such call or an argument is left over.
pub fn answer(name: &str, mut args: Args, mut lents: Lents) -> Reply {
    let a = &mut args;
    let reply = asked::answer(name, a, &mut lents)
        .or_else(|| minutes::answer(name, a, &mut lents))
        .or_else(|| of_words(name, a, &lents))
        .or_else(|| of_spans(name, a, lents.x))
        .or_else(|| of_cursors(name, a, &lents))
        .or_else(|| of_masks(name, a, &lents))
        .or_else(|| of_loops(name, a, &lents));
    let reply = match reply {
        Some(reply) => reply,
        None => of_outputs(name, a, lents),
    };
    assert!(args.0.is_empty(), "{name} has too many arguments");
    reply
}

fn of_words(name: &str, a: &mut Args, l: &Lents) -> Option<Reply> {
    let word_op = |op, words| words::combine_word(op, words);
    Some(gave(match name {
        "nth_set_bit_u32" | "nth_set_bit_u64" => return Some(found(words::nth_set_bit(a.word(), a.word()))),
        "flag_at" => words::flag(l.x, a.number()),
        "constant_word" => words::constant_flags(a.flag(), 64),
        "ones_in_word" => words::ones_below(a.word(), 64),
        "and_word" => word_op(WordOp::And, [a.word(), a.word(), 0]),
        "and_not_word" => word_op(WordOp::AndNot, [a.word(), a.word(), 0]),
        "or_word" => word_op(WordOp::Or, [a.word(), a.word(), 0]),
        "or_not_word" => word_op(WordOp::OrNot, [a.word(), a.word(), 0]),
        "xor_word" => word_op(WordOp::Xor, [a.word(), a.word(), 0]),
        "not_word" => word_op(WordOp::Not, [a.word(), 0, 0]),
        "select_word" => word_op(WordOp::Select, [a.word(), a.word(), a.word()]),
        "combine_word" => word_op(a.op(), [a.word(), a.word(), a.word()]),
        _ => return None,
    }))
}

fn stretches<'b>(a: &mut Args, l: &Lents<'b>) -> [Stretch<'b>; 3] {
    [a.stretch(l.x), a.stretch(l.y), a.stretch(l.z)]
}

fn of_loops(name: &str, a: &mut Args, l: &Lents) -> Option<Reply> {
    Some(gave(match name {
        "count_ones" => loops::count_ones(a.stretch(l.x), a.number()),
        "count_ones_of" => loops::count_ones_of(a.op(), stretches(a, l), a.number()),
        "any_set" => loops::any_set(a.op(), stretches(a, l), a.number()),
        "equal" => loops::equal(a.stretch(l.x), a.stretch(l.y), a.number()),
        _ => return None,
    }))
}

fn of_spans(name: &str, a: &mut Args, x: &[u8]) -> Option<Reply> {
    let count = |what, a: &mut Args| spans::count(what, a.span(x), a.number());
    Some(gave(match name {
        "AlignedBitmapSlice::new" => spans::aligned_new(a.span(x), a.number()),
        "count_zeros" => count(Count::Zeros, a),
        "leading_zeros" => count(Count::LeadingZeros, a),
        "leading_ones" => count(Count::LeadingOnes, a),
        "trailing_zeros" => count(Count::TrailingZeros, a),
        "trailing_ones" => count(Count::TrailingOnes, a),
        "BitChunks::new" => spans::chunks_new(a.span(x)),
        "BitChunksExact::new" => spans::chunks_new(Span { bytes: x, start: 0, length: a.number() }),
        "BitChunks::next" => return Some(found(spans::chunks_next(a.cursor(), x))),
        "remainder" => spans::chunks_remainder(a.cursor(), x),
        _ => return None,
    }))
}

fn of_cursors(name: &str, a: &mut Args, l: &Lents) -> Option<Reply> {
    Some(match name {
        "SlicesIterator::new" => gave(cursors::slices_new(a.lent(l.x))),
        "SlicesIterator::next" => found(cursors::slices_next(a.cursor(), l.x)),
        "BitmapIter::new" => gave(cursors::iter_new(a.span(l.x))),
        "BitmapIter::next" => found(cursors::iter_next(a.cursor(), l.x)),
        "nth" => found(cursors::iter_nth(a.cursor(), l.x, a.number())),
        "take_leading_ones" => gave(cursors::take_leading(true, a.cursor(), l.x)),
        "take_leading_zeros" => gave(cursors::take_leading(false, a.cursor(), l.x)),
        "TrueIdxIter::new" => reply(cursors::true_idx_new(a.number(), a.lent_or_none(l.x)), false, true),
        "TrueIdxIter::next" => reply(cursors::true_idx_next(a.true_cursor(), l.x), true, true),
        _ => return None,
    })
}

/// Answers the calls on masks that have no output.
fn of_masks(name: &str, a: &mut Args, l: &Lents) -> Option<Reply> {
    Some(gave(match name {
        "BitmapBuilder::new" => builder::new(),
        "Bitmap::new" => mask::new(),
        "superseding_bytes" => {
            let part = superseding::superseding_bytes(a.lent(l.x), a.lent(l.y));
            let mut sum = Checksum::new();
            sum.take_bytes(part);
            return Some(gave(Answer { refusal: 0, values: vec![part.len() as u64, sum.0], state: State::None }));
        }
        _ => return None,
    }))
}

/// Answers the calls that have an output.
fn of_outputs(name: &str, a: &mut Args, l: Lents) -> Reply {
    match name {
        "next_chunk" => {
            let answer = cursors::true_idx_next_chunk(a.true_cursor(), l.x, l.i);
            return Reply { output: Output::Numbers, ..reply(answer, false, true) };
        }
        "freeze" | "into_opt_validity" => {
            let b = a.builder();
            let may_miss = name == "into_opt_validity";
            return ended(if may_miss { builder::into_opt_validity(b, l.o) } else { builder::freeze(b, l.o) }, b, may_miss);
        }
        _ => {}
    }
    wrote(of_writers(name, a, l))
}

fn of_writers(name: &str, a: &mut Args, l: Lents) -> Answer {
    let ops = [("and", Op::And), ("and_not", Op::AndNot), ("or", Op::Or), ("or_not", Op::OrNot), ("xor", Op::Xor)];
    if let Some((_, op)) = ops.iter().find(|(of, _)| *of == name) {
        return combine::combine(*op, a.lent(l.x), a.lent(l.y), l.o);
    }
    match name {
        "push_mut" => builder::push(a.builder(), l.o, a.flag()),
        "store_le_u64" => words::store_at(l.o, 0, a.word()),
        "combine" => {
            let (op, stretches) = (a.op(), stretches(a, &l));
            loops::combine(op, stretches, a.number(), l.o)
        }
        "copy" => loops::copy(a.stretch(l.x), a.number(), l.o),
        "copy_count" => loops::copy_count(a.stretch(l.x), a.number(), l.o),
        _ => panic!("no call: {name}"),
    }
}
