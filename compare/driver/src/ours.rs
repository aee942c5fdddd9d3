//! The library's records and answers as the model's. A function without a comment converts the record or answer of its name.
//!
//! What a refusal or an absence leaves out must be 0 in the library's record; anything else is reported as a difference, by a panic
//! that the comparison catches.

use model::{Answer, Builder, Cursor, Mask, State};
use poruwhina::calls;

/// Returns the library's record of a mask. Any number except 0 marks a known count, and the number of an unknown one is not read: both
/// vary here.
pub fn mask(mask: Mask) -> calls::Mask {
    let (zeros, known) = match mask.zeros {
        Some(zeros) => (zeros, if zeros % 2 == 0 { 1 } else { 255 }),
        None => (usize::MAX, 0),
    };
    calls::Mask { start: mask.start, length: mask.length, zeros, known, serial: mask.serial }
}

pub fn builder(b: Builder) -> calls::Builder {
    calls::Builder { length: b.length, word: b.word, ones: b.ones }
}

pub fn cursor(cursor: Cursor) -> calls::Cursor {
    calls::Cursor { start: cursor.start, length: cursor.length, place: cursor.place, masked: cursor.masked.into() }
}

fn mask_state(mask: calls::Mask) -> State {
    assert!(mask.known == 1 || (mask.known == 0 && mask.zeros == 0), "no count: {mask:?}");
    State::Mask(Mask { start: mask.start, length: mask.length, zeros: (mask.known == 1).then_some(mask.zeros), serial: mask.serial })
}

fn cursor_state(cursor: calls::Cursor) -> State {
    assert!(cursor.masked <= 1, "no mark: {cursor:?}");
    State::Cursor(Cursor { start: cursor.start, length: cursor.length, place: cursor.place, masked: cursor.masked == 1 })
}

/// Returns the values if they are there, else none; then all must be 0.
fn there(there: bool, values: Vec<u64>) -> Vec<u64> {
    if there {
        return values;
    }
    assert!(values.iter().all(|&value| value == 0), "numbers where there are none: {values:?}");
    Vec::new()
}

fn answer(refusal: u8, values: &[usize], state: State) -> Answer {
    let values = values.iter().map(|&value| value as u64).collect();
    Answer { refusal, values: there(refusal == 0, values), state }
}

pub fn word(word: u64) -> Answer {
    Answer::word(word)
}

pub fn number(a: calls::NumberAnswer) -> Answer {
    answer(a.refusal, &[a.value], State::None)
}

pub fn flag(a: calls::FlagAnswer) -> Answer {
    answer(a.refusal, &[a.value.into()], State::None)
}

pub fn position(a: calls::PositionAnswer) -> Answer {
    Answer { refusal: a.refusal, values: there(a.found, vec![a.value as u64]), state: State::None }
}

/// Returns the answer of a search in a word. If there is no such bit, the record is how many are set, which the original does not return.
pub fn set_bit(a: calls::NthAnswer) -> Answer {
    assert!(!a.found || a.ones == 0, "a number beside a position: {a:?}");
    let state = if a.found { State::None } else { State::Ones(a.ones as usize) };
    Answer { refusal: a.refusal, values: there(a.found, vec![a.value.into()]), state }
}

pub fn split(a: calls::SplitAnswer) -> Answer {
    let lengths = [a.prefix_len, a.bulk_start, a.bulk_len].map(|length| length as u64);
    let values = [&[a.prefix], &lengths[..], &[a.suffix, a.suffix_len as u64]].concat();
    Answer { refusal: a.refusal, values: there(a.refusal == 0, values), state: State::None }
}

pub fn spans(a: calls::SpansAnswer) -> Answer {
    answer(a.refusal, &[a.first_start, a.first_length, a.second_start, a.second_length], State::None)
}

pub fn built(a: calls::BuilderAnswer) -> Answer {
    answer(a.refusal, &[], builder_state(a.builder))
}

pub fn builder_state(b: calls::Builder) -> State {
    State::Builder(Builder { length: b.length, word: b.word, ones: b.ones, serial: 0 })
}

/// Returns the answer of a call that makes a mask: no mask after a refusal.
pub fn made(a: calls::MaskAnswer) -> Answer {
    validity(calls::ValidityAnswer { refusal: a.refusal, present: a.refusal == 0, mask: a.mask })
}

pub fn validity(a: calls::ValidityAnswer) -> Answer {
    if a.present {
        return answer(a.refusal, &[], mask_state(a.mask));
    }
    assert_eq!(a.mask, calls::Mask::default(), "a mask where there is none");
    answer(a.refusal, &[], State::None)
}

pub fn new_mask(mask: calls::Mask) -> Answer {
    answer(0, &[], mask_state(mask))
}

/// Returns the mask after a call that changes `came`. After a refusal its record must be unchanged, what was not read of it included.
fn kept(refusal: u8, came: Mask, gave: calls::Mask) -> State {
    if refusal == 0 {
        return mask_state(gave);
    }
    assert_eq!(gave, mask(came), "not the record that came");
    State::Mask(came)
}

pub fn sliced(came: Mask, call: impl Fn(calls::Mask) -> calls::MaskAnswer) -> Answer {
    let a = call(mask(came));
    answer(a.refusal, &[], kept(a.refusal, came, a.mask))
}

pub fn counted(came: Mask, call: impl Fn(calls::Mask) -> calls::ZerosAnswer) -> Answer {
    let a = call(mask(came));
    answer(a.refusal, &[a.zeros], kept(a.refusal, came, a.mask))
}

/// Returns the answer of a call that makes a cursor: no cursor after a refusal.
pub fn new_cursor(a: calls::CursorAnswer) -> Answer {
    if a.refusal == 0 {
        return answer(0, &[], cursor_state(a.cursor));
    }
    assert_eq!(a.cursor, calls::Cursor::default(), "a cursor where there is none");
    answer(a.refusal, &[], State::None)
}

/// Returns the answer of a step whose number is in `value`; `count` is not used.
pub fn step(a: calls::Step) -> Answer {
    assert_eq!(a.count, 0, "a count where there is none");
    Answer { refusal: a.refusal, values: there(a.found, vec![a.value]), state: cursor_state(a.cursor) }
}

/// Returns the answer of a step with both numbers: a run.
pub fn run(a: calls::Step) -> Answer {
    Answer { refusal: a.refusal, values: there(a.found, vec![a.value, a.count as u64]), state: cursor_state(a.cursor) }
}

/// Returns the answer of a step whose number is in `count`; `value` is not used.
pub fn taken(a: calls::Step) -> Answer {
    assert_eq!(a.value, 0, "a value where there is none");
    Answer { refusal: a.refusal, values: there(a.found, vec![a.count as u64]), state: cursor_state(a.cursor) }
}

/// Returns the remainder. The call moves no cursor; by the reference it returns the cursor only with a refusal.
pub fn remainder(a: calls::Step) -> Answer {
    if a.refusal != 0 {
        return run(a);
    }
    Answer { state: State::None, ..run(a) }
}
