//! One request made of the library, the model and the original, and their answers compared.

use crate::listed::{Listed, Met};
use crate::request::{Bytes, Request};
use crate::table::Call;
use crate::theirs::{self, Outcome, Theirs};
use model::{Answer, Cursor, State};
use std::panic::{AssertUnwindSafe, catch_unwind};

/// The counts of one call: how many requests were compared.
#[derive(Clone, Copy, Debug, Default)]
pub struct Counts {
    pub requests: u64,
    /// The number of refused requests, by check.
    pub refused: [u64; 10],
    /// The number of requests that the original answered too.
    pub theirs: u64,
}

/// A difference that is on no list: which side differs from the library, and how.
#[derive(Debug)]
pub struct Difference(pub String);

/// Runs the work and returns a panic of any side as a difference.
pub fn guarded<T>(work: impl FnOnce() -> Result<T, Difference>) -> Result<T, Difference> {
    catch_unwind(AssertUnwindSafe(work)).unwrap_or_else(|panic| {
        let text = panic.downcast_ref::<String>().cloned();
        let text = text.or_else(|| panic.downcast_ref::<&str>().map(|text| text.to_string()));
        Err(Difference(format!("a panic: {}", text.unwrap_or_default())))
    })
}

/// Returns the bytes as hexadecimal digits; of more than 160, only the first and the last 64.
pub fn hex(bytes: &[u8]) -> String {
    let digits = |bytes: &[u8]| bytes.iter().map(|byte| format!("{byte:02x}")).collect::<String>();
    match bytes.len() {
        0..=160 => digits(bytes),
        many => format!("{}..{} ({many} bytes)", digits(&bytes[..64]), digits(&bytes[many - 64..])),
    }
}

fn unequal(side: &str, ours: impl std::fmt::Debug, other: impl std::fmt::Debug) -> Difference {
    Difference(format!("ours  {ours:?}\n{side} {other:?}"))
}

/// Returns the library's answer and output if all sides agree, else the difference.
pub fn compare(call: &Call, request: &Request, counts: &mut Counts, met: &mut Met) -> Result<(Answer, Bytes), Difference> {
    let lent = request.clone();
    let mut out = request.out.clone();
    let ours = (call.ours)(&lent, &mut out);
    if lent != *request {
        return Err(Difference("a byte lent for reading was written".to_string()));
    }
    if out.outside() != request.out.outside() {
        return Err(Difference("a byte outside of the output was written".to_string()));
    }
    let mut model_out = request.out.clone();
    let model = (call.model)(request, &mut model_out);
    if ours != model {
        return Err(unequal("model", ours, model));
    }
    if out != model_out {
        return Err(unequal("model", hex(&out), hex(&model_out)));
    }
    counts.requests += 1;
    if model.refusal != 0 {
        counts.refused[usize::from(model.refusal)] += 1;
    }
    if let (Theirs::Cursor(step, all), 0) = (&call.theirs, model.refusal) {
        let mut cursor = Stepped { answer: ours.clone(), bytes: request.bytes(), step: *step, listed: Ok(0) };
        all(request, met, &mut |values| cursor.gives(values));
        cursor.gives(&[]);
        cursor.listed?;
        counts.theirs += 1;
    } else if let Some(outcome) = ask_original(call, request, model.refusal, met) {
        agree(&ours, &request.out, &out, &outcome)?;
        counts.theirs += 1;
    }
    Ok((ours, out))
}

/// Returns the original's answer, if it is asked and defines one.
fn ask_original(call: &Call, request: &Request, refusal: u8, met: &mut Met) -> Option<Outcome> {
    if let Theirs::Refusing(answer) = call.theirs {
        return answer(request, refusal, met);
    }
    if refusal != 0 {
        return None;
    }
    let builder = || theirs::builder(request.builder, &request.out);
    match call.theirs {
        Theirs::Answer(answer) => answer(request, met),
        Theirs::Append(append) => builder().map(|mut builder| {
            append(request, &mut builder);
            theirs::built(builder)
        }),
        Theirs::Finish(finish) => builder().map(|builder| match finish(builder) {
            Some(bitmap) => theirs::result(&bitmap, met),
            None => Outcome::default().record(State::None),
        }),
        Theirs::Combine(combine) => {
            let masks: Vec<_> = request.pieces[..call.shape.pieces].iter().map(|piece| theirs::bitmap(piece.lent())).collect();
            let bitmap = combine(request, &masks);
            if masks.iter().zip(&request.pieces).any(|(mask, piece)| mask.lazy_unset_bits() != piece.mask.zeros) {
                met.note(Listed::CachedCount);
            }
            Some(theirs::result(&bitmap, met))
        }
        Theirs::Absent | Theirs::Refusing(_) | Theirs::Cursor(..) => None,
    }
}

/// Compares the library's answer with the original's, and the output: what the original writes, and after it the bytes of before.
fn agree(ours: &Answer, before: &[u8], after: &[u8], theirs: &Outcome) -> Result<(), Difference> {
    let same_record = theirs.record.is_none_or(|record| record == ours.state);
    if ours.refusal != theirs.refusal || ours.values != theirs.values || !same_record {
        return Err(unequal("original", ours, theirs));
    }
    if let Some(written) = &theirs.written {
        let expected = [&written[..], &before[written.len()..]].concat();
        if after != expected {
            return Err(unequal("original", hex(after), hex(&expected)));
        }
    }
    Ok(())
}

/// Our cursor, whose answers are compared with the original's one by one.
struct Stepped<'a> {
    /// The last answer, with the cursor after it.
    answer: Answer,
    bytes: &'a [u8],
    step: fn(Cursor, &[u8]) -> Answer,
    listed: Result<usize, Difference>,
}

impl Stepped<'_> {
    /// Checks that our next answer is this one; no numbers mean the end.
    fn gives(&mut self, theirs: &[u64]) {
        let (Ok(listed), State::Cursor(cursor)) = (&mut self.listed, self.answer.state) else {
            return;
        };
        self.answer = (self.step)(cursor, self.bytes);
        *listed += 1;
        if self.answer.refusal != 0 || self.answer.values != theirs {
            self.listed = Err(unequal("original", (*listed, cursor, &self.answer), theirs));
        }
    }
}
