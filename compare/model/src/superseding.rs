//! The later revocation wins: the mask with the larger serial of two masks of one operator, and the part of its bytes that holds it.

use crate::{Answer, Checks, Lent, Mask, State};

/// The winner: whether it is the second mask, the part of its bytes, and its record over that part.
pub struct Won {
    pub second: bool,
    pub from: usize,
    pub to: usize,
    pub mask: Mask,
}

/// Makes checks 1, 2 and 3 of both masks and 14, equal serials have equal lists, and returns the winner.
fn won(first: Lent, second: Lent) -> Result<Won, u8> {
    let checks = Checks::default().mask(first).mask(second);
    let same = || first.mask.length == second.mask.length && first.flags() == second.flags();
    let agree = !checks.passed() || first.mask.serial != second.mask.serial || same();
    let answer = checks.check(14, agree).answer(State::None, || Answer::record(State::None));
    if answer.refusal != 0 {
        return Err(answer.refusal);
    }
    let later = second.mask.serial > first.mask.serial;
    let mask = if later { second.mask } else { first.mask };
    let from = mask.start / 8;
    let to = (mask.start + mask.length).div_ceil(8);
    Ok(Won { second: later, from, to, mask: Mask { start: mask.start % 8, ..mask } })
}

/// Returns an answer with only a refusal.
fn refused(number: u8) -> Answer {
    Answer { refusal: number, values: Vec::new(), state: State::None }
}

/// Returns whether the winner is the second mask, the first byte and the end of its part, and its record over that part.
pub fn superseding_part(first: Lent, second: Lent) -> Answer {
    match won(first, second) {
        Ok(Won { second, from, to, mask }) => Answer::given([second.into(), from, to], State::Mask(mask)),
        Err(number) => refused(number),
    }
}

/// Returns the record of the winner over its part of the bytes.
pub fn superseding(first: Lent, second: Lent) -> Answer {
    match won(first, second) {
        Ok(Won { mask, .. }) => Answer::record(State::Mask(mask)),
        Err(number) => refused(number),
    }
}

/// Returns the winner's part of its bytes; after a refusal an empty part of the first slice.
pub fn superseding_bytes<'a>(first: Lent<'a>, second: Lent<'a>) -> &'a [u8] {
    match won(first, second) {
        Ok(Won { second: later, from, to, .. }) => &(if later { second.bytes } else { first.bytes })[from..to],
        Err(_) => &first.bytes[..0],
    }
}
