//! The combinations: flag by flag into frozen bytes. A public function without a comment models the call of its name.

use crate::mask::zero_count;
use crate::{Answer, Checks, Lent, Mask, State, flag_at, write_frozen};

/// The combinations of two masks, in the order of the interface's numbers.
#[derive(Clone, Copy, Debug, PartialEq, Eq)]
pub enum Op {
    And,
    AndNot,
    Or,
    OrNot,
    Xor,
}

impl Op {
    /// Applies the operation to two flags.
    pub fn flag(self, left: bool, right: bool) -> bool {
        match self {
            Op::And => left && right,
            Op::AndNot => left && !right,
            Op::Or => left || right,
            Op::OrNot => left || !right,
            Op::Xor => left != right,
        }
    }

    /// Returns the flag that a shortcut fills the result with, chosen by the zero counts of the masks; none if no shortcut applies.
    fn shortcut(self, lhs: Lent, rhs: Lent) -> Option<bool> {
        let length = lhs.mask.length;
        let counts = || (zero_count(lhs), zero_count(rhs));
        match self {
            Op::And => {
                let (left, right) = counts();
                (left == length || right == length).then_some(false)
            }
            Op::Or => {
                let (left, right) = counts();
                (left == 0 || right == 0).then_some(true)
            }
            Op::Xor => match counts() {
                (left, right) if left == right && (left == 0 || left == length) => Some(false),
                (left, right) if (left == 0 && right == length) || (left == length && right == 0) => Some(true),
                _ => None,
            },
            Op::AndNot | Op::OrNot => None,
        }
    }
}

/// Makes the checks of masks combined, 1, 2, 3, 5 and 9, and writes the result. `flags` returns the result's flags and whether a shortcut
/// of `and` or `xor` made all of them zero.
fn combined(masks: &[Lent], out: &mut [u8], flags: impl FnOnce() -> (Vec<bool>, bool)) -> Answer {
    let length = masks[0].mask.length;
    let mut checks = Checks::default();
    for lent in masks {
        checks = checks.mask(*lent).check(5, lent.mask.length == length);
    }
    checks.holds(out, length as u128).answer(State::None, || {
        let (flags, all_zero) = flags();
        write_frozen(&flags, out);
        let zeros = if all_zero || length == 0 { Some(length) } else { None };
        let serial = masks.iter().map(|lent| lent.mask.serial).max().unwrap_or(0);
        Answer::record(State::Mask(Mask { start: 0, length, zeros, serial }))
    })
}

/// Combines two masks under `op`.
pub fn combine(op: Op, lhs: Lent, rhs: Lent, out: &mut [u8]) -> Answer {
    combined(&[lhs, rhs], out, || match op.shortcut(lhs, rhs) {
        Some(constant) => (vec![constant; lhs.mask.length], !constant),
        None => (lhs.flags().into_iter().zip(rhs.flags()).map(|(left, right)| op.flag(left, right)).collect(), false),
    })
}

pub fn not(lent: Lent, out: &mut [u8]) -> Answer {
    combined(&[lent], out, || (lent.flags().into_iter().map(|flag| !flag).collect(), false))
}

pub fn select(selector: Lent, truthy: Lent, falsy: Lent, out: &mut [u8]) -> Answer {
    combined(&[selector, truthy, falsy], out, || {
        let choices = truthy.flags().into_iter().zip(falsy.flags());
        (selector.flags().into_iter().zip(choices).map(|(by, (yes, no))| if by { yes } else { no }).collect(), false)
    })
}

pub fn select_constant(selector: Lent, truthy: Lent, flag: bool, out: &mut [u8]) -> Answer {
    combined(&[selector, truthy], out, || {
        (selector.flags().into_iter().zip(truthy.flags()).map(|(by, yes)| if by { yes } else { flag }).collect(), false)
    })
}

/// Returns the flag of `and_not` at one index: that of the first mask and not that of the second. An absent first mask is all ones, an
/// absent second one all zeros. With one mask check 5 is not made, with none no check is.
pub fn and_not_at(first: Option<Lent>, second: Option<Lent>, index: usize) -> Answer {
    let mut checks = Checks::default();
    for lent in first.iter().chain(&second) {
        checks = checks.mask(*lent).check(6, index < lent.mask.length);
    }
    if let (Some(first), Some(second)) = (first, second) {
        checks = checks.check(5, first.mask.length == second.mask.length);
    }
    let flag = |lent: Lent| flag_at(lent.bytes, lent.mask.start + index);
    checks.answer(State::None, || Answer::values([usize::from(first.is_none_or(flag) && !second.is_some_and(flag))]))
}
