//! The next flag that is set in one mask and not in another, and the truck that dispatch offers: window by window, flag by flag.

use crate::checks::Checks;
use crate::{Answer, Lent, State};

/// Returns the position, if there is one, and after it the number of windows read.
pub fn next_and_not(first: Lent, second: Option<Lent>, from: usize) -> Answer {
    let length = first.mask.length;
    let mut checks = Checks::default().mask(first).check(6, from <= length);
    if let Some(second) = second {
        checks = checks.mask(second).check(5, length == second.mask.length);
    }
    checks.answer(State::None, || {
        let mut free = first.flags();
        if let Some(second) = second {
            free.iter_mut().zip(second.flags()).for_each(|(flag, taken)| *flag &= !taken);
        }
        let (position, windows) = round(&free, from);
        Answer::values(position.into_iter().chain([windows]))
    })
}

/// Returns the first set flag at or after `from`, else the first before it, and the number of windows read. Windows begin at `from` and
/// every 32 flags below the length, then at 0 and every 32 flags below `from`.
fn round(free: &[bool], from: usize) -> (Option<usize>, usize) {
    let mut read = 0;
    for start in (from..free.len()).step_by(32).chain((0..from).step_by(32)) {
        read += 1;
        let end = free.len().min(start + 32);
        if let Some(position) = (start..end).find(|&position| free[position]) {
            return (Some(position), read);
        }
    }
    (None, read)
}

/// Returns the truck, if there is one, the cursor for the next call and the number of windows read; after a refusal, the cursor.
pub fn offer(permission: Option<Lent>, revocation: Option<Lent>, cursor: usize) -> Answer {
    let answer = match (permission, revocation) {
        (Some(permission), _) => next_and_not(permission, revocation, cursor),
        (None, Some(revocation)) => Checks::default().mask(revocation).answer(State::None, || Answer::values([0])),
        (None, None) => Answer::values([0]),
    };
    let values = match (answer.refusal, &answer.values[..]) {
        (0, [truck, windows]) => vec![*truck, truck + 1, *windows],
        (0, [windows]) => vec![cursor as u64, *windows],
        _ => vec![cursor as u64],
    };
    Answer { values, ..answer }
}
