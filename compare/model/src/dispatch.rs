//! Whether a truck may be reassigned.

use crate::combine::and_not_at;
use crate::{Answer, Lent};

/// Returns flag `truck` of the permission and not flag `truck` of the revocation; an absent revocation takes nothing away. With no
/// permission mask the answer is no, after the checks of a revocation mask, if any, have passed.
pub fn may_reassign(permission: Option<Lent>, revocation: Option<Lent>, truck: usize) -> Answer {
    let answer = and_not_at(permission, revocation, truck);
    if permission.is_none() && answer.refusal == 0 { Answer::values([0]) } else { answer }
}
