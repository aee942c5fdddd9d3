//! Operators on masks and borrowed masks, compared with the methods; and what they panic with.

use std::cell::RefCell;
use std::panic::{self, AssertUnwindSafe, Location};
use std::sync::Once;

use poruwhina::{Bitmap, BitmapBuilder, Refusal};

use crate::lists::patterns;
use crate::mask_at;

/// Checks one operator with owned and borrowed masks on both sides, and its two assignments.
macro_rules! check {
    ($a:ident $operator:tt $b:ident, $assign:tt, $method:ident) => {{
        let expected = $a.$method(&$b).unwrap();
        let results = [&$a $operator &$b, $a.clone() $operator &$b, &$a $operator $b.clone(), $a.clone() $operator $b.clone()];
        let (mut borrowed, mut owned) = ($a.clone(), $a.clone());
        borrowed $assign &$b;
        owned $assign $b.clone();
        for result in results.iter().chain([&borrowed, &owned]) {
            assert_eq!((result, result.serial()), (&expected, expected.serial()));
        }
    }};
}

#[test]
fn every_operator_does_what_its_method_does() {
    for length in [0, 1, 8, 63, 64, 65, 130] {
        for left in patterns(length) {
            for (start, right) in patterns(length).iter().enumerate() {
                let (a, b) = (mask_at(&left, 3).with_serial(4), mask_at(right, start).with_serial(9));
                check!(a & b, &=, and);
                check!(a | b, |=, or);
                check!(a ^ b, ^=, xor);
                check!(a - b, -=, and_not);
                assert_eq!((!a.clone(), !&a), (a.not(), a.not()));
            }
        }
    }
}

thread_local! {
    /// Where the last panic of this thread was, and its message.
    static LAST: RefCell<Option<(String, u32, String)>> = const { RefCell::new(None) };
}

/// Runs what panics, and returns the file and the line that the panic names, and its message.
fn panic_of(run: impl FnOnce()) -> (String, u32, String) {
    static HOOK: Once = Once::new();
    HOOK.call_once(|| {
        let shown = panic::take_hook();
        panic::set_hook(Box::new(move |info| {
            let at = info.location().expect("a panic has a place");
            let message = info.payload().downcast_ref::<String>().cloned().unwrap_or_default();
            LAST.set(Some((at.file().to_owned(), at.line(), message)));
            shown(info);
        }));
    });
    assert!(panic::catch_unwind(AssertUnwindSafe(run)).is_err(), "it does not panic");
    LAST.take().expect("the hook was called")
}

/// Returns the file and the line of its caller.
#[track_caller]
fn here() -> (String, u32) {
    let at = Location::caller();
    (at.file().to_owned(), at.line())
}

/// Checks that a statement panics at its own line, with this message.
macro_rules! panics {
    ($message:expr, $statement:expr) => {{
        let (place, (file, line, message)) = (here(), panic_of(|| _ = $statement));
        assert_eq!((file, line), place);
        assert_eq!(message, $message);
    }};
}

const UNEQUAL: &str =
    "refused with 5: the masks combined, or a mask and the length stated for it, are not equal in length: 40 and 38 flags";

#[test]
fn a_panic_names_the_callers_line_and_both_lengths() {
    let (a, b) = (Bitmap::ones(40).unwrap(), Bitmap::ones(38).unwrap());
    panics!(UNEQUAL, &a & &b);
    panics!(UNEQUAL, &a | &b);
    panics!(UNEQUAL, &a ^ &b);
    panics!(UNEQUAL, &a - &b);
    panics!(UNEQUAL, a.clone() & &b);
    panics!(UNEQUAL, &a & b.clone());
    panics!(UNEQUAL, a.clone() & b.clone());
    let mut mask = a.clone();
    panics!(UNEQUAL, mask &= &b);
    panics!(UNEQUAL, mask -= b.clone());
    assert_eq!(mask, a, "unchanged");
    panics!("no flag 40 in a mask of 40 flags", a[40]);
    let above = vec![true; Bitmap::LIMIT + 1];
    let limit = "refused with 1: a start or a length is above 4,194,304";
    panics!(limit, Bitmap::from(&above));
    panics!(limit, BitmapBuilder::new().extend(&above));
    panics!(limit, BitmapBuilder::new().extend(above.iter().copied()));
}

#[test]
fn a_refusal_says_both_lengths() {
    let (a, b) = (Bitmap::ones(40).unwrap(), Bitmap::ones(38).unwrap());
    let refused = a.same_length(&b).unwrap_err();
    assert_eq!((refused.refusal, refused.left, refused.right), (Refusal::UnequalLengths, 40, 38));
    assert_eq!(refused.to_string(), UNEQUAL);
    assert_eq!(b.same_length(&a).unwrap_err(), Refusal::UnequalLengths.with_lengths(38, 40));
    for length in [0, 1, 64, Bitmap::LIMIT] {
        let mask = Bitmap::ones(length).unwrap();
        assert_eq!(mask.same_length(&Bitmap::new_zeroed(length).unwrap()), Ok(()));
        assert_eq!(mask.same_length(&a).is_ok(), length == 40);
    }
    let passed_on = || -> Result<(), Refusal> { Ok(a.same_length(&b)?) };
    assert_eq!(passed_on(), Err(Refusal::UnequalLengths));
    let boxed: Box<dyn std::error::Error + Send + Sync> = refused.into();
    assert_eq!(boxed.to_string(), UNEQUAL);
}

#[test]
fn an_index_is_a_flag() {
    let flags = &patterns(130)[2];
    let mask = mask_at(flags, 5);
    assert!((0..130).all(|i| mask[i] == flags[i]));
}
