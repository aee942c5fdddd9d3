//! Replaces `polars-error`: an error that holds its text, and the macro that returns one.
//!
//! Assumed: `polars_bail!(Kind: text)` returns the error from the function at once.

#[derive(Debug)]
pub struct PolarsError(pub String);

pub type PolarsResult<T> = Result<T, PolarsError>;

#[macro_export]
macro_rules! polars_bail {
    ($kind:ident: $($text:tt)*) => {
        return Err($crate::PolarsError(format!("{}: {}", stringify!($kind), format_args!($($text)*))))
    };
}
