//! Replaces `either`: only the type that `Bitmap::into_mut` returns. Nothing is assumed of it.

pub enum Either<L, R> {
    Left(L),
    Right(R),
}
