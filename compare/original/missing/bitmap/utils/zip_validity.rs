//! `utils/mod.rs` exports these names; none of the original's files uses them. Nothing is assumed of them.

pub struct ZipValidity;

pub struct ZipValidityIter;
