//! Replaces `hashbrown`: `trusted_len.rs` names its map's iterator and never makes one. The standard one is used instead.

pub mod hash_map {
    pub use std::collections::hash_map::IntoIter;
}
