//! The comparison: requests, the three sides that answer them, and what may differ.

pub mod choices;
pub mod compare;
pub mod damage;
pub mod generate;
pub mod history;
pub mod listed;
pub mod ours;
pub mod request;
pub mod short;
pub mod style;
pub mod table;
pub mod theirs;
pub mod wide;
