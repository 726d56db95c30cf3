//! Outlines, their polygons and the records of these, by `docs/RULES.md` and `docs/FORMAT.md`, in
//! ordinary Rust.

pub mod calls;
pub mod closest;
pub mod coding;
pub mod fraction;
pub mod inputs;
pub mod listing;
pub mod measure;
pub mod outline;
pub mod random;
pub mod records;
pub mod refusal;
pub mod search;
