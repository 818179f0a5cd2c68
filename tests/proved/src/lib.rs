//! The proved library behind the trait that the replay program drives.
//!
//! Each call passes the lent slices on as they stand; nothing is judged here.

mod calls;
mod lines;

pub use calls::{status_out, ProvedEngine};
