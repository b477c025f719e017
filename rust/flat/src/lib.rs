//! The lock manager of document 01, with document 02's, in plain Rust, on the same flat tables and with the same check of them
//! first in each call.
//!
//! It is what a careful engineer would write for speed without proofs: the benchmark's opponent. All state is in the lent words and slots.
//! Refusals are the paper's numbers.
#![forbid(unsafe_code)]
#![warn(missing_docs)]

mod calls;
mod deadlock;
mod held;
mod image;
pub mod layout;
mod modes;
mod queues;
mod sound;

pub use calls::{break_deadlock, cancel, convert, list, poll, purge, read, release, request, start};
pub use image::{holder, image, load};
pub use sound::sound;

/// The number of a refusal, 1 to 14.
pub type Refused = u32;
