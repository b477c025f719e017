//! An independent model of the lock manager of document 01, with what document 02 has added to it so far.
//!
//! It is written from the papers alone and made to be read beside them, not to be fast. A [`State`] is a value of its own form: maps of the
//! records in use and queues of record numbers. [`State::to_tables`] writes out every word and slot that the paper prescribes for it, and
//! [`State::from_tables`] reads tables back, which decides whether they are sound. The [`entries`] are the paper's calls over lent tables:
//! read the state back, make the call on it, write it out. [`lockplay`] is the paper's program, [`layout`] where things stand in the tables.
#![forbid(unsafe_code)]
#![warn(missing_docs)]

mod calls;
mod deadlock;
pub mod entries;
pub mod layout;
pub mod lockplay;
mod mode;
mod refused;
mod state;
mod tables;

pub use calls::{Answer, Entry, Polled, Purged};
pub use mode::Mode;
pub use refused::Refused;
pub use state::{Lock, Resource, Standing, State, Unread};
pub use tables::Flaw;
