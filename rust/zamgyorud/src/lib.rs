//! Zamgyorud, a proved lock manager, from Rust.
//!
//! The manager itself is the library `libzamgyorud.a`, whose every entry is proved. This crate is a thin and safe cover: [`Tables`] owns the
//! words and slots that the library works on, and gives its answers as types. [`raw`] has the C interface over slices,
//! [`layout`] their lengths and what stands where.
//!
//! ```
//! use zamgyorud::{Completion, Flags, Mode, Outcome, Refusal, Tables};
//!
//! fn main() -> Result<(), Refusal> {
//!     let mut tables = Tables::start(4, 8)?;
//!     // Unit 1 takes an address, unit 2 queues up for it.
//!     let (outcome, first) = tables.request(1, Mode::Ex, Flags::NONE, b"vip-7")?;
//!     assert_eq!(outcome, Outcome::Granted);
//!     let (outcome, second) = tables.request(2, Mode::Ex, Flags::NONE, b"vip-7")?;
//!     assert_eq!(outcome, Outcome::Waiting);
//!     // Unit 1 is told that its lock is in the way of somebody who asks for EX.
//!     let notice = tables.poll(1)?.expect("a notice");
//!     assert_eq!((notice.lock, notice.mark), (first, Some(Mode::Ex)));
//!     // Unit 1 is lost: unit 2 has the address, and is told so.
//!     tables.purge(1)?;
//!     let notice = tables.poll(2)?.expect("a notice");
//!     assert_eq!((notice.lock, notice.completion), (second, Some(Completion::Granted)));
//!     print!("{tables}");
//!     Ok(())
//! }
//! ```
#![warn(missing_docs)]

mod answers;
pub mod layout;
pub mod raw;
mod shown;
mod tables;

pub use answers::{Cancelled, Completion, Entry, Flags, Mode, Notice, Outcome, Purged, Queue, Refusal, Value};
pub use shown::{Lock, Resource};
pub use tables::{Tables, holder};
