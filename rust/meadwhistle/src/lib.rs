//! Meadwhistle, the rule engine under an on-call scheduler, over its C interface.
//!
//! A rule takes events, one byte each, and answers each with the recipients to notify and a [`Status`]. Rules come as bytes, in
//! the layout of the engine's rule files; any bytes whatever are allowed, and those that are no rule get a [`Refusal`].
//!
//! ```
//! use meadwhistle::Desk;
//!
//! let rule = std::fs::read("../../examples/swap.rule")?;
//! let mut desk = Desk::new();
//! desk.open(&rule)?;
//! for event in *b"oac" {
//!     for recipient in desk.step(event)?.notices {
//!         println!("page recipient {recipient}");
//!     }
//! }
//! # Ok::<(), Box<dyn std::error::Error>>(())
//! ```
//!
//! A [`Desk`] takes events one by one, [`run`] a whole feed, [`judge`] says whether two rules behave alike, and [`print()`] gives
//! the printer's text. The engine keeps no state but the desk, so all of these may run side by side.
//!
//! Building needs the engine's static library, which `./build archive` proves and writes; the variable `MEADWHISTLE_LIB`
//! names one that doesn't stand in this repository's `target/`. What is proved is the library; this crate is tested.

mod desk;
mod feed;
mod ffi;
mod notices;
mod printout;
mod proposal;
mod refusal;
mod status;

pub use desk::{Answer, Desk};
pub use feed::{run, Record};
pub use notices::{Notices, Recipients};
pub use printout::print;
pub use proposal::{judge, Rejection, Shown};
pub use refusal::{Refusal, Unlisted};
pub use status::Status;
