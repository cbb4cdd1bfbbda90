//! Generators of inputs.
//!
//! * [`trees`]: random expressions; [`rules`]: random files of records with sharing;
//! * [`limits`]: files at the edges of what is allowed; [`damage`]: files made faulty;
//! * [`feeds`]: rules with events and a buffer, and inputs for the printer; [`busy`]: rules that
//!   go on answering;
//! * [`closing`]: the pairs that close a claim; [`equations`]: true proposals; [`renumber`]: their
//!   records in another order; [`spoil`]: false proposals.

pub mod busy;
pub mod closing;
pub mod damage;
pub mod equations;
pub mod feeds;
pub mod limits;
pub mod renumber;
pub mod rules;
pub mod spoil;
pub mod trees;
