//! An independent second implementation of the rule engine.
//!
//! Expressions are trees; an event rewrites a tree by the rules of the paper's figures 3, 4 and 5.
//! Nothing here is fast or clever. It exists to be compared with another engine.
//!
//! In the reader's order:
//! * what the engine speaks of: [`number`], [`status`], [`construct`], [`tree`];
//! * what an event does: [`figures`];
//! * the two files: [`records`], [`expression_file`], [`pair_file`];
//! * what is done with them: [`rule`], [`feed`], [`desk`], [`proposal`], [`printer`];
//! * inputs to compare on: [`random`], [`examples`], [`generate`], [`cases`], [`worked`];
//! * the comparison with another engine: [`compare`].

pub mod number;
pub mod status;

pub mod construct;
pub mod tree;

pub mod figures;

pub mod records;

pub mod expression_file;
pub mod pair_file;

pub mod rule;

pub mod desk;
pub mod feed;
pub mod printer;
pub mod proposal;

pub mod examples;
pub mod random;

pub mod cases;
pub mod generate;

pub mod hex;

pub mod worked;

pub mod compare;
