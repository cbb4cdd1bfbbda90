//! A fixed sequence of file cases, and the answers to them as lines of text.
//!
//! * [`swap`]: the swap file and a small pair file, cut and changed;
//! * [`faults`]: one fault alone; [`orders`]: two faults in one record;
//! * [`layout`]: kinds, lengths, byte order; [`limits`]: counts and sizes;
//! * [`at_random`]: valid files, damaged files, any bytes.

use crate::expression_file;
use crate::number::Number;
use crate::pair_file::{self, Pair};
use crate::rule::LARGEST_RUNNING_SIZE;

pub mod at_random;
pub mod faults;
pub mod layout;
pub mod limits;
pub mod orders;
pub mod swap;

/// An expression file and a pair file that is read beside it.
#[derive(Clone, Debug, PartialEq, Eq)]
pub struct Case {
    pub expression_file: Vec<u8>,
    pub pair_file: Vec<u8>,
}

/// Cases of one sort.
pub struct Group {
    pub name: &'static str,
    pub cases: Vec<Case>,
}

/// A file made for one number. The reader must agree, which the tests see to.
pub type Expected = (Number, Vec<u8>);

/// All groups, always the same.
pub fn groups() -> Vec<Group> {
    let mut groups = Vec::new();
    groups.extend(swap::groups());
    groups.extend(faults::groups());
    groups.extend(orders::groups());
    groups.extend(layout::groups());
    groups.extend(limits::groups());
    groups.extend(at_random::groups());
    groups
}

/// Cases about the expression file, each beside a small pair file.
fn about_expressions(name: &'static str, files: Vec<Expected>) -> Group {
    let pairs = [(0, 0), (1, 0)].map(|(left, right)| Pair { left, right });
    let cases = files.into_iter().map(|(_, expression_file)| Case {
        expression_file,
        pair_file: pair_file::write(&pairs),
    });
    Group {
        name,
        cases: cases.collect(),
    }
}

/// Cases about the pair file, each beside the swap file.
fn about_pairs(name: &'static str, files: Vec<Expected>) -> Group {
    let cases = files.into_iter().map(|(_, pair_file)| Case {
        expression_file: crate::examples::swap_file(),
        pair_file,
    });
    Group {
        name,
        cases: cases.collect(),
    }
}

/// Each file behind its length in four bytes, little-endian.
pub fn write_sequence(groups: &[Group]) -> Vec<u8> {
    let mut bytes = Vec::new();
    for case in groups.iter().flat_map(|group| &group.cases) {
        for file in [&case.expression_file, &case.pair_file] {
            bytes.extend((file.len() as u32).to_le_bytes());
            bytes.extend(file);
        }
    }
    bytes
}

/// The cases of a sequence; nothing if the bytes end in the middle of one.
pub fn read_sequence(mut bytes: &[u8]) -> Option<Vec<Case>> {
    let mut cases = Vec::new();
    while !bytes.is_empty() {
        let expression_file = take_file(&mut bytes)?;
        let pair_file = take_file(&mut bytes)?;
        cases.push(Case {
            expression_file,
            pair_file,
        });
    }
    Some(cases)
}

fn take_file(bytes: &mut &[u8]) -> Option<Vec<u8>> {
    let (length, rest) = bytes.split_first_chunk::<4>()?;
    let length = usize::try_from(u32::from_le_bytes(*length)).ok()?;
    let (file, rest) = rest.split_at_checked(length)?;
    *bytes = rest;
    Some(file.to_vec())
}

/// `rule NUMBER PLACE COUNT SIZE` and, behind an accepted rule file, `pairs NUMBER PLACE COUNT`.
pub fn answer(case: &Case) -> String {
    let expressions = expression_file::read(&case.expression_file);
    let accepted = expressions.number.is_accepted();
    let size = if accepted {
        // One number stands for every size that is too large to run.
        expression_file::rule_size(&expressions.records).min(LARGEST_RUNNING_SIZE + 1)
    } else {
        0
    };
    let mut text = format!(
        "rule {} {} {} {}\n",
        expressions.number,
        expressions.place,
        expressions.count(),
        size
    );
    if accepted {
        let pairs = pair_file::read(&case.pair_file, expressions.count());
        text.push_str(&format!(
            "pairs {} {} {}\n",
            pairs.number,
            pairs.place,
            pairs.count()
        ));
    }
    text
}

/// The lines of all cases, one after the other.
pub fn answers(cases: &[Case]) -> String {
    cases.iter().map(answer).collect()
}
