//! The pair file.

use crate::number::Number;
use crate::records::{self, body_of, two_bytes, Layout, Reading};

/// Two record numbers of the expression file.
#[derive(Clone, Copy, Debug, PartialEq, Eq, Hash)]
pub struct Pair {
    pub left: u16,
    pub right: u16,
}

pub const MOST_PAIRS: usize = 256;
pub const PAIR_KIND: u16 = 16;
pub const PAIR_LENGTH: usize = 8;

/// Reads a pair file beside an expression file that has so many records.
pub fn read(file: &[u8], expression_count: usize) -> Reading<Pair> {
    records::read(&PairFile { expression_count }, file)
}

struct PairFile {
    expression_count: usize,
}

impl Layout for PairFile {
    type Record = Pair;

    fn limit(&self) -> usize {
        MOST_PAIRS
    }

    fn length_of(&self, kind: u16) -> Option<usize> {
        (kind == PAIR_KIND).then_some(PAIR_LENGTH)
    }

    fn take(&self, _kind: u16, body: &[u8], _earlier: &[Pair]) -> Result<Pair, Number> {
        let pair = Pair {
            left: two_bytes(body, 0),
            right: two_bytes(body, 2),
        };
        let is_there = |number: u16| usize::from(number) < self.expression_count;
        if is_there(pair.left) && is_there(pair.right) {
            Ok(pair)
        } else {
            Err(Number::PairNamesNoRecord)
        }
    }
}

/// The bytes of a file with these pairs, sound or not.
pub fn write(pairs: &[Pair]) -> Vec<u8> {
    pairs.iter().flat_map(write_pair).collect()
}

pub fn write_pair(pair: &Pair) -> Vec<u8> {
    records::record(PAIR_KIND, &body_of(&[pair.left, pair.right]))
}
