//! The expression file.

use crate::construct::Construct::{self, *};
use crate::number::Number;
use crate::records::{self, body_of, two_bytes, Layout, Reading};
use crate::tree::Tree;

/// A record: a construct whose parts are numbers of earlier records.
pub type Record = Construct<u16>;

pub const MOST_RECORDS: usize = 1024;

pub fn read(file: &[u8]) -> Reading<Record> {
    records::read(&ExpressionFile, file)
}

struct ExpressionFile;

impl Layout for ExpressionFile {
    type Record = Record;

    fn limit(&self) -> usize {
        MOST_RECORDS
    }

    fn length_of(&self, kind: u16) -> Option<usize> {
        match kind {
            1 => Some(4),
            2 => Some(5),
            3 | 6 => Some(6),
            4 | 5 | 7 | 8 => Some(8),
            _ => None,
        }
    }

    fn take(&self, kind: u16, body: &[u8], earlier: &[Record]) -> Result<Record, Number> {
        let record = match kind {
            1 => Silent,
            2 => Event(body[0]),
            3 => Not(two_bytes(body, 0)),
            4 => Either(two_bytes(body, 0), two_bytes(body, 2)),
            5 => Then(two_bytes(body, 0), two_bytes(body, 2)),
            6 => Repeat(two_bytes(body, 0)),
            7 => Notify(two_bytes(body, 0), two_bytes(body, 2)),
            8 => Try(two_bytes(body, 0), two_bytes(body, 2)),
            _ => return Err(Number::UnknownKind),
        };
        let is_earlier = |part: &&u16| usize::from(**part) < earlier.len();
        if !record.parts().iter().all(is_earlier) {
            return Err(Number::NotAnEarlierRecord);
        }
        if earlier.contains(&record) {
            return Err(Number::SameAsEarlierRecord);
        }
        Ok(record)
    }
}

/// The bytes of a file with these records, sound or not.
pub fn write(records: &[Record]) -> Vec<u8> {
    records.iter().flat_map(write_record).collect()
}

pub fn write_record(record: &Record) -> Vec<u8> {
    let (kind, body) = match *record {
        Silent => (1, vec![]),
        Event(event) => (2, vec![event]),
        Not(x) => (3, body_of(&[x])),
        Either(x, y) => (4, body_of(&[x, y])),
        Then(x, y) => (5, body_of(&[x, y])),
        Repeat(x) => (6, body_of(&[x])),
        Notify(x, notices) => (7, body_of(&[x, notices])),
        Try(x, y) => (8, body_of(&[x, y])),
    };
    records::record(kind, &body)
}

/// One tree per record of a file that reads without fault; shared records are shared trees.
pub fn trees(records: &[Record]) -> Vec<Tree> {
    let mut trees: Vec<Tree> = Vec::new();
    for record in records {
        let tree = Tree::new(record.map(|part| trees[usize::from(*part)].clone()));
        trees.push(tree);
    }
    trees
}

/// Size of the rule, which is the last record; 0 if there is no record.
pub fn rule_size(records: &[Record]) -> u64 {
    trees(records).last().map_or(0, Tree::size)
}
