//! Random files of records that read without fault.

use crate::construct::Construct::*;
use crate::expression_file::{self, Record};
use crate::generate::closing::RecordList;
use crate::generate::trees::{random_alphabet, random_notices, tree_of_size};
use crate::random::Random;
use crate::tree::Tree;

/// The file of an expression; equal parts are one record.
pub fn file_of(tree: &Tree) -> Vec<u8> {
    let mut list = RecordList::new();
    list.add(tree);
    expression_file::write(&list.records())
}

/// A rule of exactly this size; equal parts are one record.
pub fn rule_of_size(random: &mut Random, size: usize) -> Vec<Record> {
    let alphabet = random_alphabet(random);
    let mut list = RecordList::new();
    list.add(&tree_of_size(random, &alphabet, size));
    list.records()
}

/// A rule that may run.
pub fn running_rule(random: &mut Random) -> Vec<Record> {
    let size = match random.below(4) {
        0 => random.between(1, 6),
        1 => random.between(60, 64),
        _ => random.between(7, 59),
    };
    rule_of_size(random, size)
}

/// So many records, each over any earlier ones, none of a size above the largest.
///
/// The last record need not use the others, and its size may be out of all proportion.
pub fn records_with_sharing(random: &mut Random, count: usize, largest: u64) -> Vec<Record> {
    let alphabet = random_alphabet(random);
    extended(random, &alphabet, Vec::new(), count, largest)
}

/// Records behind those that are there, until there are so many.
pub fn extended(
    random: &mut Random,
    alphabet: &[u8],
    mut records: Vec<Record>,
    count: usize,
    largest: u64,
) -> Vec<Record> {
    let trees = expression_file::trees(&records);
    let mut sizes: Vec<u64> = trees.iter().map(Tree::size).collect();
    while records.len() < count {
        // An event alone is enough to start with; notify always leaves something new to add.
        let record = if records.is_empty() {
            Event(*random.pick(alphabet))
        } else {
            random_record(random, alphabet, records.len())
        };
        let size = record.parts().iter().fold(1u64, |sum, part| {
            sum.saturating_add(sizes[usize::from(**part)])
        });
        if size <= largest && !records.contains(&record) {
            records.push(record);
            sizes.push(size);
        }
    }
    records
}

fn random_record(random: &mut Random, alphabet: &[u8], earlier: usize) -> Record {
    let x = random_part(random, earlier);
    let y = random_part(random, earlier);
    match random.below(12) {
        0 => Silent,
        1 | 2 => Event(*random.pick(alphabet)),
        3 => Not(x),
        4 | 5 => Either(x, y),
        6 | 7 => Then(x, y),
        8 => Repeat(x),
        9 => Notify(x, random_notices(random)),
        10 => Notify(x, random.number() as u16),
        _ => Try(x, y),
    }
}

/// Mostly one of the latest records, so that parts become deep.
fn random_part(random: &mut Random, earlier: usize) -> u16 {
    let reach = if random.once_in(3) {
        earlier
    } else {
        earlier.min(4)
    };
    (earlier - 1 - random.below(reach)) as u16
}
