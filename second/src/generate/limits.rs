//! Files at the edges of what is allowed.

use crate::construct::Construct::*;
use crate::expression_file::Record;
use crate::pair_file::Pair;

/// An event and a not around each record: size and number of records are the same.
pub fn chain_of_nots(count: usize) -> Vec<Record> {
    let nots = (0..).map(Not);
    std::iter::once(Event(b'a'))
        .chain(nots)
        .take(count)
        .collect()
}

/// Each record holds the one before twice: record k has 2 to the power k + 1, less 1, nodes.
pub fn doubling(count: usize) -> Vec<Record> {
    let doubles = (0..).map(|part| Either(part, part));
    std::iter::once(Event(b'a'))
        .chain(doubles)
        .take(count)
        .collect()
}

/// Many records of size 2: the rule runs however many there are.
pub fn many_notifies(count: usize) -> Vec<Record> {
    let notifies = (0..).map(|notices| Notify(0, notices));
    std::iter::once(Event(b'a'))
        .chain(notifies)
        .take(count)
        .collect()
}

/// Doubled until one node is missing to a power of two, then so many nots.
///
/// With 1 or 2 nots a size kept in that many bits would start again from 0.
pub fn past_a_power_of_two(bits: u16, nots: u16) -> Vec<Record> {
    let mut records = doubling(usize::from(bits));
    records.extend((0..nots).map(|more| Not(bits - 1 + more)));
    records
}

/// Records that nothing needs behind those that are there, until there are so many.
pub fn padded(records: &[Record], count: usize) -> Vec<Record> {
    let mut padded = records.to_vec();
    let mut unused = (0..=u16::MAX)
        .map(|notices| Notify(0, notices))
        .filter(|record| !records.contains(record));
    while padded.len() < count {
        padded.extend(unused.next());
    }
    padded
}

/// The same rule in so many records: those that nothing needs stand before its last.
///
/// A rule of one record has none that could stand before it, and stays as it is.
pub fn stretched(records: &[Record], count: usize) -> Vec<Record> {
    if records.len() < 2 {
        return records.to_vec();
    }
    let mut stretched = padded(records, count);
    let last = stretched.remove(records.len() - 1);
    stretched.push(last);
    stretched
}

/// The same pair so many times: repeats are allowed.
pub fn same_pair(pair: Pair, count: usize) -> Vec<Pair> {
    vec![pair; count]
}
