//! Numbers of records and pairs, and sizes, at the edges of what is allowed.

use super::{about_expressions, about_pairs, Expected, Group};
use crate::construct::Construct::*;
use crate::expression_file::{self, write_record, Record};
use crate::generate::limits::{
    chain_of_nots, doubling, many_notifies, past_a_power_of_two, same_pair,
};
use crate::generate::rules::rule_of_size;
use crate::number::Number::*;
use crate::pair_file::{self, write_pair, Pair};
use crate::random::Random;
use crate::records::raw_record;

pub fn groups() -> Vec<Group> {
    vec![
        about_expressions("numbers of records", record_counts()),
        about_pairs("numbers of pairs", pair_counts()),
        about_expressions("sizes", sizes()),
    ]
}

pub fn record_counts() -> Vec<Expected> {
    let mut files = Vec::new();
    let makers: [fn(usize) -> Vec<Record>; 3] = [chain_of_nots, many_notifies, doubling];
    for make in makers {
        files.push((Accepted, expression_file::write(&make(1023))));
        files.push((Accepted, expression_file::write(&make(1024))));
        files.push((TooManyRecords, expression_file::write(&make(1025))));
    }
    files.push((TooManyRecords, expression_file::write(&chain_of_nots(1030))));
    // A fault in the last record that is allowed is that fault and not one too many.
    let almost_full = expression_file::write(&chain_of_nots(1023));
    for (number, last) in [
        (CutShort, vec![6, 0, 3]),
        (UnknownKind, raw_record(6, 16, &[0, 0])),
        (WrongLength, raw_record(7, 3, &[0, 0, 0])),
        (NotAnEarlierRecord, write_record(&Not(1023))),
        (SameAsEarlierRecord, write_record(&Not(1021))),
        (Accepted, write_record(&Repeat(1022))),
    ] {
        files.push((number, [almost_full.clone(), last].concat()));
    }
    files
}

pub fn pair_counts() -> Vec<Expected> {
    let pair = Pair { left: 3, right: 4 };
    let mut files = Vec::new();
    for (number, count) in [
        (Accepted, 1),
        (Accepted, 255),
        (Accepted, 256),
        (TooManyRecords, 257),
        (TooManyRecords, 300),
    ] {
        files.push((number, pair_file::write(&same_pair(pair, count))));
    }
    let almost_full = pair_file::write(&same_pair(pair, 255));
    for (number, last) in [
        (CutShort, vec![8, 0, 16]),
        (UnknownKind, raw_record(8, 17, &[0, 0, 0, 0])),
        (WrongLength, raw_record(7, 16, &[0, 0, 0])),
        (PairNamesNoRecord, write_pair(&Pair { left: 0, right: 9 })),
    ] {
        files.push((number, [almost_full.clone(), last].concat()));
    }
    files
}

pub fn sizes() -> Vec<Expected> {
    let mut files: Vec<Vec<Record>> = Vec::new();
    files.extend([1, 2, 63, 64, 65, 66].map(chain_of_nots));
    let mut random = Random::seeded(64);
    for size in [62, 63, 64, 64, 64, 65, 65, 65, 66] {
        files.push(rule_of_size(&mut random, size));
    }
    // 63 nodes, then 64, 65 and 66 by other ways.
    let sixty_three = doubling(6);
    for last in [Not(5), Notify(5, 7), Either(5, 0), Then(0, 5), Try(5, 1)] {
        files.push([&sixty_three[..], &[last]].concat());
    }
    // A size counted in too few bits would be small here.
    for bits in [6, 8, 16, 32, 64] {
        for nots in 0..=3 {
            files.push(past_a_power_of_two(bits, nots));
        }
    }
    files.push(past_a_power_of_two(128, 2));
    // Only the last record counts, however large the others are.
    files.push([&doubling(100)[..], &[Event(b'b')]].concat());
    files.push([&doubling(100)[..], &[Repeat(0)]].concat());
    let accepted = |records: Vec<Record>| (Accepted, expression_file::write(&records));
    files.into_iter().map(accepted).collect()
}
