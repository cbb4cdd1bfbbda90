//! One fault alone, in as many forms as it has, and the harmless forms next to it.

use super::{about_expressions, about_pairs, Case, Expected, Group};
use crate::construct::Construct::*;
use crate::examples::swap_file;
use crate::expression_file::{self, write_record, Record};
use crate::number::Number::{self, *};
use crate::pair_file::{self, write_pair, Pair};

pub fn groups() -> Vec<Group> {
    vec![
        Group {
            name: "empty files",
            cases: empty_files(),
        },
        about_expressions("records cut short", cut_short()),
        about_expressions("parts that aren't earlier", not_earlier()),
        about_expressions("records met before", met_before()),
        about_pairs("pairs cut short", pairs_cut_short()),
        about_pairs("pairs that name no record", no_such_record()),
    ]
}

/// One record of each kind, all different; the first two are leaves.
pub fn one_of_each() -> Vec<Record> {
    vec![
        Silent,
        Event(b'a'),
        Not(0),
        Either(0, 1),
        Then(0, 1),
        Repeat(0),
        Notify(0, 1),
        Try(0, 1),
    ]
}

fn empty_files() -> Vec<Case> {
    let pair = write_pair(&Pair { left: 0, right: 0 });
    let files = [
        (vec![], vec![]),
        (vec![], pair.clone()),
        (vec![], vec![8, 0]),
        (swap_file(), vec![]),
        (write_record(&Silent), vec![]),
        (expression_file::write(&one_of_each()), vec![]),
        (write_record(&Silent), pair),
    ];
    let cases = files.into_iter().map(|(expression_file, pair_file)| Case {
        expression_file,
        pair_file,
    });
    cases.collect()
}

pub fn cut_short() -> Vec<Expected> {
    let mut files = Vec::new();
    for before in [vec![], write_record(&Event(b'z'))] {
        for left in 1..=3 {
            let header = &write_record(&Event(b'a'))[..left];
            files.push((CutShort, [&before, header].concat()));
        }
    }
    let leaves = expression_file::write(&[Silent, Event(b'a')]);
    for record in &one_of_each()[2..] {
        let bytes = write_record(record);
        for end in [4, bytes.len() - 1] {
            files.push((CutShort, [&leaves, &bytes[..end]].concat()));
        }
    }
    files
}

pub fn not_earlier() -> Vec<Expected> {
    let mut files = Vec::new();
    // Records 0 and 1 are there; the record that follows is number 2.
    let leaves = expression_file::write(&[Silent, Event(b'a')]);
    for part in [2, 65535] {
        for record in [
            Not(part),
            Either(part, 0),
            Either(1, part),
            Then(part, 0),
            Then(1, part),
            Repeat(part),
            Notify(part, 0),
            Try(part, 0),
            Try(1, part),
        ] {
            files.push((
                NotAnEarlierRecord,
                [leaves.clone(), write_record(&record)].concat(),
            ));
        }
    }
    for record in [Not(0), Either(0, 0), Notify(0, 1)] {
        files.push((NotAnEarlierRecord, write_record(&record)));
    }
    // A notice set is no part: it may be larger than any record number.
    files.push((
        Accepted,
        [leaves.clone(), write_record(&Notify(1, 65535))].concat(),
    ));
    files.push((Accepted, [leaves, write_record(&Try(1, 1))].concat()));
    files
}

pub fn met_before() -> Vec<Expected> {
    let all = one_of_each();
    let with_another = |number: Number, record: Record| {
        let mut records = all.clone();
        records.push(record);
        (number, expression_file::write(&records))
    };
    let mut files: Vec<Expected> = all
        .iter()
        .map(|record| with_another(SameAsEarlierRecord, *record))
        .collect();
    // Close to a record that is there, and yet another one.
    for record in [
        Event(b'b'),
        Not(1),
        Either(1, 0),
        Then(1, 0),
        Repeat(1),
        Notify(0, 256),
        Notify(1, 1),
        Notify(0, 0),
        Try(0, 2),
    ] {
        files.push(with_another(Accepted, record));
    }
    files
}

pub fn pairs_cut_short() -> Vec<Expected> {
    let pair = write_pair(&Pair { left: 1, right: 2 });
    let mut files = Vec::new();
    for before in [vec![], pair.clone()] {
        for end in [1, 2, 3, 4, 5, 7] {
            files.push((CutShort, [&before, &pair[..end]].concat()));
        }
    }
    files
}

/// The swap file has records 0 to 8.
pub fn no_such_record() -> Vec<Expected> {
    let mut files = Vec::new();
    for (left, right) in [
        (9, 0),
        (0, 9),
        (9, 9),
        (256, 0),
        (0, 256),
        (2048, 8),
        (65535, 0),
        (8, 65535),
    ] {
        let pair = Pair { left, right };
        files.push((PairNamesNoRecord, write_pair(&pair)));
        let sound = Pair { left: 8, right: 8 };
        files.push((PairNamesNoRecord, pair_file::write(&[sound, pair])));
    }
    for (left, right) in [(8, 8), (0, 8), (8, 0)] {
        files.push((Accepted, write_pair(&Pair { left, right })));
    }
    files
}
