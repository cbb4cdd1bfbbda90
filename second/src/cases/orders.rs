//! Two faults at once: in one record, where the order of the tests decides, and in two records,
//! where the first one at fault decides.
//!
//! One pair of faults can't be had: a record equal to an earlier one names earlier parts, as the
//! earlier one did. So 5 and 6 never stand in one record.

use super::{about_expressions, about_pairs, Case, Expected, Group};
use crate::construct::Construct::*;
use crate::expression_file::{self, write_record, MOST_RECORDS};
use crate::generate::limits::{chain_of_nots, same_pair};
use crate::number::Number::*;
use crate::pair_file::{self, write_pair, Pair, MOST_PAIRS};
use crate::records::raw_record;

pub fn groups() -> Vec<Group> {
    vec![
        about_expressions("two faults in one record", in_one_record()),
        about_expressions("two records at fault", in_two_records()),
        about_pairs("two faults in one pair", in_one_pair()),
        about_pairs("two pairs at fault", in_two_pairs()),
        Group {
            name: "both files at fault",
            cases: in_both_files(),
        },
    ]
}

pub fn in_one_record() -> Vec<Expected> {
    // Records 0 to 2 stand before the faulty one.
    let before = expression_file::write(&[Event(b'a'), Not(0), Either(0, 1)]);
    let faults = [
        // header cut short, and an unknown kind as far as it can be seen
        (CutShort, vec![4, 0, 99]),
        (CutShort, vec![0, 0, 0]),
        // header cut short, and a wrong length
        (CutShort, vec![99, 0, 2]),
        (CutShort, vec![255, 255]),
        // unknown kind and a length that belongs to no kind
        (UnknownKind, raw_record(0, 9, &[])),
        (UnknownKind, raw_record(7, 0, &[0, 0, 0])),
        (UnknownKind, raw_record(65535, 16, &[0, 0, 0, 0])),
        // unknown kind and cut short
        (UnknownKind, raw_record(8, 9, &[])),
        (UnknownKind, raw_record(8, 16, &[0, 0])),
        // unknown kind and parts that aren't earlier
        (UnknownKind, raw_record(8, 9, &[255, 255, 255, 255])),
        // unknown kind and otherwise the bytes of an earlier record
        (UnknownKind, raw_record(6, 0x103, &[0, 0])),
        // wrong length and cut short
        (WrongLength, raw_record(6, 2, b"b")),
        (WrongLength, raw_record(9, 4, &[0, 0, 0, 0])),
        (WrongLength, raw_record(65535, 3, &[1, 0])),
        (WrongLength, raw_record(8, 6, &[])),
        // wrong length and a part that isn't earlier
        (WrongLength, raw_record(9, 4, &[255, 255, 255, 255, 0])),
        (WrongLength, raw_record(7, 3, &[3, 0, 0])),
        (WrongLength, raw_record(4, 6, &[])),
        // wrong length and the bytes of an earlier record
        (WrongLength, raw_record(6, 2, b"a\0")),
        (WrongLength, raw_record(9, 4, &[0, 0, 1, 0, 0])),
        // cut short and a part that isn't earlier
        (CutShort, raw_record(8, 4, &[255, 255])),
        (CutShort, raw_record(8, 8, &[0, 0, 255])),
        (CutShort, raw_record(6, 3, &[3])),
        // cut short and so far the bytes of an earlier record
        (CutShort, raw_record(6, 3, &[0])),
        (CutShort, raw_record(8, 4, &[0, 0, 1])),
        (CutShort, raw_record(5, 2, &[])),
        // the nearest there is to a part that isn't earlier in a record met before
        (NotAnEarlierRecord, write_record(&Either(0, 3))),
        (NotAnEarlierRecord, write_record(&Not(3))),
    ];
    let mut files: Vec<Expected> = faults
        .into_iter()
        .map(|(number, bytes)| (number, [before.clone(), bytes].concat()))
        .collect();
    files.extend(behind_the_last_record());
    files
}

/// Whatever follows the last record that is allowed, it is one too many.
fn behind_the_last_record() -> Vec<Expected> {
    let full = expression_file::write(&chain_of_nots(MOST_RECORDS));
    let behind = [
        vec![6],
        vec![6, 0],
        vec![0, 0, 0],
        raw_record(6, 9, &[0, 0]),
        raw_record(5, 3, &[0, 0]),
        raw_record(6, 6, &[0]),
        write_record(&Repeat(1024)),
        write_record(&Not(0)),
    ];
    let extended = behind.map(|bytes| (TooManyRecords, [full.clone(), bytes].concat()));
    extended.to_vec()
}

pub fn in_two_records() -> Vec<Expected> {
    let event = write_record(&Event(b'a'));
    let unknown = raw_record(4, 9, &[]);
    let wrong_length = raw_record(5, 1, &[0]);
    let not_earlier = write_record(&Not(200));
    let cut = vec![8, 0, 4];
    let two = |number, first: &[u8], second: &[u8]| (number, [&event, first, second].concat());
    vec![
        two(UnknownKind, &unknown, &wrong_length),
        two(WrongLength, &wrong_length, &unknown),
        two(WrongLength, &wrong_length, &not_earlier),
        two(NotAnEarlierRecord, &not_earlier, &wrong_length),
        two(NotAnEarlierRecord, &not_earlier, &event),
        two(SameAsEarlierRecord, &event, &not_earlier),
        two(SameAsEarlierRecord, &event, &unknown),
        two(SameAsEarlierRecord, &event, &cut),
        two(UnknownKind, &unknown, &cut),
        two(WrongLength, &wrong_length, &cut),
    ]
}

pub fn in_one_pair() -> Vec<Expected> {
    let before = write_pair(&Pair { left: 0, right: 8 });
    let faults = [
        (CutShort, vec![8, 0, 99]),
        (CutShort, vec![99, 0]),
        (UnknownKind, raw_record(0, 1, &[])),
        (UnknownKind, raw_record(9, 17, &[0, 0, 0, 0, 0])),
        (UnknownKind, raw_record(8, 4, &[0])),
        (UnknownKind, raw_record(8, 15, &[255, 255, 255, 255])),
        (WrongLength, raw_record(9, 16, &[0, 0, 0, 0])),
        (WrongLength, raw_record(65535, 16, &[0, 0, 0, 0])),
        (WrongLength, raw_record(7, 16, &[255, 255, 255])),
        (WrongLength, raw_record(4, 16, &[])),
        (CutShort, raw_record(8, 16, &[255, 255])),
        (CutShort, raw_record(8, 16, &[255, 255, 0])),
        (CutShort, raw_record(8, 16, &[9, 0, 0])),
    ];
    let mut files: Vec<Expected> = faults
        .into_iter()
        .map(|(number, bytes)| (number, [before.clone(), bytes].concat()))
        .collect();
    let full = pair_file::write(&same_pair(Pair { left: 0, right: 8 }, MOST_PAIRS));
    for behind in [
        vec![8],
        vec![8, 0, 16],
        raw_record(8, 1, &[0, 0, 0, 0]),
        raw_record(7, 16, &[0, 0, 0]),
        raw_record(8, 16, &[0, 0]),
        write_pair(&Pair { left: 9, right: 9 }),
    ] {
        files.push((TooManyRecords, [full.clone(), behind].concat()));
    }
    files
}

pub fn in_two_pairs() -> Vec<Expected> {
    let no_record = write_pair(&Pair { left: 9, right: 0 });
    let unknown = write_record(&Either(0, 0));
    let wrong_length = raw_record(9, 16, &[0, 0, 0, 0, 0]);
    vec![
        (PairNamesNoRecord, [&no_record[..], &unknown].concat()),
        (PairNamesNoRecord, [&no_record[..], &wrong_length].concat()),
        (UnknownKind, [&unknown[..], &no_record].concat()),
        (WrongLength, [&wrong_length[..], &no_record].concat()),
    ]
}

/// The expression file comes first, whatever its number is.
fn in_both_files() -> Vec<Case> {
    let mut cases = Vec::new();
    for expression_file in [
        vec![],
        vec![4, 0, 1],
        raw_record(4, 9, &[]),
        write_record(&Not(0)),
    ] {
        for pair_file in [vec![], vec![8], write_pair(&Pair { left: 9, right: 9 })] {
            cases.push(Case {
                expression_file: expression_file.clone(),
                pair_file,
            });
        }
    }
    cases
}
