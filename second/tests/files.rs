//! The two files: every file made for a number gets that number, and the fixed sequence holds
//! what it should.

use std::collections::HashMap;

use second::cases::{self, faults, layout, limits, orders, Expected};
use second::examples::{swap_file, swap_records};
use second::expression_file;
use second::generate::damage::cut_at_every_byte;
use second::generate::rules::{records_with_sharing, rule_of_size};
use second::number::Number::{self, *};
use second::pair_file::{self, Pair};
use second::random::Random;
use second::records::Reading;

fn expression_lists() -> Vec<Vec<Expected>> {
    vec![
        faults::cut_short(),
        faults::not_earlier(),
        faults::met_before(),
        orders::in_one_record(),
        orders::in_two_records(),
        layout::kinds(),
        layout::lengths(),
        layout::byte_order(),
        limits::record_counts(),
        limits::sizes(),
    ]
}

fn pair_lists() -> Vec<Vec<Expected>> {
    vec![
        faults::pairs_cut_short(),
        faults::no_such_record(),
        orders::in_one_pair(),
        orders::in_two_pairs(),
        layout::pair_kinds(),
        layout::pair_lengths(),
        limits::pair_counts(),
    ]
}

#[test]
fn expression_files_made_for_a_number_get_it() {
    for (number, file) in expression_lists().concat() {
        assert_eq!(expression_file::read(&file).number, number, "{file:?}");
    }
}

#[test]
fn pair_files_made_for_a_number_get_it() {
    for (number, file) in pair_lists().concat() {
        assert_eq!(pair_file::read(&file, 9).number, number, "{file:?}");
    }
}

fn outcome<Record>(reading: &Reading<Record>) -> (Number, usize, usize) {
    (reading.number, reading.place, reading.count())
}

#[test]
fn the_swap_file_cut_at_every_byte() {
    let ends = [5, 10, 15, 20, 28, 36, 44, 52, 58];
    for (length, file) in cut_at_every_byte(&swap_file()).iter().enumerate() {
        let whole = ends.iter().filter(|end| **end <= length).count();
        let start = if whole == 0 { 0 } else { ends[whole - 1] };
        let number = match length {
            0 => EmptyFile,
            _ if start == length => Accepted,
            _ => CutShort,
        };
        let reading = expression_file::read(file);
        assert_eq!(outcome(&reading), (number, start, whole));
        assert_eq!(reading.records, swap_records()[..whole]);
    }
}

#[test]
fn empty_files_are_at_fault_at_their_first_byte() {
    assert_eq!(outcome(&expression_file::read(&[])), (EmptyFile, 0, 0));
    assert_eq!(outcome(&pair_file::read(&[], 9)), (EmptyFile, 0, 0));
}

#[test]
fn the_257th_pair_is_one_too_many() {
    let pairs = vec![Pair { left: 0, right: 0 }; 257];
    let file = pair_file::write(&pairs);
    assert_eq!(
        outcome(&pair_file::read(&file, 1)),
        (TooManyRecords, 2048, 256)
    );
    assert_eq!(
        outcome(&pair_file::read(&file[..2048], 1)),
        (Accepted, 2048, 256)
    );
}

#[test]
fn random_files_read_back_as_they_were_written() {
    let mut random = Random::seeded(1);
    for count in 1..200 {
        let records = records_with_sharing(&mut random, count, u64::MAX);
        let reading = expression_file::read(&expression_file::write(&records));
        assert_eq!((reading.number, reading.count()), (Accepted, count));
        assert_eq!(reading.records, records);
    }
    for size in 1..=70 {
        let records = rule_of_size(&mut random, size);
        let reading = expression_file::read(&expression_file::write(&records));
        assert_eq!(reading.number, Accepted);
        assert_eq!(expression_file::rule_size(&records), size as u64);
    }
}

#[test]
fn the_sequence_is_fixed_and_reads_back() {
    let bytes = cases::write_sequence(&cases::groups());
    assert_eq!(bytes, cases::write_sequence(&cases::groups()));
    assert!(bytes.len() <= 600_000);
    let read_back = cases::read_sequence(&bytes).unwrap();
    let written: Vec<cases::Case> = cases::groups()
        .into_iter()
        .flat_map(|group| group.cases)
        .collect();
    assert_eq!(read_back, written);
    assert_eq!(cases::read_sequence(&bytes[..bytes.len() - 1]), None);
}

#[test]
fn the_sequence_has_each_number_from_different_files() {
    let mut rule_files: HashMap<Number, Vec<Vec<u8>>> = HashMap::new();
    let mut pair_files: HashMap<Number, Vec<Vec<u8>>> = HashMap::new();
    for case in cases::groups().iter().flat_map(|group| &group.cases) {
        let rule = expression_file::read(&case.expression_file);
        if rule.number == Accepted {
            let number = pair_file::read(&case.pair_file, rule.count()).number;
            let both = [&case.expression_file[..], &case.pair_file].concat();
            pair_files.entry(number).or_default().push(both);
        }
        let file = match rule.number {
            // There is only one empty file; what stands beside it differs.
            EmptyFile => &case.pair_file,
            _ => &case.expression_file,
        };
        rule_files
            .entry(rule.number)
            .or_default()
            .push(file.clone());
    }
    let distinct = |files: &HashMap<Number, Vec<Vec<u8>>>, number| {
        let mut files = files.get(&number).cloned().unwrap_or_default();
        files.sort();
        files.dedup();
        files.len()
    };
    for number in [
        Accepted,
        EmptyFile,
        CutShort,
        UnknownKind,
        WrongLength,
        NotAnEarlierRecord,
        SameAsEarlierRecord,
        TooManyRecords,
    ] {
        assert!(distinct(&rule_files, number) >= 3, "rule {number}");
    }
    for number in [
        Accepted,
        EmptyFile,
        CutShort,
        UnknownKind,
        WrongLength,
        TooManyRecords,
        PairNamesNoRecord,
    ] {
        assert!(distinct(&pair_files, number) >= 3, "pairs {number}");
    }
}

#[test]
fn answer_lines_have_the_form_described() {
    let case = |expression_file: Vec<u8>, pairs: &[u8]| {
        cases::answer(&cases::Case {
            expression_file,
            pair_file: pairs.to_vec(),
        })
    };
    assert_eq!(case(swap_file(), &[]), "rule 0 58 9 9\npairs 1 0 0\n");
    assert_eq!(
        case(swap_file(), &[8, 0, 16, 0, 8, 0, 9, 0]),
        "rule 0 58 9 9\npairs 14 0 0\n"
    );
    assert_eq!(case(swap_file()[..57].to_vec(), &[]), "rule 2 52 8 0\n");
    let large = expression_file::write(&second::generate::limits::doubling(1024));
    assert_eq!(
        case(large, &[8, 0, 16, 0, 255, 3, 0, 0]),
        "rule 0 8189 1024 65\npairs 0 8 1\n"
    );
}
