//! The refusals, number by number.

use meadwhistle::Refusal;

const README: &str = include_str!("../../../README.md");
const HEADER: &str = include_str!("../../../include/meadwhistle.h");

/// The rows of the README's table: a number, and its words without the remark in brackets.
fn table() -> Vec<(u8, &'static str)> {
    let row = |line: &'static str| {
        let (number, words) = line
            .strip_prefix("| ")?
            .strip_suffix(" |")?
            .split_once(" | ")?;
        Some((number.parse().ok()?, words.split(" (").next()?))
    };
    README.lines().filter_map(row).collect()
}

#[test]
fn the_table_has_0_to_15_and_17() {
    let numbers: Vec<u8> = table().iter().map(|row| row.0).collect();
    let expected: Vec<u8> = (0..=15).chain([17]).collect();
    assert_eq!(numbers, expected);
}

#[test]
fn every_number_but_0_is_a_refusal_that_keeps_it() {
    assert_eq!(Refusal::from_number(0), None);
    for number in 1..=u8::MAX {
        let refusal = Refusal::from_number(number).unwrap();
        assert_eq!(refusal.number(), number);
        let row = table().into_iter().find(|row| row.0 == number);
        let unlisted = format!("refusal {number}, for which there is no text here");
        assert_eq!(matches!(refusal, Refusal::Unlisted(_)), row.is_none());
        assert_eq!(
            refusal.to_string(),
            row.map_or(unlisted, |row| row.1.to_string())
        );
    }
}

#[test]
fn the_header_lists_the_table() {
    let words = HEADER.split_whitespace().filter(|word| *word != "*");
    let header = words.collect::<Vec<&str>>().join(" ");
    let rows = table()
        .into_iter()
        .map(|(number, words)| format!("{number} {words}"));
    let listed = format!("Numbers: {}.", rows.collect::<Vec<String>>().join("; "));
    assert!(header.contains(&listed), "not in the header: {listed}");
}
