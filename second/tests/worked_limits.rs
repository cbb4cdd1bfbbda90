//! The worked examples at the limits: sizes, records, room, place.

use second::desk::Desk;
use second::examples::swap_file;
use second::expression_file;
use second::feed;
use second::generate::feeds::printer_input;
use second::generate::limits::{chain_of_nots, many_notifies};
use second::number::Number::*;
use second::printer::printed;

#[test]
fn sizes_64_and_65() {
    let file = |size| expression_file::write(&chain_of_nots(size));
    let input = |size| printer_input(file(size).len() as u16, &file(size), b"");
    assert_eq!(printed(&input(64)), "rule 64\n");
    assert_eq!(printed(&input(65)), "refused 8\n");
    assert_eq!(Desk::empty().open(&file(64)), Accepted);
    assert_eq!(Desk::empty().open(&file(65)), RuleTooLarge);
    assert_eq!(feed::run(&file(64), b"", &mut [], 0).number, Accepted);
    assert_eq!(feed::run(&file(65), b"", &mut [], 0).number, RuleTooLarge);
}

#[test]
fn records_1024_and_1025() {
    let read = |count| expression_file::read(&expression_file::write(&many_notifies(count)));
    let full = read(1024);
    assert_eq!((full.number, full.count()), (Accepted, 1024));
    assert_eq!(full.place, 5 + 1023 * 8);
    let beyond = read(1025);
    assert_eq!((beyond.number, beyond.count()), (TooManyRecords, 1024));
    assert_eq!(beyond.place, 5 + 1023 * 8);
}

#[test]
fn room_7_and_6_for_one_event() {
    let mut buffer = [9; 7];
    let outcome = feed::run(&swap_file(), b"o", &mut buffer, 0);
    assert_eq!((outcome.number, outcome.written), (Accepted, 7));
    assert_eq!(buffer, [7, 0, 32, 0, 0, 0, 0]);

    let mut buffer = [9; 6];
    let outcome = feed::run(&swap_file(), b"o", &mut buffer, 0);
    assert_eq!((outcome.number, outcome.written), (NoRoom, 0));
    assert_eq!(buffer, [9; 6]);

    let mut buffer = [9; 8];
    let outcome = feed::run(&swap_file(), b"o", &mut buffer, 2);
    assert_eq!((outcome.number, outcome.written), (NoRoom, 0));
    assert_eq!(buffer, [9; 8]);
}

#[test]
fn place_at_the_end_with_no_events() {
    let mut buffer = [9; 4];
    let outcome = feed::run(&swap_file(), b"", &mut buffer, 4);
    assert_eq!((outcome.number, outcome.written), (Accepted, 0));
    let outcome = feed::run(&swap_file(), b"", &mut buffer, 5);
    assert_eq!((outcome.number, outcome.written), (NoRoom, 0));
    assert_eq!(buffer, [9; 4]);
}
