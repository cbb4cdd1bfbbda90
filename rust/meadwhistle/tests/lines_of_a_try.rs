//! Where the try part completes, the unless part's notices are sent and its lines aren't counted.

mod files;

use files::record;
use meadwhistle::{Desk, Status};

const A: u8 = 0;
const NOT_A: u8 = 1;

/// Notices, status and lines of the first event on `try x unless (notify a, 2)`, where x is the number of a record.
fn answer(x: u8, event: u8) -> (u16, Status, u64) {
    let parts = [
        record(2, b"a"),
        record(3, &[A, 0]),
        record(7, &[A, 0, 2, 0]),
    ];
    let rule = [parts.concat(), record(8, &[x, 0, 2, 0])].concat();
    let mut desk = Desk::new();
    desk.open(&rule).unwrap();
    let answer = desk.step(event).unwrap();
    (answer.notices.bits(), answer.status, answer.lines)
}

#[test]
fn a_try_part_that_succeeds() {
    assert_eq!(answer(A, b'a'), (2, Status::Success, 2));
}

#[test]
fn a_try_part_that_fails() {
    assert_eq!(answer(NOT_A, b'a'), (2, Status::Failure, 3));
}

#[test]
fn a_try_part_that_waits() {
    assert_eq!(answer(A, b'b'), (0, Status::Waiting, 4));
    assert_eq!(answer(NOT_A, b'b'), (0, Status::Waiting, 5));
}
