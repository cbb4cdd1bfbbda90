//! The rules of the figures, place by place, and the mistakes that look right.

use second::figures::{react, Reaction};
use second::generate::closing::RecordList;
use second::status::Status::{self, *};
use second::tree::build::{either, event, not, notify, repeat, silent, then, try_unless};
use second::tree::Tree;

/// Equal expressions have equal numbers.
fn same(one: &Tree, other: &Tree) -> bool {
    let mut list = RecordList::new();
    list.add(one) == list.add(other)
}

/// An expression with this status on event 'a', sending these notices there.
///
/// What remains of the waiting one is another expression than before.
fn with_status(status: Status, notices: u16) -> Tree {
    match status {
        Success => notify(&event(b'a'), notices),
        Failure => not(&notify(&event(b'a'), notices)),
        Waiting => then(&notify(&event(b'a'), notices), &event(b'b')),
    }
}

fn on_a(tree: &Tree) -> Reaction {
    react(tree, b'a')
}

#[test]
fn the_parts_used_below_are_as_described() {
    for status in Status::ALL {
        let reaction = on_a(&with_status(status, 4));
        assert_eq!((reaction.status, reaction.notices), (status, 4));
    }
    let rest = on_a(&with_status(Waiting, 4)).remainder;
    assert!(same(&rest, &event(b'b')));
}

#[test]
fn either_at_all_nine_places() {
    let table = [
        [Failure, Waiting, Success],
        [Waiting, Waiting, Success],
        [Success, Success, Success],
    ];
    for (row, first) in Status::ALL.into_iter().enumerate() {
        for (column, second) in Status::ALL.into_iter().enumerate() {
            let (x, y) = (with_status(first, 1), with_status(second, 2));
            let reaction = on_a(&either(&x, &y));
            assert_eq!(reaction.status, table[row][column]);
            assert_eq!(reaction.notices, 3);
            let rest = match (first, second) {
                (Waiting, Waiting) => either(&event(b'b'), &event(b'b')),
                (Waiting, Failure) | (Failure, Waiting) => event(b'b'),
                _ => silent(),
            };
            assert!(same(&reaction.remainder, &rest));
            assert_eq!(reaction.lines, 1 + on_a(&x).lines + on_a(&y).lines);
        }
    }
}

#[test]
fn try_at_all_nine_places() {
    let table = [
        [Failure, Failure, Failure],
        [Waiting, Waiting, Failure],
        [Success, Success, Success],
    ];
    for (row, first) in Status::ALL.into_iter().enumerate() {
        for (column, second) in Status::ALL.into_iter().enumerate() {
            let (x, y) = (with_status(first, 1), with_status(second, 2));
            let reaction = on_a(&try_unless(&x, &y));
            assert_eq!(reaction.status, table[row][column]);
            assert_eq!(reaction.notices, 3);
            let rest = match (first, second) {
                (Waiting, Waiting) => try_unless(&event(b'b'), &event(b'b')),
                (Waiting, Failure) => event(b'b'),
                _ => silent(),
            };
            assert!(same(&reaction.remainder, &rest));
            let of_unless = if first == Waiting { on_a(&y).lines } else { 0 };
            assert_eq!(reaction.lines, 1 + on_a(&x).lines + of_unless);
        }
    }
}

#[test]
fn constructs_over_one_part() {
    for part in Status::ALL {
        let x = with_status(part, 1);
        let rest_of_x = on_a(&x).remainder;
        let lines = 1 + on_a(&x).lines;
        let y = event(b'y');
        let cut_down = if part == Failure { Failure } else { Waiting };
        let opposite = match part {
            Failure => Success,
            Waiting => Waiting,
            Success => Failure,
        };
        let repeated = repeat(&x);
        let sent = if part == Success { 1 | 8 } else { 1 };
        let rows = [
            (not(&x), opposite, 1, not(&rest_of_x), silent()),
            (notify(&x, 8), part, sent, notify(&rest_of_x, 8), silent()),
            (then(&x, &y), cut_down, 1, then(&rest_of_x, &y), y.clone()),
            (
                repeated.clone(),
                cut_down,
                1,
                then(&rest_of_x, &repeated),
                repeated.clone(),
            ),
        ];
        for (tree, status, notices, rest_if_waiting, rest_if_success) in rows {
            let reaction = on_a(&tree);
            assert_eq!((reaction.status, reaction.notices), (status, notices));
            assert_eq!(reaction.lines, lines);
            let rest = match part {
                Waiting => rest_if_waiting,
                Success => rest_if_success,
                Failure => silent(),
            };
            assert!(same(&reaction.remainder, &rest));
        }
    }
}

#[test]
fn leaves_on_every_event() {
    for byte in 0..=255 {
        let reaction = react(&silent(), byte);
        assert_eq!((reaction.status, reaction.notices), (Waiting, 0));
        assert_eq!(reaction.lines, 1);
        assert!(same(&reaction.remainder, &silent()));
        for awaited in 0..=255 {
            let reaction = react(&event(awaited), byte);
            let met = awaited == byte;
            assert_eq!(reaction.status, if met { Success } else { Waiting });
            assert_eq!((reaction.notices, reaction.lines), (0, 1));
            let rest = if met { silent() } else { event(awaited) };
            assert!(same(&reaction.remainder, &rest));
        }
    }
}

#[test]
fn a_repeat_whose_part_failed_is_not_restarted() {
    let failed = on_a(&repeat(&not(&event(b'a'))));
    assert_eq!(failed.status, Failure);
    assert!(same(&failed.remainder, &silent()));
}

#[test]
fn the_unless_part_sends_its_notices_as_the_try_part_completes() {
    let both = try_unless(&event(b'a'), &notify(&event(b'a'), 2));
    let reaction = on_a(&both);
    assert_eq!((reaction.status, reaction.notices), (Success, 2));
}

#[test]
fn the_second_part_of_then_starts_after_the_event_that_ended_the_first() {
    let twice = then(&event(b'a'), &event(b'a'));
    let first = on_a(&twice);
    assert_eq!(first.status, Waiting);
    assert_eq!(on_a(&first.remainder).status, Success);
}

#[test]
fn either_goes_on_after_its_first_failure() {
    let tree = either(&not(&event(b'a')), &event(b'b'));
    let first = on_a(&tree);
    assert_eq!(first.status, Waiting);
    assert_eq!(react(&first.remainder, b'b').status, Success);
}

#[test]
fn a_tree_too_large_to_write_out_reacts() {
    let mut tree = event(b'a');
    for _ in 0..1000 {
        tree = either(&tree, &tree);
    }
    assert_eq!(tree.size(), u64::MAX);
    assert_eq!(on_a(&tree).status, Success);
    let waiting = react(&tree, b'b');
    assert_eq!((waiting.status, waiting.lines), (Waiting, u64::MAX));
    assert_eq!(waiting.remainder.size(), u64::MAX);
}
