//! Proposals whose files read without fault, and which are at fault in what they claim.

use super::{Case, Group};
use crate::construct::Construct::*;
use crate::expression_file::Record;
use crate::generate::closing::Proposal;
use crate::generate::equations::{proposal_from, EQUATIONS};
use crate::random::Random;

pub fn groups() -> Vec<Group> {
    let group = |name, cases| Group { name, cases };
    vec![
        group("notices differ", notices_differ()),
        group("statuses differ", statuses_differ()),
        group("a remainder isn't in the file", not_in_the_file()),
        group("the remainders aren't listed", not_listed()),
        group("which fault comes first", first_fault()),
        group("each equation, and a pair turned round", turned_round()),
    ]
}

fn notices_differ() -> Vec<Case> {
    let sets = |one, other| [Event(b'a'), Notify(0, one), Notify(0, other), Silent];
    vec![
        Case::claim(&sets(1, 2), &[(1, 2)]),
        Case::claim(&sets(0x0100, 0x0001), &[(1, 2)]),
        Case::claim(&sets(0x8000, 0), &[(1, 1), (2, 2), (1, 2)]),
        Case::claim(&sets(0, 0xffff), &[(0, 1), (0, 2)]),
        // sent by the unless part as the try part completes
        Case::claim(
            &[Event(b'a'), Notify(0, 4), Try(0, 1), Try(0, 0), Silent],
            &[(3, 2)],
        ),
        // on the first and on the last event there is
        Case::claim(&[Event(0), Notify(0, 1), Silent], &[(0, 1)]),
        Case::claim(&[Event(255), Notify(0, 1), Silent], &[(0, 1)]),
        // harmless: the set is never sent, or sent twice
        Case::claim(&[Event(b'a'), Repeat(0), Notify(1, 1)], &[(1, 2)]),
        Case::claim(&[Silent, Notify(0, 1)], &[(0, 1)]),
        Case::claim(
            &[Event(b'a'), Notify(0, 1), Notify(1, 1), Silent],
            &[(1, 2)],
        ),
    ]
}

fn statuses_differ() -> Vec<Case> {
    vec![
        Case::claim(&[Event(b'a'), Not(0), Silent], &[(1, 0)]),
        Case::claim(&[Event(255), Silent], &[(0, 1)]),
        Case::claim(&[Event(0), Silent], &[(1, 0)]),
        // then doesn't succeed with its first part, repeat doesn't succeed at all
        Case::claim(&[Event(b'a'), Then(0, 0), Silent], &[(0, 1)]),
        Case::claim(&[Event(b'a'), Repeat(0), Silent], &[(0, 1)]),
        // a repeat whose part failed has failed
        Case::claim(&[Event(b'a'), Not(0), Repeat(1), Silent], &[(2, 3)]),
        // the try part wins, the unless part ends it
        Case::claim(&[Event(b'a'), Try(0, 0), Not(0), Silent], &[(1, 2)]),
        Case::claim(
            &[Event(b'a'), Event(b'b'), Try(0, 1), Silent],
            &[(0, 0), (2, 0)],
        ),
        Case::claim(
            &[Event(b'a'), Event(b'b'), Either(0, 1), Silent],
            &[(2, 2), (2, 1)],
        ),
    ]
}

fn not_in_the_file() -> Vec<Case> {
    let waits: [Record; 4] = [Event(b'a'), Event(b'b'), Then(0, 1), Then(2, 0)];
    let with = |record: Record| [&waits[..], &[record]].concat();
    vec![
        // silent is missing
        Case::claim(&[Event(b'a')], &[(0, 0)]),
        Case::claim(&[Event(b'a'), Not(0)], &[(1, 1)]),
        // one record leaves what isn't there, though it is paired with itself
        Case::claim(&waits, &[(3, 3)]),
        // missing on the left alone, on the right alone
        Case::claim(&with(Then(0, 0)), &[(3, 4)]),
        Case::claim(&with(Then(0, 0)), &[(4, 3)]),
        // a repeat leaves "what remains then repeat"
        Case::claim(&with(Repeat(2)), &[(4, 4)]),
        Case::claim(&[&with(Repeat(2))[..], &[Then(1, 4)]].concat(), &[(4, 4)]),
        Case::claim(
            &[&with(Repeat(2))[..], &[Then(1, 4), Then(2, 4)]].concat(),
            &[(4, 6)],
        ),
    ]
}

fn not_listed() -> Vec<Case> {
    let unrolled: [Record; 5] = [Event(b'a'), Repeat(0), Then(0, 1), Then(0, 2), Then(0, 3)];
    vec![
        Case::claim(&unrolled, &[(2, 3)]),
        Case::claim(&unrolled, &[(2, 3), (2, 1)]),
        Case::claim(&unrolled, &[(3, 4)]),
        Case::claim(&unrolled, &[(3, 4), (2, 3)]),
        Case::claim(&unrolled, &[(3, 4), (2, 3), (1, 2)]),
        Case::claim(&unrolled, &[(3, 4), (2, 3), (2, 1)]),
        Case::claim(&unrolled, &[(4, 3), (3, 2), (1, 2)]),
        Case::claim(&unrolled, &[(4, 3), (3, 2), (2, 1)]),
        Case::claim(&unrolled, &[(1, 4)]),
        Case::claim(&unrolled, &[(1, 4), (1, 3), (1, 2)]),
    ]
}

/// Pairs in file order, then events, then the order of the tests.
fn first_fault() -> Vec<Case> {
    let by_event = |first, second| -> [Record; 5] {
        [
            Event(first),
            Event(second),
            Notify(1, 1),
            Either(0, 1),
            Silent,
        ]
    };
    let chained: [Record; 6] = [
        Event(0),
        Event(1),
        Then(0, 1),
        Then(2, 0),
        Then(0, 0),
        Then(1, 0),
    ];
    vec![
        Case::claim(&by_event(b'a', b'b'), &[(3, 2)]),
        Case::claim(&by_event(b'b', b'a'), &[(3, 2)]),
        Case::claim(&by_event(b'a', b'b'), &[(4, 4), (0, 2), (3, 2)]),
        Case::claim(&by_event(127, 128), &[(3, 2)]),
        Case::claim(&by_event(128, 127), &[(3, 2)]),
        Case::claim(&by_event(0, 255)[..4], &[(3, 2), (0, 1)]),
        Case::claim(&[Event(0), Notify(0, 1), Then(0, 0)], &[(1, 2)]),
        Case::claim(&[Event(0), Repeat(0)], &[(0, 1)]),
        Case::claim(&chained[..5], &[(3, 4)]),
        Case::claim(&chained, &[(3, 4)]),
        Case::claim(&chained, &[(3, 4), (5, 0)]),
        Case::claim(&chained, &[(4, 4), (5, 5), (2, 2), (5, 0)]),
    ]
}

/// True proposals, and the same with each pair in turn the other way round.
fn turned_round() -> Vec<Case> {
    let mut random = Random::seeded(8);
    let mut cases = Vec::new();
    for equation in 0..EQUATIONS {
        let proposal = small_truth(&mut random, equation);
        cases.push(of(&proposal));
        for index in 0..proposal.pairs.len() {
            let mut turned = proposal.clone();
            let pair = &mut turned.pairs[index];
            (pair.left, pair.right) = (pair.right, pair.left);
            cases.push(of(&turned));
        }
    }
    cases
}

fn small_truth(random: &mut Random, equation: usize) -> Proposal {
    loop {
        match proposal_from(random, equation) {
            Some(truth) if truth.records.len() <= 30 && (2..=4).contains(&truth.pairs.len()) => {
                return truth
            }
            _ => {}
        }
    }
}

pub fn of(proposal: &Proposal) -> Case {
    Case::proposal(&proposal.expression_file(), &proposal.pair_file())
}
