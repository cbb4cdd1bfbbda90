//! Proposals: true ones are accepted, spoiled ones get every number there is, and an accepted
//! claim holds when the two rules are run.

use std::collections::HashSet;

use second::construct::Construct::*;
use second::expression_file::{self, Record};
use second::figures::react;
use second::generate::closing::Proposal;
use second::generate::equations::{commuting_chains, proposal_from, true_proposal, EQUATIONS};
use second::generate::feeds::events_for;
use second::generate::limits::{doubling, padded, same_pair};
use second::generate::spoil::spoiled;
use second::number::Number::*;
use second::pair_file::{self, Pair};
use second::proposal::{judge, ShownFile, Verdict};
use second::random::Random;
use second::records::raw_record;

fn verdict_on(proposal: &Proposal) -> Verdict {
    judge(&proposal.expression_file(), &proposal.pair_file())
}

/// Runs both sides of the claim over a feed and compares what they answer.
fn claim_holds(proposal: &Proposal, events: &[u8]) -> bool {
    let trees = expression_file::trees(&proposal.records);
    let claim = proposal.pairs[0];
    let mut left = trees[usize::from(claim.left)].clone();
    let mut right = trees[usize::from(claim.right)].clone();
    events.iter().all(|event| {
        let (of_left, of_right) = (react(&left, *event), react(&right, *event));
        left = of_left.remainder;
        right = of_right.remainder;
        (of_left.status, of_left.notices) == (of_right.status, of_right.notices)
    })
}

#[test]
fn each_equation_is_accepted_in_any_context() {
    let mut random = Random::seeded(3);
    for equation in 0..EQUATIONS {
        let mut seen = 0;
        while seen < 40 {
            let Some(proposal) = proposal_from(&mut random, equation) else {
                continue;
            };
            seen += 1;
            let accepted = Verdict {
                number: Accepted,
                file: ShownFile::Pairs,
                place: 8 * proposal.pairs.len(),
            };
            assert_eq!(verdict_on(&proposal), accepted);
            for _ in 0..5 {
                let events = events_for(&mut random, &proposal.records, 20);
                assert!(claim_holds(&proposal, &events));
            }
        }
    }
}

#[test]
fn spoiled_proposals_get_every_number_and_never_a_false_acceptance() {
    let mut random = Random::seeded(4);
    let mut numbers = HashSet::new();
    for _ in 0..1500 {
        let (_, proposal) = true_proposal(&mut random);
        let proposal = spoiled(&mut random, &proposal);
        let verdict = verdict_on(&proposal);
        numbers.insert(verdict.number.value());
        if verdict.number == Accepted {
            for _ in 0..5 {
                let events = events_for(&mut random, &proposal.records, 20);
                assert!(claim_holds(&proposal, &events));
            }
        }
    }
    for number in [0, 5, 6, 10, 11, 12, 13, 14] {
        assert!(numbers.contains(&number), "{number}");
    }
}

fn judge_records(records: &[Record], pairs: &[(u16, u16)]) -> Verdict {
    let pairs: Vec<Pair> = pairs
        .iter()
        .map(|(left, right)| Pair {
            left: *left,
            right: *right,
        })
        .collect();
    judge(&expression_file::write(records), &pair_file::write(&pairs))
}

#[test]
fn the_pair_at_fault_is_shown() {
    let records = [Silent, Event(b'a'), Event(b'b')];
    let pairs = [(1, 1), (2, 2), (1, 2), (0, 1)];
    let verdict = judge_records(&records, &pairs);
    assert_eq!(
        (verdict.number, verdict.file, verdict.place),
        (StatusesDiffer, ShownFile::Pairs, 16)
    );
    let pair_file = [raw_record(8, 16, &[1, 0, 1, 0]), vec![8, 0, 15]].concat();
    let expression_file = expression_file::write(&records);
    let verdict = judge(&expression_file, &pair_file);
    assert_eq!(verdict.number, CutShort);
    assert_eq!(verdict.shown(&expression_file, &pair_file), [8, 0, 15]);
    let verdict = judge(&expression_file[..13], &pair_file);
    assert_eq!(verdict.number, CutShort);
    assert_eq!(
        verdict.shown(&expression_file[..13], &pair_file),
        &expression_file[9..13]
    );
}

#[test]
fn an_empty_file_is_shown_as_itself() {
    let records = expression_file::write(&[Silent]);
    let pairs = pair_file::write(&[Pair { left: 0, right: 0 }]);
    let shown = |verdict: Verdict| (verdict.number, verdict.file, verdict.place);
    assert_eq!(
        shown(judge(&[], &[])),
        (EmptyFile, ShownFile::Expressions, 0)
    );
    assert_eq!(
        shown(judge(&[], &pairs)),
        (EmptyFile, ShownFile::Expressions, 0)
    );
    assert_eq!(
        shown(judge(&records, &[])),
        (EmptyFile, ShownFile::Pairs, 0)
    );
    assert_eq!(
        shown(judge(&records, &pairs)),
        (Accepted, ShownFile::Pairs, 8)
    );
}

/// Events come before numbers: a later test at a lower event is met first.
#[test]
fn events_decide_before_the_order_of_the_tests() {
    // On 'a' the statuses differ, on 'b' the notices do.
    let records = [Event(b'a'), Event(b'b'), Notify(1, 1), Either(0, 1), Silent];
    assert_eq!(judge_records(&records, &[(3, 2)]).number, StatusesDiffer);
    // The same with the two events exchanged.
    let records = [Event(b'b'), Event(b'a'), Notify(1, 1), Either(0, 1), Silent];
    assert_eq!(judge_records(&records, &[(3, 2)]).number, NoticesDiffer);
    // On 'a' silent is missing, on 'b' the notices differ.
    let records = [
        Event(b'a'),
        Event(b'b'),
        Notify(1, 1),
        Either(0, 1),
        Either(0, 2),
    ];
    let verdict = judge_records(&records, &[(3, 4)]);
    assert_eq!(verdict.number, RemainderNotInFile);
    let with_silent = [&records[..], &[Silent]].concat();
    let verdict = judge_records(&with_silent, &[(3, 4)]);
    assert_eq!(verdict.number, NoticesDiffer);
}

/// The event is 0, the first that is tried. What comes earlier in the order is put right in turn.
#[test]
fn the_order_of_the_tests_on_one_event() {
    let number = |records: &[Record], pairs: &[(u16, u16)]| judge_records(records, pairs).number;
    // Notices and statuses differ, and silent is missing.
    let records = [Event(0), Notify(0, 1), Then(0, 0)];
    assert_eq!(number(&records, &[(1, 2)]), NoticesDiffer);
    // Statuses differ, and silent is missing.
    let records = [Event(0), Repeat(0)];
    assert_eq!(number(&records, &[(0, 1)]), StatusesDiffer);
    // Both wait; one remainder is missing, and the remainders aren't listed.
    let records = [Event(0), Event(1), Then(0, 1), Then(2, 0), Then(0, 0)];
    assert_eq!(number(&records, &[(3, 4)]), RemainderNotInFile);
    assert_eq!(number(&records, &[(4, 3)]), RemainderNotInFile);
    // The remainder is there, and still the remainders aren't listed.
    let records = [&records[..], &[Then(1, 0)]].concat();
    assert_eq!(number(&records, &[(3, 4)]), RemaindersNotListed);
    // Listed at last, they are at fault themselves.
    let verdict = judge_records(&records, &[(3, 4), (5, 0)]);
    assert_eq!((verdict.number, verdict.place), (StatusesDiffer, 8));
}

#[test]
fn proposals_that_fill_their_files() {
    let mut proposal = commuting_chains(16, 16).unwrap();
    assert_eq!(proposal.pairs.len(), 256);
    assert_eq!(commuting_chains(16, 17), None);
    proposal.records = padded(&proposal.records, 1024);
    let verdict = verdict_on(&proposal);
    assert_eq!((verdict.number, verdict.place), (Accepted, 2048));

    let mut one_pair_more = proposal.clone();
    one_pair_more.pairs.push(proposal.pairs[0]);
    let verdict = verdict_on(&one_pair_more);
    assert_eq!(
        (verdict.number, verdict.file, verdict.place),
        (TooManyRecords, ShownFile::Pairs, 2048)
    );

    let mut one_record_more = one_pair_more;
    one_record_more.records = padded(&proposal.records, 1025);
    let verdict = verdict_on(&one_record_more);
    let place = proposal.expression_file().len();
    assert_eq!(
        (verdict.number, verdict.file, verdict.place),
        (TooManyRecords, ShownFile::Expressions, place)
    );

    // Each pair but the claim is needed by one before it.
    for left_out in [1, 100, 255] {
        let mut open = proposal.clone();
        open.pairs.remove(left_out);
        assert_eq!(verdict_on(&open).number, RemaindersNotListed);
    }
}

#[test]
fn files_at_the_limits_are_judged_in_good_time() {
    let mut records = doubling(1023);
    records.push(Silent);
    // Every remainder stands in the file: each record waits as itself, or is done.
    let pair = Pair {
        left: 1022,
        right: 1021,
    };
    let verdict = judge(
        &expression_file::write(&records),
        &pair_file::write(&same_pair(pair, 256)),
    );
    assert_eq!((verdict.number, verdict.place), (Accepted, 2048));
}
