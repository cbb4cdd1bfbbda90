//! The generators that the comparison rests on.

use std::collections::HashSet;

use second::compare::{mix, small, Input};
use second::expression_file::{self, Record};
use second::generate::busy::{busy_rule, different_answers};
use second::generate::equations::true_proposal;
use second::generate::feeds::events_for;
use second::generate::limits::stretched;
use second::generate::renumber::{among_others, renumbered};
use second::generate::rules::{file_of, rule_of_size, running_rule};
use second::number::Number::Accepted;
use second::proposal::judge;
use second::random::Random;
use second::worked::{Call, Case};

#[test]
fn other_numbers_and_more_records_keep_a_proposal_true() {
    let mut random = Random::seeded(11);
    for _ in 0..60 {
        let (_, proposal) = true_proposal(&mut random);
        let renumbered = renumbered(&mut random, &proposal);
        assert_eq!(renumbered.records.len(), proposal.records.len());
        let among_others = among_others(&mut random, &renumbered);
        assert!(among_others.records.len() > proposal.records.len());
        for changed in [renumbered, among_others] {
            let verdict = judge(&changed.expression_file(), &changed.pair_file());
            assert_eq!(verdict.number, Accepted);
        }
    }
}

#[test]
fn a_stretched_rule_is_the_same_rule() {
    let mut random = Random::seeded(12);
    for size in 2..=64 {
        let records = rule_of_size(&mut random, size);
        let stretched = stretched(&records, 1024);
        let reading = expression_file::read(&expression_file::write(&stretched));
        assert_eq!((reading.number, reading.count()), (Accepted, 1024));
        assert_eq!(expression_file::rule_size(&stretched), size as u64);
    }
}

#[test]
fn all_small_rules_and_strings_are_there_once() {
    // By size 1 to 4: 3, 15, 102 and 780.
    let files: Vec<Vec<u8>> = small::trees_up_to(4).iter().map(file_of).collect();
    assert_eq!(files.len(), 900);
    assert_eq!(files.iter().collect::<HashSet<_>>().len(), 900);
    let strings: HashSet<Vec<u8>> = small::byte_strings().collect();
    assert_eq!(strings.len(), 1 + 256 + 65536);
}

/// 364 feeds of at most five events over three, 243 of them of five.
#[test]
fn every_small_rule_meets_every_small_feed() {
    let silent = file_of(&small::trees_up_to(1)[0]);
    let mut feeds = HashSet::new();
    let mut histories = 0;
    for case in small::cases() {
        match case {
            Case::Run {
                rule_file, events, ..
            } if rule_file == silent => {
                feeds.insert(events);
            }
            Case::Desk(calls) if calls[0] == Call::Open(silent.clone()) => {
                histories += 1;
            }
            _ => {}
        }
    }
    assert_eq!((feeds.len(), histories), (364, 243));
}

#[test]
fn a_seed_gives_the_same_random_inputs_of_every_kind() {
    let inputs: Vec<Input> = mix::inputs(2000, 9).collect();
    assert!(inputs.iter().cloned().eq(mix::inputs(2000, 9)));
    assert!(!inputs.iter().cloned().eq(mix::inputs(2000, 10)));
    let count = |is_kind: fn(&Input) -> bool| inputs.iter().filter(|input| is_kind(input)).count();
    assert!(count(|input| matches!(input, Input::Case(Case::Run { .. }))) > 400);
    assert!(count(|input| matches!(input, Input::Case(Case::Desk(_)))) > 200);
    assert!(count(|input| matches!(input, Input::Case(Case::Printer(_)))) > 200);
    assert!(count(|input| matches!(input, Input::FoundDesk(_))) > 60);
    // Judging is slow.
    let proposals = count(|input| matches!(input, Input::Case(Case::Proposal { .. })));
    assert!(proposals > 100 && proposals < 400);
}

#[test]
fn busy_rules_answer_more_than_others() {
    let mut random = Random::seeded(13);
    let mut answers_of = |make: fn(&mut Random) -> Vec<Record>| -> usize {
        let rules = (0..60).map(|_| {
            let records = make(&mut random);
            let events = events_for(&mut random, &records, 40);
            different_answers(&records, &events)
        });
        rules.sum()
    };
    assert!(answers_of(busy_rule) > 2 * answers_of(running_rule));
}
