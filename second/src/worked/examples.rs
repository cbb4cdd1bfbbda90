//! The worked examples of document 01 and the mistakes that look right.

use super::{Case, Group};
use crate::construct::Construct::*;
use crate::examples::{swap_file, swap_records};
use crate::expression_file::{self, Record};
use crate::generate::rules::file_of;
use crate::tree::build::{either, event, not, notify, repeat, silent, then, try_unless};
use crate::tree::Tree;

pub fn groups() -> Vec<Group> {
    let group = |name, cases| Group { name, cases };
    vec![
        group("P1 to P4", in_three_ways(&p1_to_p4())),
        group("P5 to P10", p5_to_p10()),
        group("the nine places of either and try", nine_places()),
        group("mistakes that look right", in_three_ways(&mistakes())),
        group("finished rules stepped on", finished()),
    ]
}

/// A rule file and a feed for it.
type Example = (Vec<u8>, &'static [u8]);

/// Each as a whole feed between bytes that stay, step by step, and printed.
fn in_three_ways(examples: &[Example]) -> Vec<Case> {
    let three_ways = |(rule_file, events): &Example| {
        [
            Case::run(rule_file, events, 7 * events.len() + 11, 5),
            Case::desk(rule_file, events),
            Case::printer(rule_file, events),
        ]
    };
    examples.iter().flat_map(three_ways).collect()
}

fn p1_to_p4() -> Vec<Example> {
    let [o, a, c, w] = [b'o', b'a', b'c', b'w'].map(event);
    // P3: the supplier's form, with the first notice sent at a.
    let shift = notify(&then(&notify(&a, 1), &c), 2);
    let suppliers_form = repeat(&then(&o, &try_unless(&shift, &w)));
    vec![
        (swap_file(), b"oacoawc"),
        (swap_file(), b"oac"),
        (file_of(&suppliers_form), b"oaw"),
        (file_of(&suppliers_form), b"oacoacow"),
        (file_of(&try_unless(&a, &a)), b"a"),
    ]
}

fn p5_to_p10() -> Vec<Case> {
    let either_way: [Record; 5] = [Event(b'a'), Event(b'b'), Either(0, 1), Either(1, 0), Silent];
    let unrolled: [Record; 4] = [Event(b'a'), Repeat(0), Then(0, 1), Then(0, 2)];
    vec![
        Case::claim(&either_way, &[(2, 3)]),
        Case::claim(&either_way[..4], &[(2, 3)]),
        Case::claim(&unrolled[..3], &[(1, 2)]),
        Case::claim(&[Event(b'a'), Notify(0, 1), Notify(0, 2)], &[(1, 2)]),
        Case::claim(&[Event(b'a'), Not(0)], &[(0, 1)]),
        Case::claim(&unrolled, &[(2, 3)]),
        Case::claim(&unrolled, &[(2, 3), (1, 2)]),
        Case::claim(&unrolled, &[(2, 3), (2, 1)]),
        Case::claim(&swap_records(), &[(8, 8)]),
    ]
}

/// On a one succeeds, one fails and one waits, each with notices; what waits for b then goes on.
fn nine_places() -> Vec<Case> {
    let with_each_status = |notices| {
        let a = notify(&event(b'a'), notices);
        [a.clone(), not(&a), then(&a, &event(b'b'))]
    };
    let mut cases = Vec::new();
    for x in with_each_status(1) {
        for y in with_each_status(0x0200) {
            for tree in [either(&x, &y), try_unless(&x, &y)] {
                let rule_file = file_of(&tree);
                cases.push(Case::run(&rule_file, b"ab", 14, 0));
                cases.push(Case::desk(&rule_file, b"zabb"));
            }
        }
    }
    cases
}

fn mistakes() -> Vec<Example> {
    let [a, b] = [b'a', b'b'].map(event);
    vec![
        // a repeat whose body failed
        (file_of(&repeat(&not(&a))), b"aaba"),
        (file_of(&repeat(&notify(&not(&then(&b, &a)), 4))), b"abbaba"),
        // both parts of try at once
        (file_of(&try_unless(&notify(&a, 1), &notify(&a, 2))), b"ba"),
        (file_of(&try_unless(&a, &notify(&a, 0x8000))), b"a"),
        // the second part of then starts on the next event
        (file_of(&then(&a, &notify(&a, 1))), b"aaa"),
        (file_of(&then(&a, &then(&a, &notify(&b, 8)))), b"aabb"),
        // either goes on after its first failure
        (file_of(&either(&not(&a), &notify(&b, 1))), b"abb"),
        (file_of(&either(&notify(&b, 1), &not(&a))), b"ab"),
        // the try part goes on once the unless part has failed
        (file_of(&try_unless(&then(&a, &b), &not(&a))), b"ab"),
        // a repeat keeps its whole body for the next round
        (file_of(&repeat(&notify(&then(&a, &b), 2))), b"abaabab"),
        (
            file_of(&repeat(&repeat(&then(&a, &notify(&b, 1))))),
            b"abbab",
        ),
    ]
}

/// What has completed stays open and silent: one line a step, whatever the event.
fn finished() -> Vec<Case> {
    let [a, b] = [b'a', b'b'].map(event);
    let trees: [Tree; 5] = [
        a.clone(),
        not(&notify(&a, 0xffff)),
        try_unless(&then(&b, &a), &notify(&a, 1)),
        either(&then(&b, &b), &notify(&a, 1)),
        silent(),
    ];
    let mut cases: Vec<Case> = trees
        .iter()
        .map(|tree| Case::desk(&file_of(tree), b"aabb\0\xff"))
        .collect();
    cases.push(Case::desk(&swap_file(), b"owoacow"));
    let swap_twice = expression_file::write(&[&swap_records()[..], &[Then(8, 8)]].concat());
    cases.push(Case::desk(&swap_twice, b"oacowoac"));
    cases
}
